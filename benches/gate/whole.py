#!/usr/bin/env python3
"""The whole gate: whether the documents name what is there, every proof, test and program by `rt ci`, and the wrong bodies.

    python3 -B benches/gate/whole.py        # as `gate` calls it, under minutes.py, which says what it costs

The last line is the verdict, 'N passed, M failed': crates, edits in must-fail, wrong bodies, and the looks at documents.
"""

import pathlib
import re
import shutil
import subprocess
import sys

ROOT = pathlib.Path(__file__).resolve().parents[2]
OWN = [sys.executable, "-B"]
LOOKS = {
    "documents or imports name what isn't there": ["benches/words/names.py"],
    "PROMISES.md isn't its script's": ["benches/words/ledger.py", "--check"],
}


def forget_libraries():
    """Removes libraries that an earlier `rt ci` left: what stands there after this one is this one's."""
    for folder in ROOT.glob("crates/*/out/rlib"):
        if not (folder / "stamp").exists():
            shutil.rmtree(folder, ignore_errors=True)


def date_libraries():
    """Dates the libraries that `rt ci` left by now: one that it kept from an earlier run is older than the sources of a
    fresh clone, and would be built anew for the wrong bodies."""
    for form in ROOT.glob("crates/*/out/rlib/*.rlib/format"):
        # a file of its own: the kept one, which it may be linked to, stays as it is
        made = form.with_name("format.dated")
        shutil.copyfile(form, made)
        made.replace(form)


def ran(words, verdict):
    """Runs a command, passes its output on, and answers the two counts of its last line."""
    process = subprocess.Popen(words, cwd=ROOT, stdout=subprocess.PIPE, text=True, errors="replace")
    last = ""
    for line in process.stdout:
        print(line, end="", flush=True)
        last = line
    found = re.fullmatch(verdict, last.strip())
    if not found:
        return 0, 1
    passed, failed = int(found[1]), int(found[2])
    return passed, max(failed, 1 if process.wait() else 0)


def main():
    for why, words in LOOKS.items():
        if subprocess.run([*OWN, *words], cwd=ROOT, check=False).returncode:
            print(f"0 passed, 1 failed: {why}")
            return 1
    forget_libraries()
    passed, failed = ran([*OWN, "benches/gate/rt.py", "ci"], r"(\d+) passed, (\d+) failed")
    if not failed:
        date_libraries()
        for words in (["--selftest"], []):
            more, wrong = ran([*OWN, "benches/gate/bodies.py", *words], r"(\d+) \w+, (\d+) failed")
            passed, failed = passed + more, failed + wrong
    print(f"{passed} passed, {failed} failed")
    return 1 if failed else 0


if __name__ == "__main__":
    sys.exit(main())
