#!/usr/bin/env python3
"""A test of try.py: whether it tells what is wrong. It takes two minutes, of which `rt try` takes nearly all.

    python3 -B benches/gate/try_test.py
"""

import contextlib
import importlib
import io
import os
import pathlib
import sys
import tempfile
import unittest

sys.path.insert(0, str(pathlib.Path(__file__).parent))
trying = importlib.import_module("try")

COPIES = """#![tactic(auto)]

use std::io;

fn main(rt: HostRuntime) -> io::Result<()> {
    for line in rt.lines(rt.alloc()) {
        let line = line?;
        println!(rt; "{line}")?;
    }
    Ok(())
}
"""
ADDS = """#![tactic(auto)]

#[test]
fn one_and_one(rt: HostRuntime) {
    assert!(rt; 1u8.wrapping_add(1u8) == %du8);
}
"""
# A repository of which two things are right.
SMALL = {
    "crates.txt": "copies:\nother_output:\nother_status:\nadds:\nadds_wrongly:\n",
    "README.md": "    (cd crates/copies && rt try -- words < stdin)\n\nIt prints\n\n    two\n    one\n",
    "crates/adds/src/lib.rt": ADDS % 2,
    "crates/adds_wrongly/src/lib.rt": ADDS % 3,
    "crates/other_status/status": "1\n",
}
for name, output in (("copies", "one\ntwo\n"), ("other_output", "one\n"), ("other_status", "one\ntwo\n")):
    SMALL[f"crates/{name}/src/main.rt"], SMALL[f"crates/{name}/stdin"] = COPIES, "one\ntwo\n"
    SMALL[f"crates/{name}/stdout"] = output


# A hub, its peer and an `rt` in Python, which do as little as the letter needs; and what is written about them.
RT = """#!/usr/bin/env python3
import pathlib, subprocess, sys
words = sys.argv
cases = pathlib.Path(words[words.index("--cases") + 1])
print("case=1-stored run=ended status=0 runners=2 proved=no")
room = cases.parent
(room / "tables.toml").write_text(pathlib.Path(words[-1].partition("=")[2]).read_text())
(room / "program").write_text(HUB)
hub = subprocess.Popen([sys.executable, "program", *(cases / "3-serve.args").read_text().split()], cwd=room)
print(f"checked: fault kind=signal: the program was killed by signal {-hub.wait()} (SIGINT)" * (hub.returncode < 0))
print("case=3-serve run=fault proved=no")
print("cases=2 ended=1 fault=1 differs=0 no-answer=0 proved=no")
"""
HUB = """import re, socket, sys, time
ports = re.findall(r"port = (.*)", open(sys.argv[-1]).read())
lines = [socket.create_server(("127.0.0.1", int(port))) for port in ports]
time.sleep(60)
"""
OTHER_HUB = HUB.replace("time.sleep", "import signal\nsignal.signal(signal.SIGINT, lambda *_: sys.exit(1))\ntime.sleep")
PEER = """import pathlib, socket, sys, time
_, _, port, task, *words = sys.argv
socket.create_connection(("127.0.0.1", int(port))).close()
try:
    if task == "listen":
        print("HELLO", flush=True)
        time.sleep(60)
    elif task == "receive":
        pathlib.Path(words[0]).mkdir()
        pathlib.Path(words[0], "A.1").write_text("a letter")
        print(f"{words[0]}/A.1: 1 lines")
except KeyboardInterrupt:
    pass
"""
LETTERS = {
    "crates.txt": "hub:\n",
    "crates/hub/src/main.rt": "",
    "README.md": """Open terminals, and in each `cd letters`.

    ../crates/hub/out/hub serve --tables tables.toml    # 1, until Ctrl-C
    python3 peer.py --port 2704 listen                  # 2
    python3 peer.py --port 2703 tell HELLO              # 3
    python3 peer.py --port 2703 send letter.txt         # 3
    python3 peer.py --port 2704 receive /tmp/inbox      # 2

There end `listen` there by Ctrl-C. The last prints `/tmp/inbox/A.1: 1 lines`.
""",
    "letters/README.md": "    HELLO\n\nand then\n\n    /tmp/inbox/A.1: 1 lines\n",
    "letters/tables.toml": "port = 2703\nport = 2704\n",
    "letters/letter.txt": "a letter",
    "letters/peer.py": PEER,
    "bin/rt": RT.replace("HUB", repr(HUB)),
}
# What is changed of it, and what is told of it then.
OTHER_LETTERS = [
    ({}, "hub: README's letter passed"),
    ({"letters/letter.txt": "another"}, "hub: README's letter FAILED: what came is 'a letter', and not letter.txt"),
    ({"letters/README.md": "    HELLO\n"}, "hub: README's letter FAILED: `/tmp/inbox/A.1: 1 lines` isn't where"),
    ({"letters/peer.py": "raise SystemExit(3)\n"}, f"hub: README's letter FAILED: {sys.executable} peer.py"),
    ({"letters/tables.toml": "port = 2703\n"}, "hub FAILED: Wrong: tables.toml has no port 2704"),
    ({"bin/rt": "#!/bin/sh\nexit 2\n"}, "hub: README's letter FAILED: the hub never listened"),
    ({"bin/rt": RT.replace("HUB", repr(OTHER_HUB))}, "hub: README's letter FAILED: the hub ended otherwise than by"),
]


def said_of(files):
    """What try.py prints of a repository of these files, and whether all passed."""
    with tempfile.TemporaryDirectory() as folder, contextlib.redirect_stdout(io.StringIO()) as said:
        for path, text in ((pathlib.Path(folder, name), text) for name, text in files.items()):
            path.parent.mkdir(parents=True, exist_ok=True)
            path.write_text(text, encoding="utf-8")
            path.chmod(0o755)
        pathlib.Path(folder, ".git").mkdir()
        before = os.environ["PATH"]
        os.environ["PATH"] = f"{folder}/bin:{before}"
        is_well = trying.try_all(trying.Repository(pathlib.Path(folder)))
        os.environ["PATH"] = before
    return said.getvalue().splitlines(), is_well


class Tries(unittest.TestCase):
    def assert_told(self, start, lines):
        self.assertTrue(any(line.startswith(start) for line in lines), "\n".join([start, "is not in", *lines]))

    def test_what_is_wrong_is_told(self):
        lines, is_well = said_of(SMALL)
        self.assertFalse(is_well)
        self.assertEqual(lines[-1], "2 passed, 5 failed", lines)
        for start in (
            "README's letter FAILED",
            "copies: its stored run passed",
            "copies: README's first step FAILED: README.md has the line 'one'",
            "other_output: its stored run FAILED: what it printed",
            "other_status: its stored run FAILED: run=ended status=0, and status 1 is wanted",
            "adds: 1 tests passed",
            "adds_wrongly: 1 tests FAILED: status 101",
        ):
            self.assert_told(start, lines)

    def test_another_letter_is_told(self):
        for changed, start in OTHER_LETTERS:
            with self.subTest(start):
                self.assert_told(start, said_of({**LETTERS, **changed})[0])

    def test_readme_has_its_commands(self):
        repository = trying.Repository(trying.ROOT)
        self.assertEqual(repository.wrong, [])
        with tempfile.TemporaryDirectory() as folder:
            trying.Letter(pathlib.Path(folder), trying.ROOT, *repository.commands[trying.LETTER][1:])


if __name__ == "__main__":
    unittest.main()
