#!/usr/bin/env python3
"""Whether the documents name what there is. Prints each name in backquotes of README.md and docs/*.md that is in no
source file, each wrong body that docs/PROMISES.md leaves out, each clause, as in `Hub::take`: `taken`, `step`, that no
function of that name has, each diff in a document that doesn't apply, and each import of the sources that leads nowhere
(imports.py). If nothing is printed all are right, else the status is 1."""

import os
import pathlib
import re
import sys

from imports import wrong_imports

ROOT = pathlib.Path(__file__).resolve().parents[2]
KINDS = {".rt", ".antt", ".edit", ".toml", ".py", ".sh", ".c", ".txt", ".cases"}
WORD = re.compile(r"[A-Za-z_][\w-]*")
CLAUSES = re.compile(r"`([\w:]+)`: ((?:`\w+`(?:, | and )?)+)")
CONTRACT = re.compile(r"\bfn (\w+)(.*?)(?=\bfn \w+|\Z)", re.S)

# what documents name of elsewhere: the toolchain's words, the system's, an emulator's settings
ELSEWHERE = {"RT_JOBS", "version", "logic", "memcpy", "memmove", "memset", "rattle_dealloc", "ETO", "RTO", "systemctl", "tcpdump"}


def sources():
    for folder, folders, files in os.walk(ROOT):
        folders[:] = sorted({*folders} - {"out", ".git", "docs"})
        for path in (pathlib.Path(folder, file) for file in sorted(files)):
            if path.suffix in KINDS:
                yield path, path.read_text(encoding="utf-8")


def named(text):
    """The names in backquotes, outside blocks of code, with their lines. Bytes, times and places of fields are none."""
    text = re.sub(r"```.*?```", lambda m: "\n" * m[0].count("\n"), text, flags=re.S)
    for number, line in enumerate(text.split("\n"), 1):
        for quoted in re.findall(r"`([^`]+)`", line):
            if not re.search(r"[0-9a-f]{6}|\d{4}-\d\d|[A-Z]{4}\b(?!_)|\\x", quoted):
                yield from ((number, word) for word in WORD.findall(quoted) if len(word) > 2)


def wrong_diffs(text):
    """The files of diffs in a document that have other lines now than a hunk was made of."""
    for diff in re.findall(r"```diff\n(.*?)```", text, re.S):
        for file, hunks in re.findall(r"^\+\+\+ b/(.*)\n((?:[@ +\\-](?!-- a/).*\n)*)", diff, re.M):
            source = (ROOT / file).read_text(encoding="utf-8") if (ROOT / file).is_file() else ""
            for hunk in re.split(r"^@@.*\n", hunks, flags=re.M)[1:]:
                old = "".join(line[1:] for line in hunk.splitlines(keepends=True) if line[0] in " -")
                if old not in source:
                    yield file


def main():
    words, clauses, bodies, wrong = set(ELSEWHERE), {}, set(), []
    for path, text in sources():
        words.update(WORD.findall(text))
        words.update(part.split(".")[0] for part in path.relative_to(ROOT).parts)
        if path.suffix == ".edit":
            bodies.add(path.stem)
        if path.suffix == ".rt":
            for name, contract in CONTRACT.findall(text):
                clauses.setdefault(name, set()).update(re.findall(r"ensures\*? +(\w+) +\{", contract))
    for path in [ROOT / "README.md", *sorted((ROOT / "docs").glob("*.md"))]:
        text = path.read_text(encoding="utf-8")
        wrong += [f"{path.name}:{number}: {word}" for number, word in named(text) if word not in words]
        wrong += [f"{path.name}: its diff of {file}" for file in wrong_diffs(text)]
        for call, names in CLAUSES.findall(re.sub(r"\s+", " ", text)):
            has = clauses.get(call.split("::")[-1])
            told = [] if has is None else re.findall(r"\w+", names.replace(" and ", " "))
            wrong += [f"{path.name}: `{call}`: {name}" for name in told if name not in has]
    told = (ROOT / "docs/PROMISES.md").read_text(encoding="utf-8")
    wrong += [f"PROMISES.md: {body}" for body in sorted(bodies) if f"`{body}`" not in told]
    wrong += wrong_imports()
    print("\n".join(wrong), end="\n" if wrong else "")
    return 1 if wrong else 0


if __name__ == "__main__":
    sys.exit(main())
