#!/usr/bin/env python3
"""Which spec files must be read to know what a contract or a definition says: each after those that it imports, with
its lines. FILE is a .rt or .antt file of this repository, NAME a function or a definition in it; without NAME all of
FILE counts. Only `use` lines are followed, file by file; types that the code declares are listed last, not followed."""

import argparse
import pathlib
import re
import sys
import textwrap

ROOT = pathlib.Path(__file__).resolve().parents[2]
USE = re.compile(r"^[ \t]*(?:pub |ghost )*use Rattle\.(\w+)\.specs\.([\w.]*\w)(?:\.\{([^}]*)\})?(?: as (\w+))?", re.M)
DEFINED = r"^(?:abbrev |unfoldable |pub |data |record )*([^\s-]\S*)(?: [^=\n]*)? : "
WORD = re.compile(r"[^\s(){}\[\],;.]+")
CRATES = [line.split(":")[0] for line in (ROOT / "crates.txt").read_text().splitlines() if not line.startswith("#")]


def file_of(crate, path):
    """The spec file, or the source file of a declared type, that a path of a `use` line leads into; None outside."""
    steps, base, ending = path.split("."), ROOT / "crates" / crate / "specs", ".antt"
    if steps[0] == "declared":
        steps, base, ending = steps[1:], base.parent / "src", ".rt"
    for front in [steps[:n] for n in range(len(steps), 0, -1)] + [["lib"]]:
        file = base.joinpath(*front).with_suffix(ending)
        if file.is_file():
            return file
    return None


def imports(text, words=None):
    """The files of this repository that a text's `use` lines name: all, or those that bring in one of the words."""
    files = []
    for crate, path, names, alias in USE.findall(text):
        brought = set(WORD.findall(names.replace("◌", ""))) | {alias or path.split(".")[-1]}
        file = file_of(crate, path)
        if file and file not in files and (words is None or brought & words):
            files.append(file)
    return files


def contract(text, name):
    """A function's signature and clauses: all up to the brace that opens its body."""
    bare, clauses = r"(?:(?!\brequires\b|\bensures\b).)*? \{$", r".*?^\1\{$"
    found = re.search(rf"^([ \t]*)[^\n/]*\bfn {re.escape(name)}\b(?:{bare}|{clauses})", text, re.M | re.S)
    return found[0] if found else ""


def definitions(text):
    """Each paragraph of a spec file by the names that it defines."""
    paragraphs = re.split(r"\n\s*\n", text)
    return {name: paragraph for paragraph in paragraphs for name in re.findall(DEFINED, paragraph, re.M)}


def words_of(file, text, name):
    """The words of a function's contract, or of a definition and of those beside it that it speaks of."""
    if file.suffix == ".rt":
        return set(WORD.findall(contract(text, name)))
    by_name = definitions(text)
    words, waiting = set(), [name]
    while waiting:
        more = set(WORD.findall(by_name.get(waiting.pop(), ""))) - words
        words |= more
        waiting += more & by_name.keys()
    return words


def closure(files):
    """Spec files and all that they import, each after its own imports; and the sources of the types that they name."""
    order, seen = [], set()

    def visit(file):
        if file not in seen:
            seen.add(file)
            for other in imports(file.read_text()) if file.suffix == ".antt" else []:
                visit(other)
            order.append(file)

    for file in files:
        visit(file)
    return [f for f in order if f.suffix == ".antt"], sorted(f for f in order if f.suffix == ".rt")


def print_by_crate(lines):
    """The files by their crates, these in the order of crates.txt, as a list of Markdown."""
    for crate in CRATES:
        specs = ROOT / "crates" / crate / "specs"
        own = {file: count for file, count in lines.items() if file.is_relative_to(specs)}
        if own:
            row = ", ".join(f"{file.relative_to(specs).with_suffix('')} {count}" for file, count in own.items())
            print(textwrap.fill(f"- **{crate}** ({sum(own.values())}): {row}", 120, subsequent_indent="  "))


def main():
    parser = argparse.ArgumentParser(description=__doc__)
    parser.add_argument("--by-crate", action="store_true", help="a list of Markdown, crate by crate")
    parser.add_argument("file", type=pathlib.Path)
    parser.add_argument("name", nargs="?")
    asked = parser.parse_args()
    start, text = asked.file.resolve(), asked.file.read_text()
    words = words_of(start, text, asked.name) if asked.name else None
    if asked.name and not words:
        sys.exit(f"{asked.file}: no contract or definition `{asked.name}`")
    order, sources = closure(imports(text, words))
    if start.suffix == ".antt" and start not in order:
        order.append(start)
    lines = {file: len(file.read_text().splitlines()) for file in order}
    if asked.by_crate:
        print_by_crate(lines)
    else:
        for file in order + sources:
            print(f"{lines.get(file, 'types'):>5} {file.relative_to(ROOT)}")
    print(f"\nTogether {len(lines)} files, {sum(lines.values())} lines; types from {len(sources)} files of the code.")


if __name__ == "__main__":
    main()
