#!/usr/bin/env python3
"""Says what shape the code is in, crate by crate, for a look before and after a change of the house.

    python3 benches/shape/shape.py [--tests] [the top of another clone]

A row for each crate (with --tests those that only try others too): lines of code, of definitions (specs/) and of
proofs, a line longer than 120 columns counted as the lines of 120 that it would be; functions, and how many of them
have more than three arguments, `self` not counted; clauses (`requires` and `ensures`) for a function that has any;
lines of contracts for each line of bodies; wrong bodies; lines of code over 100 columns. The last row sums up.
"""

import argparse
import math
import pathlib
import re

FUNCTION = re.compile(r"^ *(?:pub(?:\([a-z]+\))? )?(?:const )?(?:final )?fn (\w+)", re.M)
CLAUSE = re.compile(r"^ *(?:requires|ensures)\*?(?= [\w*]* ?\{)", re.M)
COLUMNS = ("crate", "code", "specs", "proofs", "fns", ">3 args", "clauses", "contract/body", "edits", ">100")


def lines_of(folder, ending):
    """How many lines of 120 columns the files below a folder have."""
    count = 0
    for path in folder.rglob(f"*{ending}"):
        for line in path.read_text(encoding="utf-8").splitlines():
            count += max(1, math.ceil(len(line) / 120))
    return count


def closing(text, start, pair):
    """The place after the bracket that closes the one at this place."""
    depth = 0
    for place in range(start, len(text)):
        depth += (text[place] == pair[0]) - (text[place] == pair[1])
        if depth == 0:
            return place + 1
    return len(text)


def arguments_in(inner):
    """How many arguments are between a function's parentheses, `self` not counted."""
    parts, depth, part = [], 0, ""
    for place, sign in enumerate(inner):
        depth += (sign in "([{<") - (sign in ")]}" or (sign == ">" and inner[place - 1] != "-"))
        if sign == "," and depth == 0:
            parts.append(part)
            part = ""
        else:
            part += sign
    return sum(1 for it in [*parts, part] if it.strip() and not re.fullmatch(r"&?(?:'\w+ )?(?:mut )?self", it.strip()))


def functions_in(text):
    """Each function's arguments, clauses, and lines of its contract and of its body."""
    for match in FUNCTION.finditer(text):
        # a parameter list comes after the type parameters
        begin = text.find("(", match.end())
        if begin < 0:
            continue
        end = closing(text, begin, "()")
        stop = re.compile(r"^ *\{ *$|\{ *$|;$", re.M)
        place = end
        while found := stop.search(text, place):
            if text.count("{", end, found.start()) == text.count("}", end, found.start()):
                break
            place = found.end()
        if not found:
            continue
        contract = text[end : found.start()]
        body = closing(text, found.start() + found[0].index("{"), "{}") if "{" in found[0] else found.end()
        clauses = len(CLAUSE.findall(contract))
        lines = contract.count("\n") * bool(clauses), text.count("\n", found.start(), body)
        yield arguments_in(text[begin + 1 : end - 1]), clauses, *lines


def row_of(crate):
    folder = crate / "src"
    functions, wide = [], 0
    for path in sorted(folder.rglob("*.rt")):
        text = path.read_text(encoding="utf-8")
        functions += functions_in(text)
        wide += sum(len(line) > 100 for line in text.splitlines())
    edits = sum(len(list((crate / name).glob("*.edit"))) for name in ("must-fail", "wrong-bodies"))
    return {
        "code": lines_of(folder, ".rt"),
        "specs": lines_of(crate / "specs", ".antt"),
        "proofs": lines_of(crate / "proofs", ".antt"),
        "fns": len(functions),
        ">3 args": sum(it[0] > 3 for it in functions),
        "clauses": sum(it[1] for it in functions),
        "bound": sum(it[1] > 0 for it in functions),
        "contract": sum(it[2] for it in functions),
        "body": sum(it[3] for it in functions),
        "edits": edits,
        ">100": wide,
    }


def shown(name, row):
    clauses = f"{row['clauses'] / row['bound']:.1f}" if row["bound"] else "-"
    ratio = f"{row['contract'] / row['body']:.2f}" if row["body"] else "-"
    sizes = [row[column] for column in ("code", "specs", "proofs", "fns", ">3 args")]
    cells = [*sizes, clauses, ratio, row["edits"], row[">100"]]
    return f"{name:<17}" + "".join(f"{cell:>{max(8, len(column) + 1)}}" for column, cell in zip(COLUMNS[1:], cells))


def main():
    words = argparse.ArgumentParser()
    words.add_argument("--tests", action="store_true")
    words.add_argument("top", nargs="?", default=pathlib.Path(__file__).resolve().parents[2], type=pathlib.Path)
    asked = words.parse_args()
    lines = (asked.top / "crates.txt").read_text().splitlines()
    names = [line.split(":")[0].split()[0] for line in lines if line and line[0] != "#"]
    print(f"{COLUMNS[0]:<17}" + "".join(f"{column:>{max(8, len(column) + 1)}}" for column in COLUMNS[1:]))
    total = {}
    for name in names:
        if name.startswith("tests_") and not asked.tests:
            continue
        row = row_of(asked.top / "crates" / name)
        total = {key: total.get(key, 0) + value for key, value in row.items()}
        print(shown(name, row))
    print(shown("all", total))


if __name__ == "__main__":
    main()
