#!/usr/bin/env python3
"""Writes docs/PROMISES.md: the promises of docs/promises.txt, under each the clauses that its functions have today and
the wrong bodies that the gate refuses because of it, and at the end every public call that can refuse.

    python3 -B benches/words/ledger.py            # writes it
    python3 -B benches/words/ledger.py --check    # writes nothing; says whether it is what would be written

docs/promises.txt is copied as it is, but for these lines; what goes on in the next line is indented there:

    njh_hub: Hub::take, two_runs        functions of a crate that carry the promise, public or not
    refused: drops_a_second_frame       wrong bodies of the promise
    contents                            where the promises are listed
    calls that can refuse               where these are listed

A wrong body that no such line names is told at each promise that names a function at which it falls, as the first line
of the edit has it. A function, a clause or a wrong body that the sources don't have, and a wrong body without a promise, are
errors. The status is 1 if there is one, or if with --check the page is another."""

import collections
import itertools
import pathlib
import re
import sys
import textwrap

ROOT = pathlib.Path(__file__).resolve().parents[2]
WORDS, PAGE = ROOT / "docs/promises.txt", ROOT / "docs/PROMISES.md"
CRATES = re.findall(r"^(?!tests_)(\w+):", (ROOT / "crates.txt").read_text(), re.M)
SHOWN = re.compile(r"^pub (?:use [^;]*;|.*)", re.M)
ITEM = re.compile(r"^(?:pub(?:\(\w+\))? )?(impl|trait) ?(.*?)\{$|^\}", re.M | re.S)
FN = re.compile(r"^ *(pub(?:\(\w+\))? )?(?:const )?(fn|ghost) (\w+)(?=[(<:])", re.M)
CLAUSE = re.compile(r"^ +(ensures|requires)\*? (?:(\w+) )?\{", re.M)
SAID = re.compile(r"`([\w:]+)`: ((?:`\w+`(?:, | and )?)+)")

Function = collections.namedtuple("Function", "name is_public is_law ensures requires fault")
Wrong = collections.namedtuple("Wrong", "name crate place meaning functions")


# ---- what the sources have

def bare(header):
    """A header without its generics."""
    header = header.replace("->", "")
    while header != (header := re.sub(r"<[^<>]*>", "", header)):
        pass
    return header


def spans(text):
    """Where each `impl` and `trait` of a file begins and ends, the type or trait, and whether it is a trait."""
    begun = None
    for found in ITEM.finditer(text):
        if found[1]:
            begun = found.start(), re.search(r"\w+", bare(found[2]).split(" for ")[-1])[0], found[1] == "trait"
        elif begun:
            yield begun[0], found.end(), begun[1], begun[2]
            begun = None


def fault_of(signature):
    """The fault that a function may answer, if any."""
    answer = re.search(r"\) -> \(?([\w:]*)Result<(.*)>", signature)
    if not answer or answer[1]:
        return answer and f"{answer[1]}Error"
    depth, last = 0, 0
    for place, letter in enumerate(answer[2]):
        depth += (letter in "<(") - (letter in ">)")
        last = place if letter == "," and depth == 0 else last
    return re.search(r"[\w:]+", answer[2][last + 1 :])[0]


def functions_of(text, shown):
    """The functions of a file, and what a trait asks beside them; `shown` is what its crate shows to others."""
    owners, heads = list(spans(text)), list(FN.finditer(text))
    for head, end in zip(heads, [*(head.start() for head in heads[1:]), len(text)]):
        owner, in_trait = next(((name, is_trait) for a, z, name, is_trait in owners if a < head.end() < z), ("", False))
        if head[2] == "ghost" and not in_trait:
            continue
        whole = text[head.end() : end]
        signature = re.split(r"^ +(?:ensures|requires)|\{\n|\{$|;$", whole, maxsplit=1, flags=re.M)[0]
        clauses = CLAUSE.findall(whole) if head[2] == "fn" else []
        yield Function(
            f"{owner}::{head[3]}" if owner else head[3],
            (in_trait or head[1] == "pub ") and (owner or head[3]) in shown,
            bare(signature).strip() == "()" and bool(clauses),
            [name for kind, name in clauses if kind == "ensures"],
            [name for kind, name in clauses if kind == "requires"],
            fault_of(signature),
        )


def functions(crate):
    """The functions of a crate by their names, those of a type or a trait as `Type::name`."""
    source, table = ROOT / "crates" / crate / "src", {}
    if not (source / "lib.rt").exists():
        return table
    shown = set(re.findall(r"\w+", " ".join(SHOWN.findall((source / "lib.rt").read_text()))))
    for path in sorted(source.rglob("*.rt")):
        for one in functions_of(path.read_text(), shown):
            if one.name not in table or len(one.ensures) > len(table[one.name].ensures):
                table[one.name] = one
    return table


def wrong_bodies(tables, errors):
    """The wrong bodies by their names, each with the functions at which its first line says that it falls."""
    bodies = {}
    folders = "must-fail", "wrong-bodies"
    for path in sorted(path for name in folders for path in ROOT.glob(f"crates/*/{name}/*.edit")):
        crate, first = path.parts[-3], path.read_text().split("\n")[0]
        place, _, meaning = first.removeprefix("# falls at ").partition(": ")
        names = [name for name in re.findall(r"`([\w:]+)`", place) if name in tables[crate]]
        clauses = re.findall(r"`(\w+)`(?= of| and)", place) if place.startswith("the clause") else []
        if not first.startswith("# falls at ") or not names:
            errors.append(f"{path.name}: its first line names no function of {crate} at which it falls")
        elif not set(clauses) <= set(tables[crate][names[-1]].ensures):
            errors.append(f"{path.name}: `{names[-1]}` has no clause {listed(clauses)}")
        bodies[path.stem] = Wrong(path.stem, crate, place, meaning, names)
    return bodies


# ---- what is written

def listed(names):
    return ", ".join(f"`{name}`" for name in names)


def with_clauses(functions):
    """Functions with their clauses; those that follow each other and have the same are told together."""
    texts = []
    same = lambda one: ([*filter(None, one.ensures)], one.requires)
    for (ensures, requires), group in itertools.groupby(functions, same):
        text = listed(one.name for one in group)
        text += f": {listed(ensures)}" if ensures else ""
        text += f" (requires {listed(filter(None, requires))})".replace(" )", ")") if requires else ""
        texts.append(text)
    return "; ".join(texts)


def point(text):
    return textwrap.wrap(f"- {text}", 120, subsequent_indent="  ", break_on_hyphens=False, break_long_words=False)


def contents(text):
    """The groups of promises with links, and the promises of each."""
    lines = []
    for group in text.split("\n## ")[1:]:
        title, names = group.split("\n")[0], re.findall(r"^### (.*)", group, re.M)
        link = re.sub("[^a-z0-9-]", "", title.lower().replace(" ", "-"))
        lines += point(f"[{title}](#{link}): {', '.join(names)}.") if names else []
    return lines


class Ledger:
    """The page, line by line, and what is wrong."""

    def __init__(self):
        self.errors, self.lines = [], []
        self.tables = {crate: functions(crate) for crate in CRATES}
        self.bodies = wrong_bodies(self.tables, self.errors)
        # the functions and the wrong bodies of the promises so far, and of this one
        self.carriers, self.told, self.own, self.refused = set(), set(), set(), []

    def write(self, text):
        """The page for the hand-written text."""
        text = re.sub(r"\n +", " ", text)
        self.check_words(text)
        placed = {name for names in re.findall(r"^refused: (.*)", text, re.M) for name in names.split(", ")}
        for line in [*text.split("\n"), "#"]:
            kind, _, names = line.partition(": ")
            if line.startswith("#"):
                self.end(placed)
                self.lines.append(line)
            elif line == "contents":
                self.lines += contents(text)
            elif line == "calls that can refuse":
                self.refusals()
            elif kind in self.tables:
                self.carry(kind, names.split(", "))
            elif kind == "refused":
                self.refused += names.split(", ")
            else:
                self.lines.append(line)
        self.errors += [f"{name}.edit: no promise has it" for name in sorted(self.bodies.keys() - self.told)]
        return "\n".join(self.lines[:-1]) + "\n"

    def check_words(self, text):
        """Whether each clause that the words name beside its function is one of that."""
        clauses = collections.defaultdict(set)
        for one in (one for table in self.tables.values() for one in table.values()):
            clauses[one.name].update(one.ensures, one.requires)
        for name, said in SAID.findall(text.replace("\n", " ")):
            missing = [clause for clause in re.findall(r"`(\w+)`", said) if clause not in clauses.get(name, [clause])]
            self.errors += [f"promises.txt: `{name}` has no clause `{clause}`" for clause in missing]
        unknown = [crate for crate in re.findall(r"^(njh\w+): ", text, re.M) if crate not in self.tables]
        self.errors += [f"promises.txt: no crate {crate}" for crate in unknown]

    def carry(self, crate, names):
        """Functions of a crate with their clauses, its laws after the others."""
        table = self.tables[crate]
        self.errors += [f"promises.txt: {crate} has no function {name}" for name in names if name not in table]
        ones = [table[name] for name in names if name in table]
        laws = with_clauses([one for one in ones if one.is_law])
        told = [with_clauses([one for one in ones if not one.is_law]), f"by law {laws}" if laws else ""]
        self.add(f"{crate}: {'; '.join(filter(None, told))}.")
        self.own |= {(crate, name) for name in names}

    def add(self, text):
        """A further point of a list, on the line of a short one if there is room."""
        if self.lines[-1].startswith("- ") and len(self.lines[-1]) + len(text) < 120:
            self.lines[-1] += f" {text}"
        else:
            self.lines += point(text)

    def end(self, placed):
        """The wrong bodies of the promise that ends here. Of one that is told above already the name is enough."""
        others = [body for body in self.bodies.values() if body.name not in placed]
        falls = [body.name for body in others if any((body.crate, name) in self.own for name in body.functions)]
        names, texts = [*self.refused, *falls], []
        self.errors += [f"promises.txt: no wrong body {name}" for name in names if name not in self.bodies]
        for body in (self.bodies[name] for name in names if name in self.bodies):
            place = re.sub(r"^the clauses? (?:of )?", "", body.place)
            full = f"`{body.name}` ({body.crate}, {place}): {body.meaning}"
            texts.append(f"`{body.name}`, as above" if body.name in self.told else full)
        if texts:
            blank = list(itertools.takewhile(lambda line: not line, reversed(self.lines)))
            self.lines[len(self.lines) - len(blank) :] = [*point(f"Refused: {'; '.join(texts)}."), *blank]
        self.told |= set(names)
        self.carriers |= self.own
        self.own, self.refused = set(), []

    def refusals(self):
        """Every public call that can answer a fault. The clauses of one that a promise has are told there."""
        for crate, table in self.tables.items():
            by_fault = collections.defaultdict(list)
            for one in table.values():
                if one.is_public and one.fault:
                    has_promise = (crate, one.name) in self.carriers
                    by_fault[one.fault].append(one._replace(ensures=[], requires=[]) if has_promise else one)
            told = [f"`{fault}` of {with_clauses(ones)}" for fault, ones in by_fault.items()]
            if told:
                self.add(f"{crate}: {'. '.join(told)}.")


def main():
    ledger = Ledger()
    page = ledger.write(WORDS.read_text(encoding="utf-8").rstrip("\n"))
    if ledger.errors:
        sys.exit("\n".join(ledger.errors))
    if "--check" not in sys.argv[1:]:
        PAGE.write_text(page, encoding="utf-8")
    elif PAGE.read_text(encoding="utf-8") != page:
        sys.exit("docs/PROMISES.md isn't what benches/words/ledger.py writes: run it")


if __name__ == "__main__":
    main()
