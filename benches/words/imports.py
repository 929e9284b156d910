#!/usr/bin/env python3
"""Which imports of the sources lead nowhere. Each `use` of a .rt file is followed through crates, modules, items and
variants, as far as each shows them to others; each `use` of an .antt file, and each `ghost use`, through definitions
and proofs, and through the types, variants, constants and functions of the code for which the toolchain makes a module.
What is imported of std and of the toolchain's crates is left alone. A `mod` line without its file, and a file without
its `mod` line, are told too. names.py prints what is found here."""

import functools
import pathlib
import re

ROOT = pathlib.Path(__file__).resolve().parents[2]
SEEN = r"(pub(?:\(\w+\))? )?"
ITEM = re.compile(rf"^{SEEN}(?:const |unsafe )*(fn|struct|enum|trait|type|mod|const|static) (\w+)", re.M)
ENUM = re.compile(rf"^{SEEN}enum (\w+)[^{{;]*\{{\n(.*?)^\}}", re.M | re.S)
VARIANT = re.compile(r"^    ([A-Z]\w*)", re.M)
BLOCK = re.compile(rf"^{SEEN}(?:impl|trait)\b([^{{;]*)\{{\n(.*?)^\}}", re.M | re.S)
METHOD = re.compile(rf"^    {SEEN}(?:const )?(?:fn|const) (\w+)", re.M)
CODE_USE = re.compile(rf"^[ \t]*{SEEN}use ([^;]*);", re.M)
GHOST_USE = re.compile(r"^[ \t]*(?:pub )?ghost use ([^;]*);", re.M)
SPEC_USE = re.compile(r"^(?:unfoldable )?(pub )?use (?=\S)", re.M)
MOD = re.compile(rf"^{SEEN}mod (\w+);?$", re.M)
HEADS = {"unfoldable", "pattern", "abbrev", "axiom", "pub", "data", "record", "ruleset", "mutual", "module"}
# what the toolchain makes in the module of a type, and in that of a function
OF_TYPES = {"TheInside", "TheConstants", "TheOpen", "TheImpl", "TheView", "TheViews", "TheFolds", "TheBound"}
OF_FUNCTIONS = {"Goals", "Given", "Met", "Statement", "Answers", "Invariants", "Proof"}
ELSEWHERE = ("elsewhere",)


def leaves(tree, front=()):
    """The paths of a `use` tree, each with the name that it has here and whether it is in braces."""
    head, brace, inner = tree.partition("{")
    steps = [step.strip("« »\n") for step in re.split(r"::|\.|\s+as\s+", head.strip()) if step]
    if not brace:
        alias = steps.pop() if " as " in head else None
        path = (*front, *steps)
        path = path[:-1] if path[-1] == "self" and len(path) > 1 else path
        yield path, alias or path[-1], bool(front)
        return
    depth, part = 0, ""
    for sign in inner[: inner.rindex("}")] + ",":
        depth += (sign == "{") - (sign == "}")
        if sign == "," and depth == 0:
            if part.strip():
                yield from leaves(part.strip(), (*front, *steps))
            part = ""
        else:
            part += sign


@functools.lru_cache(None)
def paths_of(tree):
    return list(leaves(tree))


def spec_uses(text):
    """The `use` trees of an .antt file, with where each begins and whether it is passed on."""
    for found in SPEC_USE.finditer(text):
        end = text.find("\n", found.end())
        while (tree := text[found.end() : end]).count("{") > tree.count("}"):
            end = text.find("\n", end + 1)
        yield found.start(), found[1], tree


def names_in(text):
    """The names that an .antt file defines, and whether others see each; constructors and fields go with their type."""
    names, holds = {}, False
    for line in text.split("\n"):
        words = line.split()
        if not words or words[0].startswith(("--", "{-")) or (line[0] == " " and not holds):
            continue
        count = next((place for place, word in enumerate(words) if word not in HEADS), len(words))
        heads, words = words[:count], words[count:]
        if line[0] != " ":
            holds = not {"data", "record", "mutual", "module"}.isdisjoint(heads)
        # several names may stand before one colon
        before = words[: words.index(":")] if ":" in words[:9] else words[:1]
        for name in before:
            if name[0] in "({=":
                break
            name = name.strip("«»")
            names[name] = names.get(name, False) or "pub" in heads or line[0] == " "
    return names


class CodeModule:
    """A file of src/: its items, variants and methods, and what it brings in."""

    def __init__(self, path):
        self.path, self.text = path, path.read_text(encoding="utf-8")
        self.items = {name: (kind, seen) for seen, kind, name in ITEM.findall(self.text)}
        self.variants = {name: set(VARIANT.findall(body)) for _, name, body in ENUM.findall(self.text)}
        self.uses, self.globs = {}, []
        for seen, tree in CODE_USE.findall(self.text):
            for path, alias, _ in paths_of(tree):
                self.globs += [path[:-1]] if path[-1] == "*" else []
                self.uses[alias] = (path, seen)

    def methods(self):
        """The methods of each type and trait, and of each `impl` of a trait by the name that the toolchain gives it."""
        for _, head, body in BLOCK.findall(self.text):
            head = plain = head.replace("->", "")
            while plain != (plain := re.sub(r"<[^<>]*>", "", plain)):
                pass
            words = re.findall(r"\w+", plain)
            at = words.index("for") if "for" in words else 0
            # what the trait is of, as in Attendant<LineWire<N::Connection>>, stands behind its name
            of = re.search(rf"\b{words[at - 1]}<(.*)>\s+for ", head, re.S) if at else None
            of = "".join(re.findall(r"\w+", re.sub(r"\w+::", "", of[1]))) if of else ""
            yield words[at + 1] + words[at - 1] + of if at else words[0], {name for _, name in METHOD.findall(body)}


class SpecModule:
    """An .antt file: what it defines, and what it brings in."""

    def __init__(self, path):
        self.path, self.text = path, path.read_text(encoding="utf-8")
        self.names = names_in(self.text)
        self.uses, self.globs = {}, []
        for _, seen, tree in spec_uses(self.text):
            for path, alias, braced in paths_of(tree):
                self.globs += [path[:-1]] if path[-1] == "*" else []
                self.uses[alias] = (path, bool(seen), braced)


class Sources:
    """The modules of all crates, by crate and path: those of code, and those of specs and proofs."""

    def __init__(self):
        lines = (ROOT / "crates.txt").read_text(encoding="utf-8").splitlines()
        pairs = (line.split(":") for line in lines if line.strip() and line[0] != "#")
        self.deps = {front.split()[0]: set(deps.split()) for front, deps in pairs}
        self.code, self.specs, self.owners, self.folders, self.below = {}, {}, {}, set(), {}
        for crate in self.deps:
            top = ROOT / "crates" / crate
            for path in (top / "src").rglob("*.rt"):
                steps = path.relative_to(top / "src").with_suffix("").parts
                steps = () if steps in (("lib",), ("main",)) else steps
                module = self.code[crate, steps] = CodeModule(path)
                for owner, methods in module.methods():
                    self.owners.setdefault((crate, owner), set()).update(methods)
            for kind in ("specs", "proofs"):
                for path in (top / kind).rglob("*.antt"):
                    steps = path.relative_to(top / kind).with_suffix("").parts
                    steps = steps[:-1] if steps[-1] == "Lib" else steps
                    self.specs[crate, kind, steps] = SpecModule(path)
                    self.folders |= {(crate, kind, steps[:count]) for count in range(len(steps) + 1)}
        for *at, steps in [*self.code, *self.specs]:
            if steps:
                self.below.setdefault((*at, steps[:-1]), set()).add(steps[-1])

    # ---- paths of code

    def in_module(self, crate, steps, name, asker, seen):
        """What a name is in a module of the code, where the asker may see it; None if it is nothing."""
        module = self.code.get((crate, steps))
        if module is None or (crate, steps, name) in seen:
            return None
        seen = (*seen, (crate, steps, name))
        inside = asker[0] == crate and asker[1][: len(steps)] == steps
        allowed = lambda mark: inside or mark == "pub " or (mark and asker[0] == crate)
        if name in module.items and allowed(module.items[name][1]):
            is_module = module.items[name][0] == "mod"
            return ("module", crate, (*steps, name)) if is_module else ("item", crate, steps, name)
        if name in module.uses and allowed(module.uses[name][1]):
            return self.code_place(crate, steps, module.uses[name][0], seen)
        places = [self.code_place(crate, steps, (*path, name), seen) for path in module.globs] if inside else []
        return next(filter(None, places), None)

    def code_place(self, crate, steps, path, seen=()):
        """Where a path leads that is written in this module: a module, an item, a variant; None if it leads nowhere."""
        first, asker = path[0], (crate, steps)
        if first in ("crate", "self", "super"):
            place = ("module", crate, {"crate": (), "self": steps, "super": steps[:-1]}[first])
        elif first in ("std", "core", "alloc"):
            return ELSEWHERE
        else:
            place = self.in_module(crate, steps, first, asker, seen)
            if place is None and first in self.deps[crate]:
                place = ("module", first, ()) if first in self.deps else ELSEWHERE
        for step in path[1:]:
            if place is None or place == ELSEWHERE:
                return place
            if place[0] == "module":
                up = ("module", place[1], place[2][:-1])
                place = up if step == "super" else self.in_module(place[1], place[2], step, asker, seen)
            else:
                variants = self.code[place[1], place[2]].variants if place[0] == "item" else {}
                place = ("variant",) if step in variants.get(place[3], ()) else None
        return place

    # ---- paths of definitions and proofs

    def is_made(self, crate, path, braced):
        """Whether the toolchain makes this module, or has this name in one, of what the code of a crate has."""
        steps, path = (), list(path)
        while path and (crate, (*steps, path[0])) in self.code:
            steps = (*steps, path.pop(0))
        if not path:
            return not braced
        module, first, rest = self.code[crate, steps], path[0], path[1:]
        kind = module.items.get(first, ("",))[0]
        if "+" in first or kind == "" and not rest:
            return "+" in first
        if first == "TheConstants":
            return rest[0] in module.items
        if kind == "fn" or not rest:
            return not rest or rest[0] in OF_FUNCTIONS
        if rest[0] in self.owners.get((crate, first), ()):
            return len(rest) == 1 or rest[1] in OF_FUNCTIONS
        if rest[0] == "TheVariants":
            return kind == "enum" and (len(rest) == 1 or "-" in rest[1] or rest[1] in module.variants[first])
        own = rest[0].rstrip("'") == first or "-" in rest[0] or rest[0] in OF_TYPES or rest[0] == "the_row"
        return kind in ("struct", "enum", "trait", "type") and own

    def in_specs(self, at, path, braced, asker, seen):
        """Whether a path leads on from this module of definitions or proofs: in braces to a name, else to a module."""
        crate, kind, steps = at
        if kind == "specs" and not steps and path[:1] in (("declared",), ("contracts",)):
            return self.is_made(crate, path[1:], braced)
        for place, step in enumerate(path):
            here, rest, module = (crate, kind, steps), path[place:], self.specs.get((crate, kind, steps))
            if braced and len(rest) == 1:
                made = kind == "proofs" and self.is_made(crate, (*steps, step), True)
                return made or self.has_name(here, step, asker, seen)
            if (crate, kind, (*steps, step)) in self.folders:
                steps = (*steps, step)
            elif module and step in module.uses:
                return self.is_there((*module.uses[step][0], *rest[1:]), braced, here, seen)
            else:
                return kind == "proofs" and self.is_made(crate, (*steps, *rest), braced)
        return True

    def has_name(self, at, name, asker, seen):
        """Whether a module of definitions or proofs has a name that the asker may use."""
        module = self.specs.get(at)
        if module is None or (at, name) in seen:
            return False
        inside = asker[:2] == at[:2] and asker[2][: len(at[2])] == at[2]
        if name in module.names and (inside or module.names[name]):
            return True
        seen = (*seen, (at, name))
        if name in module.uses and (inside or module.uses[name][1]):
            path, _, braced = module.uses[name]
            return self.is_there(path, braced, at, seen)
        return any(self.is_there((*path, name), True, at, seen) for path in module.globs)

    def is_there(self, path, braced, asker, seen=()):
        """Whether a path that is written in this module leads somewhere."""
        path = path[path[0] == "package" :]
        if path[0] == "Rattle":
            if len(path) < 2 or path[1] not in {"std", asker[0], *self.deps[asker[0]]}:
                return False
            at = (path[1], *path[2:3], ())
            in_both = len(path) > 2 and path[2] in ("specs", "proofs")
            return path[1] not in self.deps or in_both and self.in_specs(at, path[3:], braced, asker, seen)
        module = self.specs.get(asker)
        if module and path[0] in module.uses and module.uses[path[0]][0] != path:
            return self.is_there((*module.uses[path[0]][0], *path[1:]), braced, asker, seen)
        return path[0] == "Prim" or self.in_specs(asker, path, braced, asker, seen)

    # ---- what leads nowhere

    def wrong(self):
        """The files, lines and paths of imports that lead nowhere, and of `mod` lines."""
        for (crate, steps), module in self.code.items():
            for found in CODE_USE.finditer(module.text):
                for path, _, _ in paths_of(found[2]):
                    if not self.code_place(crate, steps, path[:-1] if path[-1] == "*" else path):
                        yield told(module, found.start(), path, "::")
            for found in GHOST_USE.finditer(module.text):
                for path, _, braced in paths_of(found[1]):
                    if not self.is_there(path, braced, (crate, "code", ())):
                        yield told(module, found.start(), path, ".")
            yield from wrong_mods(module, self.below.get((crate, steps), set()))
        for (crate, kind, steps), module in self.specs.items():
            for start, _, tree in spec_uses(module.text):
                for path, _, braced in paths_of(tree):
                    if path[-1] != "*" and not self.is_there(path, braced, (crate, kind, steps)):
                        yield told(module, start, path, ".")
            made = OF_FUNCTIONS if kind == "proofs" else set()
            if not made & set(steps):
                yield from wrong_mods(module, self.below.get((crate, kind, steps), set()) - made)


def wrong_mods(module, below):
    """The `mod` lines of a file and the files below it that don't belong together."""
    lines = {found[2]: found.start() for found in MOD.finditer(module.text)}
    yield from (told(module, lines[name], (f"mod {name}",), "") for name in sorted(lines.keys() - below))
    yield from (told(module, 0, (f"no line `mod {name}`",), "") for name in sorted(below - lines.keys()))


def told(module, start, path, between):
    """A line of what is printed."""
    found = re.compile(rf"(?<![\w-]){re.escape(path[-1])}(?![\w-])").search(module.text, start)
    line = module.text.count("\n", 0, found.start() if found else start) + 1
    return f"{module.path.relative_to(ROOT)}:{line}: {between.join(path)}"


def wrong_imports():
    return sorted(Sources().wrong())


if __name__ == "__main__":
    print(*wrong_imports(), sep="\n", end="")
