#!/usr/bin/env python3
"""Tries the wrong bodies of crates/NAME/wrong-bodies: the prover has to refuse each, at the clause that its first line says.

    python3 -B benches/gate/bodies.py [--anew] [--jobs N] [NAME..]     # of all crates, or of these
    python3 -B benches/gate/bodies.py --selftest                      # whether it can fail

A wrong body is a file NAME.edit. Its first line says where it falls and what is wrong, then it says what to change:

    # falls at the clause `rest` of `Scanner::take_control`: fill after a 10 is kept as data
    file: src/scanner.rt
    old: SYN => self.go_on(Place::Inside),
    new: SYN => self.keep(byte),

All wrong bodies of a crate are made in one copy of it, those at one function in copies one after the other, and one that edits
what isn't in its function, as a constant, in a copy of its own, since another body's function may read that too. A check from
nothing, over the libraries that are built, is asked of just their functions: each is proved by its own contract. A body is
refused if the check has an open goal of its own function: of the clause that the first line names, of any clause if it
names none, of a loop or of the type's invariant if it names an invariant, and of a call where the line says "what `before`
requires, in `attend`". A function of which the check says only that it
calls one that isn't proved is tried again by itself. All else fails: a function that is proved, another goal, a body that
doesn't apply or doesn't compile, a check that says nothing of the function. The last line is the verdict, and the status is 1
if a body isn't refused.

What was refused is kept, by a sum of all that the check read: the toolchain, the sources of the crate and of those below it,
the edit and this script. --anew tries it again.
"""

import argparse
import collections
import concurrent.futures
import hashlib
import os
import pathlib
import re
import resource
import shutil
import subprocess
import sys
import tempfile
import time

ROOT = pathlib.Path(__file__).resolve().parents[2]
sys.path.insert(0, str(ROOT / "benches/words"))
import ledger  # noqa: E402  (the functions of a file, as PROMISES.md has them)

KIT = pathlib.Path(os.path.realpath(shutil.which("rt") or "/opt/rattle/bin/rt")).parents[1]
KEPT = pathlib.Path(os.environ.get("XDG_CACHE_HOME") or pathlib.Path.home() / ".cache") / "njehub/wrong-bodies"
PARTS = ("src", "specs", "proofs")

# A check that has less than this much memory left in the machine waits for another to end.
ENOUGH = 6 << 30

# how a check tells of a function, of an open goal in the code, and of one in a function's proof
TOLD = re.compile(r"^fn (\S+): (.*)$", re.M)
IN_CODE = re.compile(r"^note: (src/\S+\.rt):(\d+):\d+: .*?\(`([^`]+)`\)", re.M)
IN_PROOF = re.compile(r"^(?:note: )?(?:\./)?proofs/(\S+)/\w+\.antt:\d+:\d+: error: `([^`]+)`", re.M)
UNREAD = re.compile(r"^(?:error|rattle: error|\./src/\S+: error|src/\S+?:\d+:\d+: error)", re.M)

# A wrong body; `function` is the one at which it falls, and `is_inside` whether it edits that one alone.
Body = collections.namedtuple("Body", "name crate first place clauses function is_inside pairs text")

# A function of a crate: its file, where it begins and ends there, its name as PROMISES.md has it, and what a check calls it.
Function = collections.namedtuple("Function", "path begin end name called")


class Unfit(Exception):
    """A wrong body, or a crate, that can't be tried, and why."""


# ---- what is there


def crates():
    """The libraries that each crate names in crates.txt, of this repository or of the toolchain."""
    lines = (line.partition(":") for line in (ROOT / "crates.txt").read_text().splitlines() if line[:1] not in ("", "#"))
    return {name.split()[0]: uses.split() for name, _, uses in lines}


def below(crate, uses):
    """The crates of this repository below one, each after those that it stands on."""
    found = []
    for name in uses[crate]:
        if name in uses:
            found += [one for one in [*below(name, uses), name] if one not in found]
    return found


def functions(source):
    """The functions of a crate."""
    for path in sorted(source.rglob("*.rt")):
        text = path.read_text(encoding="utf-8")
        modules = path.relative_to(source).with_suffix("").parts
        owners = list(ledger.spans(text))
        for head in ledger.FN.finditer(text):
            if head[2] == "fn":
                begun, owner = next(((a, name) for a, z, name, _ in owners if a < head.end() < z), (0, ""))
                name = f"{owner}::{head[3]}" if owner else head[3]
                above = [impl_of(text[begun:], owner)] if owner else [] if modules in (("lib",), ("main",)) else modules
                yield Function(path, head.start(), end_of(text, head.start()), name, "::".join([*above, head[3]]))


def end_of(text, begin):
    """Where a function ends: a brace closes it right below its first word."""
    indent = re.compile(" *").match(text, begin)[0]
    found = re.compile(rf"^{indent}(?:\{{\}}|\}})", re.M).search(text, begin)
    return found.end() if found else len(text)


def impl_of(text, owner):
    """What a check calls the impl that begins a text: the type, and of a trait the words of both in one, as `LineWireWire`."""
    header, depth = text[: text.index("{")].removeprefix("impl"), 0
    if header.startswith("<"):
        # its own parameters go
        for place, letter in enumerate(header.replace("->", "  ")):
            depth += (letter == "<") - (letter == ">")
            if not depth:
                header = header[place + 1 :]
                break
    trait, _, _ = header.rpartition(" for ")
    words = re.findall(r"\(\)|\b[A-Za-z]\w+\b(?!::)", trait)
    return owner + "".join("Unit" if word == "()" else word[0].upper() + word[1:] for word in words)


def edited(pairs, source, known):
    """The functions of a crate that edits change: None for what is in no function."""
    for file, old, _ in pairs:
        path = source.parent / file
        text = path.read_text(encoding="utf-8") if path.is_file() else ""
        # what an earlier edit of the same file made stands nowhere yet
        place = text.find(old)
        if place >= 0:
            yield next((one for one in reversed(known) if one.path == path and one.begin <= place < one.end), None)


def body_of(path, crate, source):
    """A wrong body as its file has it."""
    text = path.read_text(encoding="utf-8")
    first, *rest = text.split("\n")
    place, _, _ = first.removeprefix("# falls at ").partition(": ")
    known = list(functions(source))
    quoted = re.findall(r"`([\w:]+)`", place)
    places = [name for name in quoted if any(one.name == name for one in known)]
    if not first.startswith("# falls at ") or not places:
        raise Unfit("its first line names no function of the crate at which it falls")
    clauses = re.findall(r"`(\w+)`(?= of| and)", place) if place.startswith("the clause") else []
    pairs, file, old = [], None, None
    for line in rest:
        word, _, value = line.partition(": ")
        if word == "file":
            file = value
        elif word == "old":
            old = value
        elif word in ("new", "new:"):
            pairs.append((file, old, value))
    if not pairs or not all(file and old for file, old, _ in pairs):
        raise Unfit("it has no lines file:, old: and new:")
    changed = list(edited(pairs, source, known))
    # of several functions of that name it is the one that is edited
    named = [one for one in known if one.name == places[-1]]
    fit = [one for one in named if one in changed] or named
    if len(fit) != 1:
        raise Unfit(f"{len(fit)} functions are called {places[-1]}")
    is_inside = bool(changed) and all(one == fit[0] for one in changed)
    return Body(path.stem, crate, first, place, clauses, fit[0], is_inside, pairs, text)


def apply(bodies, folder):
    """Makes these edits in a copy of their crate."""
    for body in bodies:
        for file, old, new in body.pairs:
            if not file.startswith("src/") or not (folder / file).is_file():
                raise Unfit(f"{body.name}: there is no file {file} of code")
            text = (folder / file).read_text(encoding="utf-8")
            if text.count(old) != 1:
                raise Unfit(f"{body.name}: its old text stands {text.count(old)} times in {file}, and not once")
            (folder / file).write_text(text.replace(old, new), encoding="utf-8")


# ---- the libraries


def rlib(name):
    return ROOT / "crates" / name / "out/rlib" / f"{name}.rlib"


def newest(name):
    """When a source of a crate was last changed."""
    files = (path for part in PARTS for path in (ROOT / "crates" / name / part).rglob("*"))
    return max((path.stat().st_mtime for path in files if path.is_file()), default=0)


def make_libraries(names, uses):
    """Has each library that `rt ci` of this tree left, or else builds it, lowest first."""
    made = set()
    for name in names:
        lower = {name, *below(name, uses)}
        stamp, form = rlib(name).parent / "stamp", rlib(name) / "format"
        is_left = form.is_file() and not stamp.exists() and form.stat().st_mtime > max(map(newest, lower))
        if is_left and not lower & made:
            continue
        ran = subprocess.run([sys.executable, "-B", str(ROOT / "benches/gate/rt.py"), "lib", "--jobs", "1"], cwd=ROOT / "crates" / name, stdout=subprocess.PIPE,
                             stderr=subprocess.STDOUT, text=True, errors="replace", check=False)
        if ran.returncode:
            raise Unfit(f"the library {name} isn't proved: {ran.stdout.strip()[-400:]}")
        if "nothing has changed" not in ran.stdout and ran.stdout.strip():
            made.add(name)


def words_for(crate, uses):
    """What a check of a crate is told."""
    words = ["--crate-name", crate, "src/lib.rt"]
    for name in dict.fromkeys(["std", *uses[crate]]):
        words += ["--extern", f"{name}={rlib(name) if name in uses else KIT / 'rlibs' / f'{name}.rlib'}"]
    words += ["-L", f"dependency={KIT}/rlibs"]
    for name in below(crate, uses):
        words += ["-L", f"dependency={rlib(name).parent}"]
    words += ["--antt-project", f"{KIT}/rattle/logic/antt-project.json", "--logic-built", f"{KIT}/logic_built"]
    return [*words, "--links", f"{crate}=", "--jobs", "1"]


# ---- a check, and what it says


def check(bodies, words):
    """What a check says of the functions at which these bodies of one crate fall, and where the copy's functions stand."""
    while available() < ENOUGH and running():
        time.sleep(2)
    with tempfile.TemporaryDirectory(prefix="wrong-bodies-") as room:
        folder = pathlib.Path(room)
        for part in PARTS:
            if (ROOT / "crates" / bodies[0].crate / part).is_dir():
                shutil.copytree(ROOT / "crates" / bodies[0].crate / part, folder / part)
        apply(bodies, folder)
        only = [word for body in bodies for word in ("--only", body.function.called)]
        ran = subprocess.run([KIT / "bin/rattle", "check", *words, *only], cwd=folder, stdout=subprocess.PIPE,
                             stderr=subprocess.STDOUT, stdin=subprocess.DEVNULL, text=True, errors="replace", check=False)
        places = places_in(folder)
    return ran.stdout, places


def places_in(folder):
    """Where the functions of a copy of a crate stand: the file, the line, and what a check calls it."""
    return [(str(one.path.relative_to(folder)), one.path.read_text(encoding="utf-8")[: one.begin].count("\n") + 1, one.called)
            for one in functions(folder / "src")]


def available():
    return 1024 * int(re.search(r"MemAvailable:\s+(\d+)", pathlib.Path("/proc/meminfo").read_text())[1])


def running():
    """Whether a check of this script's is at work that holds much memory."""
    ran = subprocess.run(["pgrep", "-P", str(os.getpid()), "rattle"], stdout=subprocess.PIPE, check=False)
    return bool(ran.stdout.strip())


def is_named(body, path):
    """Whether a check calls a body's function so: one of no type by its module, a method by its type in any module."""
    called = body.function.called
    is_method = "::" in body.function.name and path.startswith(f"{body.crate}::")
    return path == f"{body.crate}::{called}" or (is_method and path.endswith(f"::{called}"))


def told_of(body, said):
    """What a check says of a body's function."""
    return [why for path, why in TOLD.findall(said) if is_named(body, path)]


def goals(body, said, places):
    """The goals of a body's function that a check left open."""
    found = set()
    for file, line, goal in IN_CODE.findall(said):
        above = [called for other, at, called in places if other == file and at <= int(line)]
        if above and above[-1] == body.function.called:
            found.add(goal)
    for folder, goal in IN_PROOF.findall(said):
        if is_named(body, f"{body.crate}::{folder.replace('/', '::')}"):
            found.add(goal)
    for why in told_of(body, said):
        if "did not prove" in why:
            found.update(re.findall(r"`([^`]+)`", why.partition("did not prove")[2]))
    return found


def falls(body, open_goals, ensures):
    """The open goal at which a body falls as its first line says, if there is one."""
    required = re.match(r"what `(?:\w+::)?(\w+)` requires", body.place)
    for goal in sorted(open_goals):
        in_loop = goal.startswith("loop-")
        clause = goal.partition("-clause-")[2]
        if required:
            if f"{required[1]}-" in goal and "-requires" in goal:
                return goal
        elif body.place.startswith("the invariant"):
            if in_loop or goal.startswith("invariant_of"):
                return goal
        elif "in its loop" in body.place:
            if in_loop:
                return goal
        elif clause in body.clauses or (not clause and goal.startswith("returns") and is_whole(body, ensures)):
            return goal
        elif not body.clauses and goal.startswith("returns"):
            return goal
    return None


def is_whole(body, ensures):
    """Whether a goal that names no clause is that of the clause that a body names: the function has no other."""
    return not body.clauses or set(ensures) <= set(body.clauses)


def judge(body, said, places, ensures):
    """Whether a check refuses a body as its first line says, what is told of that, and whether to ask again for it alone."""
    told = told_of(body, said)
    if not told:
        lines = [line for line in said.split("\n") if "error" in line] or said.strip().split("\n")[-3:]
        return False, f"it doesn't compile, or the check says nothing of it: {' | '.join(lines)[:400]}", False
    if told == ["proved"]:
        return False, "NOT REFUSED: the function is proved with it", False
    found = goals(body, said, places)
    if not found:
        return False, f"no goal of its function is open: {told[0][:200]}", True
    goal = falls(body, found, ensures)
    if goal is None:
        return False, f"refused, but not at {body.place}: at {', '.join(sorted(found))[:300]}", False
    return True, f"refused at `{goal}`", False


# ---- all of a crate


def rounds(bodies):
    """The bodies in lists that one copy can have: one a function, and by itself one that edits what isn't in its function."""
    left, made = [body for body in bodies if body.is_inside], []
    while left:
        now = {body.function: body for body in reversed(left)}
        made.append([body for body in left if now[body.function] is body])
        left = [body for body in left if now[body.function] is not body]
    return [*made, *([body] for body in bodies if not body.is_inside)]


def sums(crate, uses):
    """A sum of what a check of a crate reads, its edits left out."""
    whole = hashlib.sha256()
    for path in [KIT / "KIT-ID", KIT / "bin/rattle", pathlib.Path(__file__), ROOT / "benches/words/ledger.py"]:
        whole.update(path.read_bytes())
    for name in [*below(crate, uses), crate]:
        whole.update(repr((name, uses[name])).encode())
        for part in PARTS:
            for path in sorted((ROOT / "crates" / name / part).rglob("*")):
                if path.is_file():
                    whole.update(repr((str(path.relative_to(ROOT)), path.read_bytes())).encode())
    return whole.hexdigest()


def kept_at(body, read):
    return KEPT / hashlib.sha256(repr((read, body.text)).encode()).hexdigest()


def try_round(bodies, words, tables):
    """What is told of each of these bodies: (body, whether it is refused as it says, words)."""
    try:
        said, places = check(bodies, words)
    except Unfit as why:
        if len(bodies) == 1:
            return [(bodies[0], False, str(why))]
        return [told for body in bodies for told in try_round([body], words, tables)]
    results, again = [], []
    for body in bodies:
        well, told, is_unsure = judge(body, said, places, tables[body.crate][body.function.name].ensures)
        # where the copy doesn't compile, one body keeps the check from the others
        if not well and len(bodies) > 1 and (is_unsure or told.startswith("it doesn't compile")):
            again.append(body)
        else:
            results.append((body, well, told))
    return results + [told for body in again for told in try_round([body], words, tables)]


def bodies_in(crate, errors):
    folder = ROOT / "crates" / crate
    for path in sorted((folder / "wrong-bodies").glob("*")):
        try:
            if path.suffix != ".edit":
                raise Unfit("it is no .edit")
            yield body_of(path, crate, folder / "src")
        except Unfit as why:
            errors.append(f"{crate}/{path.name}: {why}")


def say(text):
    print(f"wrong bodies: {text}", flush=True)


def run(names, jobs, anew):
    """Tries the wrong bodies of these crates, and answers how many were refused and what failed."""
    uses, errors, tasks, refused = crates(), [], [], 0
    tables = {crate: ledger.functions(crate) for crate in names}
    for crate in names:
        bodies, read = list(bodies_in(crate, errors)), sums(crate, uses)
        left = [body for body in bodies if anew or not kept_at(body, read).is_file()]
        refused += len(bodies) - len(left)
        tasks += [(crate, read, some) for some in rounds(left)]
    if refused:
        say(f"{refused} were refused before, by the same sources, and aren't tried again")
    try:
        make_libraries(dict.fromkeys(name for crate, _, _ in tasks for name in below(crate, uses)), uses)
    except Unfit as why:
        return refused, [*errors, str(why)]
    KEPT.mkdir(parents=True, exist_ok=True)
    # the crates that stand on most come first: their checks take longest
    tasks.sort(key=lambda task: -len(below(task[0], uses)))
    with concurrent.futures.ThreadPoolExecutor(jobs) as pool:
        works = {pool.submit(try_round, some, words_for(crate, uses), tables): read for crate, read, some in tasks}
        for work in concurrent.futures.as_completed(works):
            for body, well, told in work.result():
                say(f"{body.crate}/{body.name}: {told}")
                if well:
                    refused += 1
                    kept_at(body, works[work]).write_text(told)
                else:
                    errors.append(f"{body.crate}/{body.name}")
    return refused, errors


# ---- whether it can fail

TRIALS = {
    "stays_proved": ("the clause `none` of `Scanner::go_on`: means the same", "self.place = place;\n        None",
                     "NOT REFUSED"),
    "falls_elsewhere": ("the clause `frame` of `Scanner::take_control`: falls at `rest`", "SYN => self.go_on(Place::Inside),",
                        "refused, but not at"),
    "isnt_there": ("the clause `rest` of `Scanner::take_control`: its text is none", "SYN => self.go_off(Place::Inside),",
                   "stands 0 times"),
    "doesnt_compile": ("the clause `ended` of `Scanner::end`: names nothing", "self.place = Place::Between;\n        Some(ended)",
                       "it doesn't compile"),
    "is_refused": ("the clause `rest` of `Scanner::take_run`: takes a byte less", "self.keep_all(&bytes[..count]);", "refused at"),
}
NEW = {
    "stays_proved": "self.place = place;\n        Option::None",
    "falls_elsewhere": "SYN => self.keep(byte),",
    "isnt_there": "SYN => self.keep(byte),",
    "doesnt_compile": "self.place = Place::Between;\n        Some(ending)",
    "is_refused": "self.keep_all(&bytes[..count - count % 2]);",
}


def selftest():
    """Whether each of these bodies of njh_bisync is told as it has to be."""
    uses, wrong = crates(), 0
    tables = {"njh_bisync": ledger.functions("njh_bisync")}
    known = {one.name: one for one in functions(ROOT / "crates/njh_bisync/src")}
    make_libraries(below("njh_bisync", uses), uses)
    for name, (first, old, wanted) in TRIALS.items():
        place, _, _ = first.partition(": ")
        clause, function = re.findall(r"`([\w:]+)`", place)
        pairs = [("src/scanner.rt", old, NEW[name])]
        body = Body(name, "njh_bisync", first, place, [clause], known[function], True, pairs, first)
        ((_, _, told),) = try_round([body], words_for("njh_bisync", uses), tables)
        is_well = wanted in told
        wrong += not is_well
        say(f"selftest {name}: {'right' if is_well else 'WRONG'}: {told[:200]}")
    return wrong


def main():
    words = argparse.ArgumentParser(usage="bodies.py [--anew] [--jobs N] [--selftest] [NAME..]")
    words.add_argument("--anew", action="store_true")
    words.add_argument("--selftest", action="store_true")
    words.add_argument("--jobs", type=int, default=min(4, len(os.sched_getaffinity(0))))
    words.add_argument("names", nargs="*")
    given = words.parse_args()
    if given.selftest:
        wrong = selftest()
        print(f"{len(TRIALS) - wrong} right, {wrong} failed")
        sys.exit(1 if wrong else 0)
    have = [crate for crate in crates() if (ROOT / "crates" / crate / "wrong-bodies").is_dir()]
    begin = time.monotonic()
    refused, errors = run([name for name in have if not given.names or name in given.names], given.jobs, given.anew)
    used = resource.getrusage(resource.RUSAGE_CHILDREN)
    minutes = (used.ru_utime + used.ru_stime) / 60
    for error in errors:
        say(f"FAILED: {error}")
    say(f"{minutes:.1f} minutes of CPU, {(time.monotonic() - begin) / 60:.1f} of wall time")
    print(f"{refused} refused, {len(errors)} failed")
    sys.exit(1 if errors else 0)


if __name__ == "__main__":
    main()
