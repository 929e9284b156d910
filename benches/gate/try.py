#!/usr/bin/env python3
"""Runs every test and every stored run of every crate, and README's own commands, and proves nothing.

    ./gate --try [--jobs N] [NAME ..]       all, or the crates of these names alone
    python3 benches/gate/try_test.py        whether what is wrong is told: a test of this script

For each crate of crates.txt with a `#[test]`: `rt try --test`. For each program: `rt try --cases`, which builds it once
and runs it on its files `stdin`, `args` and `data`, and it must print its file `stdout` and end with its `status`.
The program that README's commands name is run by the same build on those, as README.md has them: the first step, whose
lines must be printed, and the letter, on free ports and in a folder of its own, where the peers must print what the
example's page has, and the letter that comes must be the one that was sent. `rt try` builds with checks and stops a
run at a bad access, an overflow, an index out of range; it tests no contract.

The longest begin first, as many at a time as there are processors and memory, four at most, or N. What passes has a
line with its seconds; of what fails all that it said is shown. Last come the minutes and the verdict, `N passed, M
failed`; the status is 1 where something failed. After Ctrl-C nothing of it goes on.
"""

import argparse
import os
import pathlib
import re
import resource
import shlex
import signal
import subprocess
import sys
import tempfile
import threading
import time

from letter import Letter, Wrong, code_blocks, letter_of

ROOT = pathlib.Path(__file__).resolve().parents[2]
JOBS = 4
RUN_LIMIT = 1200  # seconds for a program that was built, or for a test
TASK_LIMIT = 3600  # seconds for a build with its runs
LARGE, APART = 40000, 90  # builds of so many lines begin so many seconds apart: each has its most memory for a moment
HELD = 0.55  # the part of its most memory that a build takes for long
LONG_RUNS = {"tests_service", "tests_keeper"}  # their runs take minutes, so they begin first
STEP, LETTER = "README's first step", "README's letter"
STORED, FIRST, SERVE = "1-stored", "2-first-step", "3-serve"  # the cases of a program, in this order


class Repository:
    """The crates of a repository, and the commands of its README.md."""

    def __init__(self, root):
        self.root, self.uses = root, {}
        for line in (root / "crates.txt").read_text(encoding="utf-8").splitlines():
            name, _, below = line.partition("#")[0].partition(":")
            if name.strip():
                self.uses[name.split()[0]] = below.split()
        self.readme = (root / "README.md").read_text(encoding="utf-8")
        self.commands, self.wrong = {}, []
        for what, read in ((STEP, self.first_step), (LETTER, lambda: letter_of(root))):
            try:
                self.commands[what] = read()
            except Wrong as why:
                self.wrong.append((what, str(why)))

    def folder(self, name):
        return self.root / "crates" / name

    def is_program(self, name):
        return (self.folder(name) / "src" / "main.rt").is_file()

    def tests(self, name):
        """How many tests a crate has."""
        texts = (path.read_text(encoding="utf-8") for path in (self.folder(name) / "src").rglob("*.rt"))
        return sum(len(re.findall(r"^\s*#\[test\]", text, re.M)) for text in texts)

    def lines(self, name):
        """How many lines a crate has with all of the repository's crates below it: the more, the longer its build."""
        below, rest = set(), [name]
        while rest:
            crate = rest.pop()
            if crate in self.uses and crate not in below:
                below.add(crate)
                rest += self.uses[crate]
        files = (path for crate in below for path in (self.folder(crate) / "src").rglob("*.rt"))
        return sum(path.read_bytes().count(b"\n") for path in files)

    def first_step(self):
        """README's first command: its crate, the words after `--`, the file that it reads, and lines that it prints."""
        blocks = code_blocks(self.readme)
        for at, block in enumerate(blocks):
            found = re.fullmatch(r"\(cd crates/(\w+) && rt try -- (.*) < (\S+)\)", block[0].strip())
            if found and at + 1 < len(blocks):
                return found[1], shlex.split(found[2]), found[3], blocks[at + 1]
        raise Wrong("README.md has no block `(cd crates/NAME && rt try -- WORDS < FILE)` and after it one of its lines")


def seconds_of(pid):
    """Waits until a process of this one's has ended, and says how many seconds of CPU it used with all below it."""
    os.waitid(os.P_PID, pid, os.WEXITED | os.WNOWAIT)
    stat = pathlib.Path(f"/proc/{pid}/stat").read_text(errors="replace").rsplit(")", 1)[1].split()
    return sum(map(int, stat[11:15])) / os.sysconf("SC_CLK_TCK")


class Build:
    """A run of `rt try`, with the verdicts that it gives."""

    def __init__(self, repository, name, is_test):
        self.repository, self.name, self.is_test = repository, name, is_test
        self.folder, self.lines = repository.folder(name), repository.lines(name)
        self.serving, self.played = None, "the letter was not tried"
        self.said, self.process, self.cpu, self.begin = "", None, 0, 0

    def memory(self):
        """The bytes that it takes at most, about: while the compiler works beside rt, for less than half a minute."""
        return 1.5e9 + 140e3 * self.lines

    def stream(self, name):
        path = self.folder / name
        return path.read_bytes() if path.is_file() else b""

    def run(self, room):
        """The verdicts: what was tried, and None or what is wrong."""
        (room / "tmp").mkdir()
        return self.run_tests(room) if self.is_test else self.run_program(room)

    def run_tests(self, room):
        status, number = self.rt(room, ["--test"]), self.repository.tests(self.name)
        passed = re.search(rf"^test result: ok\. {number} passed; 0 failed; 0 ignored", self.said, re.M)
        is_well = status == 0 and passed
        yield f"{self.name}: {number} tests", None if is_well else f"status {status}, or not so many passed"

    def run_program(self, room):
        """The program on what is stored, and on README's commands if they name it."""
        cases, words, others, stored = room / "cases", [], [], self.folder / "data"
        cases.mkdir()
        data = [(str(path.relative_to(stored)), path) for path in stored.rglob("*") if path.is_file()]
        add_case(cases, STORED, self.stream("args").decode().splitlines(), self.stream("stdin"))
        (cases / f"{STORED}.stdout").write_bytes(self.stream("stdout"))
        for what, (crate, *rest) in self.repository.commands.items():
            if crate == self.name and what == STEP:
                args, given, shown = rest
                add_case(cases, FIRST, args, self.stream(given))
                others.append((what, lambda: self.first_step(shown)))
            elif crate == self.name:
                self.serving = Letter(room, self.repository.root, *rest)
                add_case(cases, SERVE, self.serving.words, b"")
                data += self.serving.data
                others.append((what, self.letter))
        for name, path in sorted(data):
            words += ["--data", f"{name}={path}"]
        self.rt(room, ["--cases", str(cases), *words])
        for what, look in [("its stored run", self.stored), *others]:
            try:
                look()
                yield f"{self.name}: {what}", None
            except Wrong as why:
                yield f"{self.name}: {what}", str(why)

    def rt(self, room, words):
        """Runs `rt try` and keeps what it says."""
        with open(room / "said", "w+b") as said:
            how = {"stdin": subprocess.DEVNULL, "stdout": said, "stderr": subprocess.STDOUT}
            how.update(cwd=self.folder, env={**os.environ, "TMPDIR": f"{room}/tmp"})
            self.process = process = subprocess.Popen(["rt", "try", "--seconds", str(RUN_LIMIT), *words], **how)
            ends = threading.Timer(TASK_LIMIT, process.terminate)
            ends.start()
            try:
                if self.serving:
                    self.serving.play(process)
                    self.played = None
            except Wrong as why:
                self.played = str(why)
            finally:
                self.cpu = seconds_of(process.pid)
                process.wait()
                ends.cancel()
            said.seek(0)
            self.said = said.read().decode(errors="replace")
        return process.returncode

    def case(self, name):
        """What `rt try` says of a case."""
        found = re.search(rf"^case={name} (.*)$", self.said, re.M)
        if not found:
            raise Wrong("it wasn't built or not run")
        return dict(word.partition("=")[::2] for word in found[1].split())

    def stored(self):
        case, wanted = self.case(STORED), self.stream("status").decode().strip() or "0"
        if case["run"] != "ended" or case.get("status") != wanted:
            raise Wrong(f"run={case['run']} status={case.get('status')}, and status {wanted} is wanted")
        if case.get("output") == "differs":
            raise Wrong("what it printed is not what its file stdout has")

    def first_step(self, shown):
        case = self.case(FIRST)
        if case["run"] != "ended" or case.get("status") != "0":
            raise Wrong(f"run={case['run']} status={case.get('status')}")
        printed = iter(self.said.partition(f"== {FIRST}\n")[2].partition(f"\ncase={FIRST} ")[0].splitlines())
        for line in shown:
            if line not in printed:
                raise Wrong(f"README.md has the line {line!r}, which wasn't printed there")

    def letter(self):
        if self.played:
            raise Wrong(self.played)
        before = self.said.partition(f"\ncase={SERVE} run=fault ")[0]
        if "killed by signal 2 (SIGINT)" not in before.rpartition("\ncase=")[2]:
            raise Wrong("the hub ended otherwise than by Ctrl-C")


def add_case(folder, name, words, given):
    """Adds a case for `rt try --cases`: what the program reads, and its arguments."""
    (folder / name).write_bytes(given)
    (folder / f"{name}.args").write_text("".join(f"{word}\n" for word in words), encoding="utf-8")


def free_memory():
    return 1024 * int(re.search(r"MemAvailable:\s+(\d+)", pathlib.Path("/proc/meminfo").read_text())[1])


class Lanes:
    """Builds that run side by side, and what came of them."""

    def __init__(self, builds, jobs, room):
        self.left = sorted(builds, key=lambda build: (build.name not in LONG_RUNS, -build.lines))
        self.lanes = jobs or min(JOBS, len(os.sched_getaffinity(0)))
        self.memory = float("inf") if jobs else 0.9 * free_memory()
        self.room, self.running, self.passed, self.failed = room, [], 0, 0
        self.change = threading.Condition()

    def may_begin(self, build):
        """Whether there is memory for a build beside those that run. Large ones reach their most at different times."""
        builds = [*self.running, build]
        most, now = max(one.memory() for one in builds), time.monotonic()
        is_apart = all(min(build.lines, one.lines) < LARGE or now - one.begin > APART for one in self.running)
        held = sum(one.memory() for one in builds) * HELD + most * (1 - HELD)
        return not self.running or (is_apart and held <= self.memory)

    def run(self):
        try:
            with self.change:
                while self.left or self.running:
                    ready = [build for build in self.left if self.may_begin(build)]
                    if ready and len(self.running) < self.lanes:
                        self.begin(ready[0])
                    else:
                        self.change.wait(5)
        finally:
            running = [build.process for build in self.running if build.process]
            for process in running:
                process.terminate()
            for process in running:
                process.wait()

    def begin(self, build):
        build.begin = time.monotonic()
        self.left.remove(build)
        self.running.append(build)
        threading.Thread(target=self.work, args=(build,), daemon=True).start()

    def work(self, build):
        try:
            with tempfile.TemporaryDirectory(prefix=f"{build.name}-", dir=self.room) as room:
                verdicts = [*build.run(pathlib.Path(room))]
        except Exception as why:  # a fault of this script must not pass for something that passed
            verdicts = [(build.name, f"{type(why).__name__}: {why}")]
        with self.change:
            self.running.remove(build)
            if any(why for _, why in verdicts):
                print(f"== {build.name}\n{build.said.rstrip()}")
            used = f"{time.monotonic() - build.begin:.0f} s, {build.cpu:.0f} of CPU"
            for what, why in verdicts:
                self.tell(what, why, used)
            self.change.notify()

    def tell(self, what, why, used=""):
        print(f"{what} FAILED: {why}" if why else f"{what} passed: {used}", flush=True)
        self.failed += bool(why)
        self.passed += not why


def try_all(repository, names=(), jobs=None):
    """Tries the crates of these names, or all, and prints what came of it. True where all passed."""
    begin, names = time.monotonic(), names or repository.uses
    builds = [Build(repository, name, False) for name in names if repository.is_program(name)]
    builds += [Build(repository, name, True) for name in names if repository.tests(name)]
    with tempfile.TemporaryDirectory(prefix="try-") as room:
        lanes = Lanes(builds, jobs, room)
        for what, why in repository.wrong:
            lanes.tell(what, why)
        lanes.run()
    used = resource.getrusage(resource.RUSAGE_CHILDREN)
    minutes, wall = (used.ru_utime + used.ru_stime) / 60, (time.monotonic() - begin) / 60
    processors = len(os.sched_getaffinity(0))
    memory = f"{used.ru_maxrss / 1e6:.1f} GB in one process, nothing proved"
    print(f"{minutes:.1f} minutes of CPU, {wall:.1f} of wall time, on {processors} processors, {memory}")
    print(f"{lanes.passed} passed, {lanes.failed} failed", flush=True)
    return lanes.passed > 0 and not lanes.failed


def main():
    parser = argparse.ArgumentParser(description=__doc__, formatter_class=argparse.RawDescriptionHelpFormatter)
    parser.add_argument("--jobs", type=int, metavar="N", help="builds at a time, whatever the memory; else up to 4")
    parser.add_argument("names", nargs="*", metavar="NAME", help="crates; all, if none is named")
    options, repository = parser.parse_args(), Repository(ROOT)
    unknown = [name for name in options.names if name not in repository.uses]
    if unknown:
        parser.error(f"crates.txt has no {' '.join(unknown)}")
    signal.signal(signal.SIGTERM, lambda *_: sys.exit(143))
    sys.exit(not try_all(repository, options.names, options.jobs))


if __name__ == "__main__":
    main()
