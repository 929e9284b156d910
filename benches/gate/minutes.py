#!/usr/bin/env python3
"""Says what a run of the gate costs: by part and by crate, in minutes of CPU and GB of memory.

    python3 benches/gate/minutes.py [--cpus 0,1] [--keep] [words of a command; where none are given, the gate's rt ci]

Where the toolchain's `rt ci` keeps what passed and no words are given, it is told to keep nothing (`--anew`); older
ones keep nothing anyway.

The file minutes.txt beside this, if it is there, has each crate's minutes of CPU at the last measurement. After a run
that did a crate's whole work this says which crates took over a quarter more than they did then, where the run as a
whole took so many times as long as then: machines differ. --keep writes what this run took into that file.

Runs the command at the top of the repository (with --cpus, on these processors alone) and looks at its processes twice
a second: the crate is the one that a check names, the part what the check is for. What a process used since it was
last looked at is missed, a quarter of a second for each on average; the sum at the end is the system's own. What the
command prints is passed on, and its last line, the verdict, comes last, after the table: `gate` runs `rt ci` so. The
table has a row for each crate: minutes of its proof, of its tests' proof and their building, of its wrong bodies (the
crate's proof for them among it), of building and running programs; for how many minutes its process was the only one at
work; the most memory of one process in GB, and which process that was.
"""

import collections
import datetime
import os
import pathlib
import resource
import subprocess
import sys
import threading
import time

TICK = os.sysconf("SC_CLK_TCK")
PAGE = os.sysconf("SC_PAGE_SIZE")
PARTS = ("proof", "tests", "edits", "programs")
WAIT = 0.5
KEPT = pathlib.Path(__file__).with_name("minutes.txt")


def words_of(pid):
    """A process's command line and the folder that it is in."""
    try:
        words = pathlib.Path(f"/proc/{pid}/cmdline").read_bytes().decode(errors="replace").split("\0")
        return words, os.readlink(f"/proc/{pid}/cwd")
    except OSError:
        return [], ""


def use_of(pid):
    """A process's parent, the seconds of CPU that it used, its memory in bytes, whether it runs now, and its name."""
    try:
        text = pathlib.Path(f"/proc/{pid}/stat").read_text(errors="replace")
    except OSError:
        return None
    before, after = text.rsplit(")", 1)
    name, fields = before.split("(", 1)[1], after.split()
    return int(fields[1]), (int(fields[11]) + int(fields[12])) / TICK, int(fields[21]) * PAGE, fields[0] == "R", name


def kind_of(words, folder):
    """The crate and the part that a process works for, if it says so itself."""
    if "--crate-name" in words:
        crate = words[words.index("--crate-name") + 1]
        if "/rt-edit-" in folder or "/wrong-bodies-" in folder:
            return crate, "edits"
        if "--test" in words:
            return crate, "tests"
        return crate, "programs" if "--crate-checked" in words else "proof"
    if words and "/out/" in words[0]:
        return pathlib.Path(words[0]).name.split(".")[0].removesuffix("_tests"), "programs"
    return None


class Run:
    """What was seen of a run."""

    def __init__(self, root):
        self.root, self.kinds, self.used = root, {}, {}
        self.most, self.alone = collections.defaultdict(lambda: (0, "")), collections.Counter()

    def look(self):
        """Looks at the processes below the run's own."""
        uses = {int(name): use for name in os.listdir("/proc") if name.isdigit() if (use := use_of(name))}
        below = {self.root}
        for _ in range(6):
            below |= {pid for pid, use in uses.items() if use[0] in below}
        at_work = set()
        for pid in below - {self.root}:
            kind = self.kind(pid, uses)
            if not kind:
                continue
            parent, seconds, memory, runs, name = uses[pid]
            self.used[pid, kind] = max(seconds, self.used.get((pid, kind), 0))
            self.most[kind[0]] = max((memory, f"{name}, {kind[1]}"), self.most[kind[0]])
            if runs:
                at_work.add(kind)
        if len(at_work) == 1:
            self.alone[at_work.pop()[0]] += WAIT

    def kind(self, pid, uses):
        """What a process works for: what it says, or what the one above it does."""
        for _ in range(6):
            if pid not in self.kinds or not self.kinds[pid]:
                self.kinds[pid] = kind_of(*words_of(pid))
            if self.kinds[pid] or pid not in uses:
                return self.kinds[pid]
            pid = uses[pid][0]
        return None

    def minutes(self):
        """The minutes of each crate by part."""
        minutes = collections.defaultdict(collections.Counter)
        for (_, (crate, part)), seconds in self.used.items():
            minutes[crate][part] += seconds / 60
        return minutes

    def table(self):
        minutes = self.minutes()
        row = "{:<18}" + "{:>8}" * (len(PARTS) + 3) + "  {}"
        print(row.format("crate", *PARTS, "in all", "alone", "GB", "of"))
        sums = collections.Counter()
        for crate, parts in sorted(minutes.items(), key=lambda one: -sum(one[1].values())):
            sums.update(parts)
            figures = [f"{parts[part]:.1f}" for part in PARTS]
            memory, process = self.most[crate]
            more = f"{sum(parts.values()):.1f}", f"{self.alone[crate] / 60:.1f}", f"{memory / 1e9:.1f}", process
            print(row.format(crate, *figures, *more))
        figures = [f"{sums[part]:.1f}" for part in PARTS]
        memory, process = max(self.most.values(), default=(0, ""))
        more = f"{sum(self.alone.values()) / 60:.1f}", f"{memory / 1e9:.1f}", process
        print(row.format("all", *figures, f"{sum(sums.values()):.1f}", *more))


def kept():
    """The minutes of each crate at the last measurement: all, and each part."""
    if not KEPT.is_file():
        return {}
    rows = (line.split() for line in KEPT.read_text().splitlines() if line and not line.startswith("#"))
    return {crate: dict(zip(PARTS, map(float, figures))) for crate, *figures in rows}


def compare(minutes, before):
    """Says which crates took over a quarter more than at the last measurement, by how the others did."""
    if not before:
        return

    def took(figures):
        return sum(figures.get(part, 0) for part in PARTS)

    both = [crate for crate in before if took(before[crate]) >= 0.5 and took(minutes.get(crate, {})) >= 0.5]
    if not both or len(both) < len(before) / 2:
        print("too little was done anew to compare it with the last measurement")
        return
    factor = sum(took(minutes[crate]) for crate in both) / sum(took(before[crate]) for crate in both)
    print(f"crates took {factor:.2f} times the minutes of the last measurement; over a quarter more than that:")
    slow = [crate for crate in both if took(minutes[crate]) > 1.25 * factor * took(before[crate])]
    for crate in slow:
        print(f"    {crate}: {took(minutes[crate]):.1f} minutes, {took(before[crate]):.1f} then")
    if not slow:
        print("    none")


def keep(minutes, how):
    """Writes what a run took as the last measurement."""
    lines = [f"# minutes of CPU of each crate: {' '.join(PARTS)}; {how}"]
    for crate, parts in sorted(minutes.items()):
        lines.append(" ".join([crate, *(f"{parts[part]:.1f}" for part in PARTS)]))
    KEPT.write_text("\n".join(lines) + "\n")


def anew():
    """The word by which `rt ci` proves what it kept once more, if this toolchain's knows one."""
    told = subprocess.run(["rt", "help"], capture_output=True, text=True, check=False)
    return ["--anew"] if "--anew" in told.stdout + told.stderr else []


class Passed(threading.Thread):
    """Passes on the lines that a process prints, but for the last one."""

    def __init__(self, lines):
        super().__init__(daemon=True)
        self.lines, self.last = lines, ""
        self.start()

    def run(self):
        for line in self.lines:
            print(self.last, end="", flush=True)
            self.last = line


def main():
    words, keeps = sys.argv[1:], False
    if words[:1] == ["--cpus"]:
        os.sched_setaffinity(0, {int(number) for number in words[1].split(",")})
        words = words[2:]
    if words[:1] == ["--keep"]:
        words, keeps = words[1:], True
    if not words:
        words = [sys.executable, "-B", "benches/gate/rt.py", "ci", *anew()]
    os.chdir(pathlib.Path(__file__).resolve().parents[2])
    begin = time.monotonic()
    process = subprocess.Popen(words, stdout=subprocess.PIPE, text=True, errors="replace")
    passed, run = Passed(process.stdout), Run(process.pid)
    while process.poll() is None:
        try:
            run.look()
        except (OSError, ValueError):
            pass  # a process that ends while it is looked at
        time.sleep(WAIT)
    passed.join()
    used = resource.getrusage(resource.RUSAGE_CHILDREN)
    run.table()
    minutes = (used.ru_utime + used.ru_stime) / 60
    wall, processors = (time.monotonic() - begin) / 60, len(os.sched_getaffinity(0))
    how = f"{minutes:.0f} minutes of CPU, {wall:.0f} of wall time, on {processors} processors"
    compare(run.minutes(), kept())
    if keeps:
        keep(run.minutes(), f"{datetime.date.today()}, {how}")
    print(how)
    print(passed.last, end="", flush=True)
    sys.exit(process.returncode)


if __name__ == "__main__":
    main()
