"""Shows that a hub whose spool file can't be written ends, and that nothing was acknowledged that isn't kept.

    python3 examples/trials/spool_io_faults.py PROGRAM [--faults 400] [--cuts 100] [PLAY ..]

The plays, each on folders of its own, with the peers and all that spool_kills.py asserts of a spool file between two
runs; spool_faults.c beside this script is preloaded into the program (cc builds it), and touches the spool file and its
log alone:

- `errors`: the n-th write, truncation or fsync of a short run fails with EIO, for n of 1, 2, 3 and on;
- `room`: the same with ENOSPC;
- `halves`: the n-th write takes half of its bytes. Here the program may go on;
- `disk`: the spool file is on a disk of 400 KB (a tmpfs; root), which is full soon; then the disk is made larger;
- `cuts`: what was written since the last fsync of each file is lost at SIGKILL, all of it or sectors of 512 bytes at
  random, as by a power cut, so many times on one spool file.

Of the first, second and fourth it is asserted that the program ends with status 2, with a line on standard error that
names the spool file and why it failed and `njehub: device` as the last one, that nothing is missing then, and that a
start without faults goes on. The table has a row for each play: how many runs there were, how many ended with status 2,
how many went on, and the files that were complete and that were taken. The last line says "right", or the script ends with status 1 and says what is wrong.
"""

import os
import pathlib
import struct
import subprocess
import sys
import tempfile

from hub import options_of, row
from spool_model import Wrong
from spool_runs import Runs

WIDTHS = (8, 6, 10, 9, 9, 9)

PLAYS = ("errors", "room", "halves", "disk", "cuts")

SECTOR = 512

# A short run: much of everything in little time.
SHORT = {"send": 0.5, "take": 0.6, "command": 0.4, "large": 0.0}


class Play:
    """What has come of a play, and the library that it preloads."""

    def __init__(self, options, library):
        self.options, self.library = options, library
        self.runs = self.ended = self.lived = 0
        self.whole = self.taken = 0

    def env(self, runs, **more):
        names = {f"SPOOL_{name.upper()}": str(value) for name, value in more.items()}
        return {**os.environ, "LD_PRELOAD": self.library, "SPOOL_FILE": str(runs.served.spool), **names}

    def count(self, runs, status):
        self.runs += 1
        self.ended += status == 2
        self.lived += status is None
        self.whole += runs.counts["whole"]
        self.taken += runs.counts["taken"]

    def refused(self, runs, status):
        """It ended by itself, as it should."""
        log = runs.served.log()
        if status != 2 or len(log) < 2 or " spool file " not in log[-2] or log[-1] != "njehub: device":
            raise Wrong(f"status {status}, and the last of standard error: {log[-2:]}")

    def show(self, name):
        row(WIDTHS, name, self.runs, self.ended, self.lived, self.whole, self.taken)


def at_fault(play, number, error):
    """A run whose n-th call fails, a check, and a run without faults. Says whether so many calls were made."""
    runs = Runs(play.options, number)
    fired = runs.folder / "fired"
    try:
        env = play.env(runs, fault=number, error=error, fired=fired)
        _, status = runs.run(0.15, may_end=True, env=env, **SHORT)
        runs.check()
        if fired.exists() and (error > 0 or status is not None):
            play.refused(runs, status)
        if status is None or fired.exists():
            runs.run(0.05)
            runs.check()
    except Wrong as wrong:
        raise Wrong(f"call {number}: {wrong} (in {runs.folder})") from None
    play.count(runs, status)
    is_over = not fired.exists()
    runs.clear()
    return is_over


def sweep(play, error):
    over, step, number = 0, 1, play.options.first
    while number < play.options.faults and over < 3:
        over = over + 1 if at_fault(play, number, error) else 0
        number += step
        step = play.options.step + number // 50


def disk(play):
    """A disk that is full."""
    folder = tempfile.mkdtemp(prefix="spool_disk.")
    mounted = subprocess.run(["mount", "-t", "tmpfs", "-o", "size=400k", "tmpfs", folder], capture_output=True)
    if mounted.returncode:
        print(f"disk: left out, as no tmpfs can be mounted: {mounted.stderr.decode().strip()}")
        return
    runs = Runs(play.options, 1, pathlib.Path(folder, "spool.db"))
    try:
        _, status = runs.run(60, may_end=True, send=1.0, take=0.0, command=0.1)
        play.refused(runs, status)
        runs.check()
        play.count(runs, status)
        _, status = runs.run(0.5, may_end=True, take=1.0, refuse=0.0)  # still full: files may leave, or it ends
        if status is not None:
            play.refused(runs, status)
        runs.check()
        play.count(runs, status)
        subprocess.run(["mount", "-o", "remount,size=64m", folder], check=True)
        _, status = runs.run(1)
        runs.check()
        runs.empty()
        play.count(runs, status)
    except Wrong as wrong:
        raise Wrong(f"{wrong} (in {runs.folder}, {runs.size()} KB of spool)") from None
    finally:
        subprocess.run(["umount", folder], check=True)
        os.rmdir(folder)
    runs.clear()


def noted_in(path):
    """What the library noted of writes: offset, length of the file, the bytes that stood there, the new ones."""
    data, at, found = path.read_bytes() if path.exists() else b"", 0, []
    while at + 40 <= len(data):
        is_cut, offset, count, length, stood = struct.unpack_from("5q", data, at)
        new_at = at + 40 + stood
        at = new_at + (0 if is_cut else count)
        found.append((offset, length, data[new_at - stood : new_at], data[new_at:at]))
    return found


def undo(file, path, chance):
    """Takes back what was written to the file since its last fsync; sectors of it may stay."""
    noted = noted_in(path)
    if not noted or not file.exists():
        return 0
    share = chance.choice((0.0, 0.0, 0.3, 0.7))
    with file.open("r+b") as out:
        for offset, length, old, _ in reversed(noted):
            out.seek(offset)
            out.write(old)
            out.truncate(length)
        for offset, _, _, new in noted:
            at = 0
            while at < len(new):
                end = at + SECTOR - (offset + at) % SECTOR
                if chance.random() < share:
                    out.seek(offset + at)
                    out.write(new[at:end])
                at = end
    path.unlink()
    return len(noted)


def cuts(play):
    runs = Runs(play.options, 2)
    note = runs.folder / "undo"
    ends = (("", ".0"), ("-wal", ".1"))
    files = [(pathlib.Path(f"{runs.served.spool}{own}"), pathlib.Path(f"{note}{of}")) for own, of in ends]
    lost = 0
    try:
        for _ in range(play.options.cuts):
            seconds = None if runs.chance.random() < 0.1 else runs.chance.uniform(0.005, 0.3)
            _, status = runs.run(seconds, env=play.env(runs, undo=note))
            lost += sum(undo(file, path, runs.chance) for file, path in files)
            runs.check()
            play.runs, play.lived = play.runs + 1, play.lived + 1
        runs.empty()
    except Wrong as wrong:
        raise Wrong(f"{wrong} (in {runs.folder})") from None
    play.whole, play.taken = runs.counts["whole"], runs.counts["taken"]
    print(f"cuts: {lost} writes were taken back in all")
    runs.clear()


def main():
    options = options_of(
        __doc__,
        (("--faults",), {"type": int, "default": 400, "help": "the last call that fails, if a run has so many"}),
        (("--step",), {"type": int, "default": 1, "help": "how many calls on the next one fails"}),
        (("--first",), {"type": int, "default": 1, "help": "the first call that fails"}),
        (("--cuts",), {"type": int, "default": 100}),
        (("plays",), {"nargs": "*", "metavar": "PLAY", "help": ", ".join(PLAYS) + "; all where none is named"}),
    )
    wrong_plays = 0
    with tempfile.TemporaryDirectory() as folder:
        library = f"{folder}/spool_faults.so"
        source = pathlib.Path(__file__).with_name("spool_faults.c")
        subprocess.run(["cc", "-shared", "-fPIC", "-O1", "-o", library, source, "-ldl"], check=True)
        row(WIDTHS, "play", "runs", "status 2", "went on", "whole", "taken")
        for name in options.plays or PLAYS:
            play = Play(options, library)
            sweeps = {"errors": 5, "room": 28, "halves": -1}
            try:
                sweep(play, sweeps[name]) if name in sweeps else globals()[name](play)
            except Wrong as wrong:
                wrong_plays += 1
                print(f"WRONG: {name}: {wrong}")
            play.show(name)
    print("right" if not wrong_plays else f"{wrong_plays} plays are wrong")
    sys.exit(wrong_plays > 0)


if __name__ == "__main__":
    main()
