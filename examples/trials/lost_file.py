#!/usr/bin/env python3
"""Shows that a spool file which is removed, moved, replaced or cut under a hub is told, and that all is rescued.

    python3 examples/trials/lost_file.py PROGRAM [--short]

In each play LYON sends files for METZ, which isn't there, and each is acknowledged. Then somebody removes, moves or
replaces FILE, removes FILE-wal or both, or cuts FILE-wal. Within three seconds the log and `ctl status` are to say what
is wrong; LYON sends more files, which are acknowledged too; and where FILE was moved it is moved back, which the log is
to say once. Else the hub's lines are stopped, both files are copied from its open files under /proc, until two copies
are the same, and the hub is killed. A new hub on the copies is to have each file that was acknowledged, by `ctl files`
and, record by record, by `files --export`. Nothing is rescued where FILE-wal was cut: what was cut off is lost.

In the first play the log is looked at for a minute more: what is wrong is to be told again, a minute after the first
time. --short leaves that out. The table has a row for each step, with what was found, what was wanted, and whether that
is so. The status is 1 if something isn't.
"""

import filecmp
import os
import pathlib
import re
import shutil
import subprocess
import sys
import tempfile
import time

from console import ConsoleHub
from hub import connected, customer_of, free_ports, line_of, options_of, row

PEER = pathlib.Path(__file__).resolve().parent.parent / "peer.py"

WIDTHS = (34, 46, 46, 6)

# So many files are sent before, and so many after.
BEFORE, AFTER = 10, 3

# What follows in the log what is wrong; in the table it is two dots.
GOES_ON = "; the hub goes on with what it has open"

# What is done in each play, and what is told of it.
PLAYS = {
    "FILE is removed": "it isn't there",
    "FILE is moved": "it isn't there",
    "FILE is replaced": "it is another file",
    "FILE-wal is removed": "its log isn't there",
    "both are removed": "it isn't there, and its log isn't there",
    "FILE-wal is cut": "its log has been cut",
}


def table_of(port):
    lines = [line_of("a1", "LYON", port=port), line_of("a2", "METZ")]
    return "capacity = 2000\n" + customer_of("ACME", "BUREAU", 2000, lines, [("LYON", "a1"), ("METZ", "a2")])


def letter_of(number):
    """The lines of a letter."""
    return [f"LETTER {number} LINE {line}" for line in range(1 + number % 7)]


class Rows:
    """The rows of the table."""

    wrong = 0

    def show(self, what, found, wanted):
        right = found == wanted
        self.wrong += not right
        row(WIDTHS, what, str(found), str(wanted), "right" if right else "WRONG")


class Play:
    """A hub with a spool file in a folder of its own, and what is done to that file."""

    def __init__(self, options, what, rows):
        self.options, self.what, self.rows, self.sent = options, what, rows, []
        self.place = tempfile.TemporaryDirectory(prefix="lost_file.")
        self.folder = pathlib.Path(self.place.name)
        self.spool, self.port = self.folder / "spool", free_ports(1)[0]
        self.wal = self.folder / "spool-wal"

    def hub(self, spool):
        hub = ConsoleHub(self.options, table_of(self.port), "--spool", str(spool))
        hub.listens()
        connected(self.port).close()
        return hub

    def send(self, count):
        """So many letters more, each of which is acknowledged: `peer.py` ends with another status else."""
        for number in range(len(self.sent) + 1, len(self.sent) + count + 1):
            letter = self.folder / "letter.txt"
            letter.write_text("".join(f"{line}\n" for line in letter_of(number)))
            words = ["--port", str(self.port), "--node", "LYON", "--user", "ANNA", "send", str(letter), "PAUL@METZ"]
            done = subprocess.run([sys.executable, str(PEER), *words, "--number", str(number)], capture_output=True)
            assert done.returncode == 0, done.stderr.decode(errors="replace")
            self.sent.append(number)

    def lose(self):
        """Does what the play is about."""
        if self.what == "FILE is moved":
            self.spool.rename(self.folder / "elsewhere")
        if self.what == "FILE is replaced":
            shutil.copy(self.spool, self.folder / "other")
            (self.folder / "other").rename(self.spool)
        if self.what in ("FILE is removed", "both are removed"):
            self.spool.unlink()
        if self.what in ("FILE-wal is removed", "both are removed"):
            self.wal.unlink()
        if self.what == "FILE-wal is cut":
            # (the hub knows its size by looks that are a second apart)
            time.sleep(1.5)
            os.truncate(self.wal, 41)

    def told(self, hub):
        """What the log has told of the spool file, each with its time."""
        found = re.findall(r"^(\S+)Z spool file: (.*)$", "\n".join(hub.log()), re.MULTILINE)
        return [(when, text.replace(GOES_ON, " ..")) for when, text in found]

    def waits_for(self, hub, count, seconds):
        """What the log tells of the spool file once it has so many lines of it, or when so many seconds are over."""
        end = time.monotonic() + seconds
        while len(self.told(hub)) < count and time.monotonic() < end:
            time.sleep(0.1)
        return [text for _, text in self.told(hub)]

    def wrong_in(self, hub):
        found = re.findall(r"^wrong: spool file: (.*)$", hub.prints("status"), re.MULTILINE)
        return [text.replace(GOES_ON, " ..") for text in found]

    def play(self):
        print(f"{self.what}")
        wanted = PLAYS[self.what] + " .."
        with self.hub(self.spool) as hub:
            self.send(BEFORE)
            self.rows.show("before: the log, ctl status", [self.told(hub), self.wrong_in(hub)], [[], []])
            self.lose()
            self.rows.show("the log", self.waits_for(hub, 1, 3), [wanted])
            self.rows.show("ctl status", self.wrong_in(hub), [wanted])
            if self.what == "FILE-wal is cut":
                return
            self.send(AFTER)
            self.rows.show("files that ctl lists", len(self.listed(hub)), len(self.sent))
            if self.what == "FILE is removed" and not self.options.short:
                self.minute(hub, wanted)
            if self.what == "FILE is moved":
                self.mend(hub, wanted)
            self.rescue(hub)

    def minute(self, hub, wanted):
        """The same is told again a minute later, and not before."""
        self.rows.show("the log, a minute later", self.waits_for(hub, 2, 63), [wanted, wanted])
        seconds = [int(when[17:19]) + float(when[19:]) for when, _ in self.told(hub)]
        apart = round((seconds[-1] - seconds[0]) % 60, 1) if len(seconds) == 2 else None
        self.rows.show("seconds beyond a minute", apart is not None and min(apart, 60 - apart) <= 1, True)

    def mend(self, hub, wanted):
        """It is moved back."""
        (self.folder / "elsewhere").rename(self.spool)
        self.rows.show("moved back: the log", self.waits_for(hub, 2, 3), [wanted, "it and its log are there again"])
        self.rows.show("moved back: ctl status", self.wrong_in(hub), [])
        self.send(1)

    def listed(self, hub):
        """The names of the files that the hub has."""
        return [file["name"] for part in hub.answers("files", "ACME") for file in part["files"]]

    def opened(self, hub):
        """The open files of the hub that are its spool file and its log, under /proc."""
        found = {}
        for handle in pathlib.Path(f"/proc/{hub.process.pid}/fd").iterdir():
            where = os.readlink(handle).removesuffix(" (deleted)")
            if pathlib.Path(where).parent == self.folder:
                found["wal" if where.endswith("-wal") else "file"] = handle
        return found["file"], found["wal"]

    def rescue(self, hub):
        """As docs/OPERATING.md has it: lines are stopped, both files copied, and a new hub begun on the copies."""
        for line in ("a1", "a2"):
            hub.prints("stop", line)
        file, wal = self.opened(hub)
        copy, its_wal = self.folder / "rescued", self.folder / "rescued-wal"
        for _ in range(100):
            shutil.copyfile(file, copy)
            shutil.copyfile(wal, its_wal)
            if filecmp.cmp(file, copy, shallow=False) and filecmp.cmp(wal, its_wal, shallow=False):
                break
            time.sleep(0.1)
        hub.process.kill()
        hub.process.wait()
        with self.hub(copy) as new:
            names = [f"LYON.{number}" for number in self.sent]
            found = self.listed(new)
            self.rows.show("rescued: files that ctl lists", len(found), len(names))
            self.rows.show("rescued: all of those sent", found == names, True)
        same = sum(self.exported(copy, number) == letter_of(number) for number in self.sent)
        self.rows.show("rescued: files with their records", same, len(self.sent))

    def exported(self, spool, number):
        """The records of a file as lines."""
        words = ["files", "--spool", str(spool), "--customer", "ACME", "--export", f"LYON.{number}"]
        done = subprocess.run([self.options.program, *words], capture_output=True, timeout=60)
        return [line.rstrip() for line in done.stdout.decode(errors="replace").splitlines()]


def main():
    options = options_of(__doc__, (["--short"], {"action": "store_true", "help": "without the minute"}))
    rows = Rows()
    row(WIDTHS, "step", "found", "wanted", "")
    for what in PLAYS:
        play = Play(options, what, rows)
        with play.place:
            play.play()
    print("right" if not rows.wrong else f"WRONG: {rows.wrong} rows")
    sys.exit(rows.wrong > 0)


if __name__ == "__main__":
    main()
