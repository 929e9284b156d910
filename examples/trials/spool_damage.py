"""Shows what becomes of a spool file that is damaged: it is opened as it once was, or refused, never read wrongly.

    python3 examples/trials/spool_damage.py PROGRAM [--places 100] [--seed N]

A hub is run, killed and run again, with one peer that sends files, holds, releases, reroutes and cancels them, each act
after the answer to the one before; so the listing after each act is known, and each file's bytes. Then copies of the
spool file and its log are damaged, one each time: the file cut at so many places and with a byte changed at so many
places, the same for the log, for the file alone after SQLite put the log into it, and the log left out. It is asserted
of each copy that

- `njehub files` prints one of the listings that there were, in the order of the acts, with status 0; or nothing, with
  one line on standard error and status 2;
- `njehub files --export --raw` of some files that are listed gives its bytes, or nothing and status 2 with one line;
- `njehub serve --turns 1` ends with status 0, or with status 2 and one line; its log says that the log isn't there if
  that was left out, and doesn't say so of a copy that is as it was;
- nothing ends by a signal or lasts over 20 seconds.

The table has a row for each kind of damage: how many copies there were, how many were refused, how many were listed as
they stood last and how many as they stood earlier, how many exports gave bytes and how many were refused. The last line
says "right", or the script ends with status 1 and says what is wrong.
"""

import random
import sqlite3
import subprocess
import sys

from frames import (
    COMPLETE,
    CONTACT,
    MESSAGE,
    NAK,
    PERMISSION,
    REQUEST,
    Deframer,
    Text,
    command,
    ebcdic,
    file_of,
    framed,
    records_of,
    sign_on,
)
from hub import connected, options_of, row
from spool_model import SYSOUT_1, Entry, Wrong
from spool_runs import Runs
from spool_served import raw_of
from spool_traffic import Sending

WIDTHS = (14, 7, 8, 6, 8, 9, 8)

# Of which copies the hub's log is to say that theirs isn't there, or not to.
TOLD = {"log left out": True, "none": False}


class Anna:
    """LYON's peer: one act at a time, each answered before the next."""

    def __init__(self, runs):
        runs.listens()
        self.socket, self.deframer, self.count = connected(runs.ports[0]), Deframer(), 0
        self.heard(CONTACT)
        self.heard(sign_on(0xC9, "LYON"))

    def heard(self, frame):
        self.socket.sendall(frame)
        frames = []
        while not frames:
            data = self.socket.recv(65536)
            if not data:
                raise Wrong("the hub closed the line")
            frames = [one for one in self.deframer.feed(data) if one != NAK]
        return frames[-1]

    def ask(self, records, wanted=None):
        """Sends a block, and further ones without records until the record that is wanted comes."""
        for _ in range(1000):
            frame = self.heard(framed(bytes([0x80 + self.count]) + b"\x8f\xcf" + records + b"\x00"))
            self.count, records = (self.count + 1) % 16, b""
            came = records_of(frame) if isinstance(frame, Text) else []
            if wanted is None or any(record[0] == wanted for record in came):
                return came
        raise Wrong(f"no answer {wanted:02X}")

    def send(self, entry):
        stream = Sending(SYSOUT_1)
        stream.entry = entry
        self.ask(bytes([REQUEST, SYSOUT_1, 0]), PERMISSION)
        while stream.state != "at its end":
            pieces = stream.pieces(1000)
            self.ask(pieces, COMPLETE if stream.state == "at its end" else None)

    def command(self, words):
        self.ask(command("BUREAU", "LYON", "ANNA", words), MESSAGE)


class Built:
    """A spool with a known past: the listings after each act, first to last, and the bytes of every file."""

    def __init__(self, options, seed):
        self.runs, self.chance = Runs(options, seed), random.Random(seed)
        self.there, self.states, self.bytes, self.exports = [], [b""], {}, options.exports
        for _ in range(4):
            self.grow()

    def grow(self):
        """A run that is killed after its acts; the listing is as it should be then."""
        served = self.runs.served
        served.start()
        try:
            anna = Anna(self.runs)
            for _ in range(15):
                self.act(anna)
                self.states.append("".join(self.line(entry) for entry in self.there).encode())
        finally:
            served.kill()
        status, out, err = served.files(spool=served.copy(self.runs.folder / "copy"))
        if status or out != self.states[-1]:
            raise Wrong(f"files of an undamaged spool: status {status}, {err}, {out.decode()}")

    def act(self, anna):
        if len(self.there) < 3 or self.chance.random() < 0.5:
            self.send(anna)
            return
        verb, entry = self.chance.choice(("HOLD", "RELEASE", "REROUTE", "CANCEL")), self.chance.choice(self.there)
        anna.command(f"{verb} {entry.name}" + " PARIS" * (verb == "REROUTE"))
        if verb == "CANCEL":
            self.there.remove(entry)
        elif verb == "REROUTE":
            entry.to = frozenset(("PARIS",))
        else:
            entry.held = frozenset((verb == "HOLD",))

    def send(self, anna):
        number = self.runs.books[0].next_number()
        count = self.chance.choice((1, 5, 40, 40, 300))
        cards = [ebcdic(f"{number} {self.chance.random()}".ljust(80)) for _ in range(count)]
        entry = Entry(number, "LYON", "ANNA", "METZ", "OUT", file_of(number, "LYON", "ANNA", "METZ", "PAUL", cards))
        for node in ("METZ", "PARIS"):
            self.bytes[entry.name, node] = raw_of(entry.bytes_for(node))
        anna.send(entry)
        self.there.append(entry)

    @staticmethod
    def line(entry):
        (node,), state = entry.to, "HELD" if True in entry.held else "READY"
        return f"ACME {entry.name} TO {node} PAUL OUT {len(entry.records)} RECORDS {state}\n"


class Damage:
    """A kind of damage, and what came of it."""

    def __init__(self, built, name):
        self.built, self.name, self.served = built, name, built.runs.served
        self.copies = self.refused = self.last = self.earlier = self.exports = self.unread = 0

    def try_copy(self, harm):
        copy = self.served.copy(self.built.runs.folder / "harmed")
        harm(copy)
        self.copies += 1
        status, out, err = self.ran(self.served.files, spool=copy)
        if status == 0 and out in self.built.states:
            is_last = out == self.built.states[-1]
            self.last, self.earlier = self.last + is_last, self.earlier + (not is_last)
            lines = out.decode().splitlines()
            for line in self.built.chance.sample(lines, min(self.built.exports, len(lines))):
                self.export(line, copy)
        elif status == 2 and not out and err.count("\n") == 1:
            self.refused += 1
        else:
            raise Wrong(f"files: status {status}, {err!r}, {out.decode(errors='replace')}")
        self.serve(harm)

    def ran(self, call, *words, **given):
        try:
            return call(*words, **given)
        except subprocess.TimeoutExpired:
            raise Wrong(f"{words} {given}: it lasts over its time") from None

    def export(self, line, copy):
        customer, name, _, node = line.split()[:4]
        status, out, err = self.ran(self.served.files, "--customer", customer, "--export", name, "--raw", spool=copy)
        if status == 2 and not out and err.count("\n") == 1:
            self.unread += 1
        elif status == 0 and out == self.built.bytes[name, node]:
            self.exports += 1
        else:
            raise Wrong(f"export {name}: status {status}, {err!r}, {len(out)} bytes")

    def serve(self, harm):
        done = self.turn(harm, "--quiet")
        if done.returncode not in (0, 2) or done.stderr.count(b"\n") != (done.returncode == 2):
            raise Wrong(f"serve: status {done.returncode}, {done.stderr!r}")
        if self.name in TOLD:
            done = self.turn(harm)
            if (b"-wal isn't there" in done.stderr) != TOLD[self.name]:
                raise Wrong(f"serve: its log says {done.stderr!r}")

    def turn(self, harm, *words):
        copy = self.served.copy(self.built.runs.folder / "harmed")
        harm(copy)
        line = [self.served.program, "serve", "--tables", self.served.table, "--spool", copy, "--turns", "1", *words]
        try:
            return subprocess.run(line, stdin=subprocess.DEVNULL, capture_output=True, timeout=20)
        except subprocess.TimeoutExpired:
            raise Wrong("serve --turns 1 lasts over 20 seconds") from None

    def show(self):
        counts = (self.copies, self.refused, self.last, self.earlier, self.exports, self.unread)
        row(WIDTHS, self.name, *counts)


def wal_of(copy):
    return copy.with_name(copy.name + "-wal")


def alone(copy):
    """The file with all that was in its log, which is gone then."""
    connection = sqlite3.connect(copy)
    connection.execute("pragma wal_checkpoint(truncate)")
    connection.close()
    return copy


def harms(built, places, chance):
    """Each kind of damage, as its name and what is done to a copy at each of its places."""
    served = built.runs.served
    for name, of in (("file", lambda copy: copy), ("log", wal_of), ("alone", alone)):
        path = of(served.copy(built.runs.folder / "sized"))
        size = path.stat().st_size if path.exists() else 0
        print(f"the {name} has {size} bytes")
        if size:
            points = sorted(chance.randrange(size) for _ in range(places))
            yield f"{name} cut", [lambda copy, at=at, of=of: cut(of(copy), at) for at in points]
            masks = [(chance.randrange(size), chance.randrange(1, 256)) for _ in range(places)]
            yield f"{name} changed", [lambda copy, at=at, of=of: change(of(copy), *at) for at in sorted(masks)]
    yield "log left out", [lambda copy: wal_of(copy).unlink(missing_ok=True)]
    yield "none", [lambda copy: None]


def cut(path, length):
    with path.open("r+b") as file:
        file.truncate(length)


def change(path, at, mask):
    with path.open("r+b") as file:
        file.seek(at)
        byte = file.read(1)[0]
        file.seek(at)
        file.write(bytes([byte ^ mask]))


def main():
    options = options_of(
        __doc__,
        (("--places",), {"type": int, "default": 100}),
        (("--exports",), {"type": int, "default": 5, "help": "files of each copy that are exported"}),
        (("--seed",), {"type": int, "default": 37}),
    )
    wrong = 0
    built = Built(options, options.seed)
    print(f"{len(built.states)} listings, {len(built.states[-1].splitlines())} files at last")
    row(WIDTHS, "damage", "copies", "refused", "last", "earlier", "exported", "unread")
    for name, places in harms(built, options.places, random.Random(options.seed)):
        damage = Damage(built, name)
        for at, harm in enumerate(places):
            try:
                damage.try_copy(harm)
            except Wrong as why:
                wrong += 1
                print(f"WRONG: {name}, place {at}: {why}")
        damage.show()
    print("right" if not wrong else f"{wrong} are wrong; the spool is in {built.runs.folder}")
    if not wrong:
        built.runs.clear()
    sys.exit(wrong > 0)


if __name__ == "__main__":
    main()
