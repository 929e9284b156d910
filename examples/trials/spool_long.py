"""Shows how long other customers wait for a hub with a spool file while one customer asks much of it.

    python3 examples/trials/spool_long.py PROGRAM [--seconds 10] [--cores 2 3 1] [PLAY ..]

The hub is on the first of `--cores`, on the second is a pair of lines of another customer, played by spool_load.c, so
that nothing but the hub makes an answer wait: one sends files of three cards, and the other takes them, some 300 a
second, each line its next block some milliseconds after the last one was answered. On the third core is the first
customer's line, which sends frames of up to 4,096 bytes as fast as they are answered. It plays, in turn and each with a
new hub:

- `quiet`: it says nothing.
- `large`: a file of 10 MB, in records of 256 bytes.
- `flood`: HOLD and RELEASE of its file in turn, an odd number of them in each frame, so that each changes the file.
- `many`: the same of 1,024 files of one name.
- `smallest`: it fills its quota with records of a blank, until one is refused, and begins anew.
- `whole`: it sends files of 406,000 such records, and cancels each when it is whole.
- `headers`: the same of 20,300 records that go on with a data set header, of a byte each.

There too a probe writes 4,096 bytes some twenty times a second to a file beside the spool file, and syncs it.

The table has a row for each: the median and the longest sync in milliseconds, of the probe and of the hub, whose syncs
are noted by a library that is loaded before it (spool_syncs.c, which cc builds); and of the sender and of the receiver
how many answers there were, their median and the longest in milliseconds, and the longest of them without the time of
it in which the hub was syncing. That is to be under 10 milliseconds. What the first line played is said below each row.
"""

import bisect
import multiprocessing
import os
import statistics
import subprocess
import tempfile
import time

from frames import (
    BLOCK,
    CARD,
    COMPLETE,
    MESSAGE,
    PERMISSION,
    REFUSAL,
    REQUEST,
    SYSOUT,
    Text,
    command,
    file_of,
    records_of,
    spelled,
)
from hop_ends import End
from hub import options_of, places_of, row
from spool_hub import PinnedHub, built, on_core
from spool_rate import LARGE, pair_of
from spool_rate import CARDS as ALL_CARDS
from spool_speed import BIG, table_for

# The cards of a file of the other customer.
CARDS = ALL_CARDS[:3]

# How many seconds more the other customer's lines last, in which a play is made ready.
MORE = {"many": 15}

PLAYS = ("quiet", "large", "flood", "many", "smallest", "whole", "headers")

WIDTHS = (9, 7, 8, 7, 8, 8, 7, 8, 8, 8, 7, 8, 8)

# The SRCB of a data set header, and of a record that goes on with one.
DATA_SET_HEADER = 0xE0

# How many bytes the records of a frame may take, so that it has 4,096 at most, also if some are doubled.
ROOM = 4060

# How many blocks the first customer's quota has, and in the play that fills it.
QUOTA, FILLED = 65000, 8000


class Waiting:
    """A pair of lines of another customer, and its answers once it has ended."""

    def __init__(self, load, places, seconds, core, rest=3000):
        words = [load, str(seconds), str(len(CARDS) + 3), str(rest)]
        pipes = {"stdin": subprocess.PIPE, "stdout": subprocess.PIPE}
        self.process = subprocess.Popen(words, text=True, preexec_fn=on_core(core), **pipes)
        self.process.stdin.write(pair_of(*places, cards=CARDS))
        self.process.stdin.close()
        if self.process.stdout.readline() != "begin\n":
            raise ConnectionError("the pair isn't up")

    def stop(self):
        """Of the sender and of the receiver when each frame was said and when its answer came, in seconds."""
        found = {"1": [], "0": []}
        for kind, *times in map(str.split, self.process.stdout.read().splitlines()[1:]):
            found[kind].append(tuple(int(time) / 1e9 for time in times))
        self.process.wait()
        return found["1"], found["0"]


class Probe:
    """A process that writes to a file in this folder and syncs it, and notes when each sync began and ended."""

    def __init__(self, folder, core):
        self.pipe, there = multiprocessing.Pipe()
        words = (f"{folder}/probe", core, there)
        self.process = multiprocessing.get_context("fork").Process(target=self.run, args=words, daemon=True)
        self.process.start()

    @staticmethod
    def run(path, core, pipe):
        os.sched_setaffinity(0, {core})
        file, times = os.open(path, os.O_CREAT | os.O_RDWR, 0o600), []
        while not pipe.poll(0.05):
            os.pwrite(file, os.urandom(4096), 0)
            begin = time.monotonic()
            os.fdatasync(file)
            times.append((begin, time.monotonic()))
        pipe.send(times)

    def stop(self):
        self.pipe.send("stop")
        times = self.pipe.recv()
        self.process.join()
        return times


class Asker(End):
    """The first customer's line, on a socket that waits. `begun` is when its play began, all being made ready."""

    begun = 0.0

    def begin(self):
        self.begun = time.monotonic()

    def exchange(self, records):
        """Says a block of these records, and which records the answer has: RCB, SRCB and bytes."""
        self.say(records)
        frames = []
        while not frames:
            frames = self.deframer.feed(self.socket.recv(65536))
        return [record for frame in frames if isinstance(frame, Text) for record in records_of(frame)]

    def expect(self, code, records):
        """Says a block that is to be answered by a record of this RCB."""
        found = [record[0] for record in self.exchange(records)]
        if code not in found:
            raise ConnectionError(f"the hub answers {found}")

    def send(self, cards):
        """Sends a file of these cards that nobody takes, each frame with as many records as have room."""
        file, waits = file_of(1, "N0", "ANNA", "N1", "PAUL", cards), b""
        self.expect(PERMISSION, bytes([REQUEST, SYSOUT, 0]))
        for srcb, record in file:
            piece = bytes([SYSOUT, srcb]) + spelled(record)
            if len(waits) + len(piece) > ROOM:
                self.exchange(waits)
                waits = b""
            waits += piece
        self.expect(COMPLETE, waits + bytes([SYSOUT, CARD, 0]))


def quiet(asker, seconds):
    asker.begin()
    time.sleep(seconds)
    return "nothing"


def large(asker, _):
    asker.begin()
    asker.send([BIG.replace(b"\x10", b"\x11")] * 40000)
    return f"a file of 10 MB in {time.monotonic() - asker.begun:.1f} s"


def flood(asker, seconds, count=1):
    for _ in range(count):
        asker.send([BIG])
    words = [command("BUREAU", "N0", "ANNA", f"{word} N0.1") for word in ("HOLD", "RELEASE")]
    many = ROOM // len(words[1]) // 2 * 2 - 1
    blocks = [b"".join(words[(at + first) % 2] for at in range(many)) for first in (0, 1)]
    asker.begin()
    frames, replies = 0, 0
    while time.monotonic() < asker.begun + seconds:
        found = asker.exchange(blocks[frames % 2])
        frames, replies = frames + 1, replies + sum(rcb == MESSAGE for rcb, _, _ in found)
    return f"{frames} frames of {many} commands about {count} files in {seconds} s; {replies} replies came back"


def many(asker, seconds):
    return flood(asker, seconds, 1024)


def smallest(asker, seconds):
    piece = bytes([SYSOUT, CARD, 0x81, 0x00])
    block, headers = piece * (ROOM // len(piece)), file_of(1, "N0", "ANNA", "N1", "PAUL", [])[:2]
    first = b"".join(bytes([SYSOUT, srcb]) + spelled(record) for srcb, record in headers)
    asker.begin()
    frames, fills, end = 0, 0, asker.begun + seconds
    while time.monotonic() < end:
        asker.expect(PERMISSION, bytes([REQUEST, SYSOUT, 0]) + first)
        while time.monotonic() < end and all(rcb != REFUSAL for rcb, _, _ in asker.exchange(block)):
            frames += 1
        fills += time.monotonic() < end
        asker.exchange(bytes([SYSOUT, CARD, 0x40]))
    return f"{frames} frames of {len(block) // 4} records in {seconds} s; {fills} times the quota was full"


def whole(asker, seconds, srcb=CARD, blocks=400):
    piece = bytes([SYSOUT, srcb, 0x81, 0x00])
    block, (first, last) = piece * (ROOM // len(piece)), (file_of(1, "N0", "ANNA", "N1", "PAUL", []), [])
    first, last = first[:2], first[2:]
    spell = lambda records: b"".join(bytes([SYSOUT, srcb]) + spelled(record) for srcb, record in records)
    cancel = command("BUREAU", "N0", "ANNA", "CANCEL N0.1")
    asker.begin()
    files, end = 0, asker.begun + seconds
    while time.monotonic() < end:
        asker.expect(PERMISSION, bytes([REQUEST, SYSOUT, 0]) + spell(first))
        for _ in range(blocks):
            asker.exchange(block)
        asker.expect(COMPLETE, spell(last) + bytes([SYSOUT, CARD, 0x00]))
        asker.exchange(cancel)
        files += 1
    return f"{files} files of {blocks * len(block) // 4} records in {time.monotonic() - asker.begun:.0f} s"


def headers(asker, seconds):
    return whole(asker, seconds, DATA_SET_HEADER, 20)


def beyond(times, syncs):
    """How long each answer took without what of it the hub was syncing."""
    ends, found = [end for _, end in syncs], []
    for sent, came in times:
        own = came - sent
        for begin, end in syncs[bisect.bisect(ends, sent) :]:
            if begin >= came:
                break
            own -= min(came, end) - max(sent, begin)
        found.append(own)
    return found


def cells_of(times, *more):
    """The median and the longest of these times, and of more, in milliseconds."""
    lasted = [came - sent for sent, came in times] or [0.0]
    return [f"{1000 * figure:.2f}" for figure in (statistics.median(lasted), max(lasted), *more)]


def trial(options, library, load, name):
    places, (core, others, own) = places_of([2, 2]), options.cores
    os.sched_setaffinity(0, {own})
    table = table_for(places, FILLED if name in ("smallest", "whole", "headers") else QUOTA, 1024)
    table = table.replace(f"block = {BLOCK}", f"block = {LARGE}")
    with PinnedHub(options.program, table, core, library) as hub:
        hub.wait_for(places[-1].port)
        waiting = Waiting(load, places[2:], options.seconds + MORE.get(name, 0), others)
        asker, probe = Asker(places[0].port, "N0"), Probe(hub.place.name, own)
        note = globals()[name](asker, options.seconds)
        syncs, probed = hub.syncs(asker.begun), [pair for pair in probe.stop() if pair[0] > asker.begun]
        cells = [*cells_of(probed), *cells_of(syncs)]
        for answers in waiting.stop():
            times = [pair for pair in answers if asker.begun < pair[0]]
            cells += [len(times), *cells_of(times, max(beyond(times, syncs), default=0.0))]
    row(WIDTHS, name, *cells)
    print(f"    {note}; {len(syncs)} syncs")


def main():
    options = options_of(
        __doc__,
        (("--seconds",), {"type": int, "default": 10, "help": "how long each play lasts, but for `large`"}),
        (("--cores",), {"type": int, "nargs": 3, "default": [2, 3, 1], "help": "the hub's, the others', the first's"}),
        (("plays",), {"nargs": "*", "metavar": "PLAY", "help": ", ".join(PLAYS) + "; all where none is named"}),
    )
    with tempfile.TemporaryDirectory() as folder:
        library, load = built(folder, "spool_syncs.c", "-shared", "-fPIC", "-ldl"), built(folder, "spool_load.c")
        line = ("count", "median", "longest", "beyond")
        row(WIDTHS, "", "probe:", "longest", "hub:", "longest", "sender:", *line[1:], "taker:", *line[1:])
        for name in options.plays or PLAYS:
            trial(options, library, load, name)


if __name__ == "__main__":
    main()
