"""Shows how long another customer waits while one customer's lines flood the hub.

    python3 examples/trials/floods.py PROGRAM [FLOOD ..] [--seconds 5] [--runs 5] [--lines 1 8] [--cores 2 3 1]
                                      [--spool] [--quick]

The hub is on the first of `--cores`. On the second is a pair of lines of another customer, played by spool_load.c: one
sends files of three cards, and the other takes them, each line its next block a millisecond or so after the last one
was answered. On the third the first customer's lines flood the hub by flood.c, so many of them at once, each as fast as
its bytes are taken. cc builds both. The floods, each with a new hub for each run:

- `quiet`: nobody is on the first customer's lines.
- `contacts`: contacts, without a session.
- `sign_ons`: a contact, a sign-on and a sign-off, again and again.
- `texts`: a text that never ends.
- `naks`: in a session four NAKs, and an ACK0, so that the session goes on.
- `records`: in a session blocks of the smallest records of a file, which is given up and begun anew.
- `lists`: in a session blocks of LISTs, each about many files.
- `unread`: contacts, by a peer that never reads.

The table has a row for each flood and number of lines, of the run whose 99.9 % is in the middle of all runs: how many
answers the pair had, the median, the 99.9 % and the longest in milliseconds, the longest of all runs; how many
megabytes a second the flood said, as the kernel took them, and how many connections it had; and what share of its core
the hub used, and the flood's load. If that is near 1.00 it was the load that was waited for. The 99.9 % is to be within
10 milliseconds of that of `quiet`. The last line says "right", or the script ends with status 1 and says how many rows
are wrong.

With `--spool` the hub has a spool file, in a folder of TMPDIR. With `--quick` there is one run of two seconds each. The
figures are worth something if nothing else uses these cores.
"""

import collections
import math
import pathlib
import statistics
import subprocess
import sys
import tempfile
import time

from frames import (
    ACK0,
    BLOCK,
    CARD,
    COMPLETE,
    CONTACT,
    GENERAL,
    NAK,
    PERMISSION,
    REQUEST,
    SYSOUT,
    command,
    file_of,
    framed,
    sign_on,
    spelled,
)
from hub import Hub, options_of, places_of, row
from spool_hub import built, on_core
from spool_long import Asker, Waiting
from spool_rate import LARGE
from spool_speed import table_for

FLOODS = ("quiet", "contacts", "sign_ons", "texts", "naks", "records", "lists", "unread")

WIDTHS = (9, 5, 7, 8, 8, 8, 8, 7, 11, 5, 5, 6)

# How much longer 99.9 % of the answers may take than beside nobody, in milliseconds.
MORE = 10.0

# How many files a LIST is about, of all lines together.
LISTED = 512

# How many blocks the quota of each customer has, and the most bytes of records in a frame.
QUOTA, ROOM = 16000, 4060

# How long a peer of the pair rests before its next block, in microseconds.
REST = 1000

SIGN_OFF = 0xC2

Run = collections.namedtuple("Run", "answers median most longest rate connections hub load")


def block(count, records):
    """The frame of the block with this count."""
    return framed(bytes([0x80 + count % 16]) + b"\x8f\xcf" + records + b"\x00")


def blocks_of(texts):
    """The frames of blocks of these records, as many as bring the count back to where it was."""
    assert len(texts) % 16 == 0
    return b"".join(block(at, records) for at, records in enumerate(texts))


def smallest(node):
    """A file that is begun, goes on with records of a blank, and is given up."""
    piece = bytes([SYSOUT, CARD, 0x81, 0x00])
    headers = file_of(1, node, "ANNA", "N1", "PAUL", [])[:2]
    first = b"".join(bytes([SYSOUT, srcb]) + spelled(record) for srcb, record in headers)
    return [bytes([REQUEST, SYSOUT, 0]), first, *[piece * (ROOM // 4)] * 61, bytes([SYSOUT, CARD, 0x40])]


def lists(node):
    one = command("BUREAU", node, "ANNA", "LIST")
    return [one * (ROOM // len(one))] * 16


def words_of(flood, node):
    """What a line says at first, and then again and again; the latter at least 32 KiB long."""
    begin = CONTACT + sign_on(0xC9, node, LARGE)
    found = {
        "contacts": (b"", CONTACT),
        "sign_ons": (b"", begin + block(0, bytes([GENERAL, SIGN_OFF]))),
        "texts": (b"\x10\x02", b"\xc1"),
        "naks": (begin + block(0, b""), NAK * 4 + ACK0),  # the block is answered by ACK0, which is said again
        "unread": (b"", CONTACT),
    }
    if flood == "records":
        first, again = begin, blocks_of(smallest(node))
    elif flood == "lists":
        first, again = begin, blocks_of(lists(node))
    else:
        first, again = found[flood]
    return first, again * max(1, -(-32768 // len(again)))


class Flood:
    """The load that floods these places."""

    def __init__(self, load, flood, places, seconds, core):
        words = [load, str(seconds), str(int(flood != "unread"))]
        pipes = {"stdin": subprocess.PIPE, "stdout": subprocess.PIPE}
        self.process = subprocess.Popen(words, text=True, preexec_fn=on_core(core), **pipes)
        for place in places:
            first, again = words_of(flood, place.node)
            self.process.stdin.write(f"{place.port} {first.hex() or '-'} {again.hex()}\n")
        self.process.stdin.close()
        if self.process.stdout.readline() != "begin\n":
            raise ConnectionError("the flood isn't connected")

    def stop(self):
        """Bytes that were said and read, connections, and seconds of processor."""
        said, heard, connections, used = map(int, self.process.stdout.read().split())
        self.process.wait()
        return said, heard, connections, used / 1e6


def filed(places):
    """Gives each of these lines files that wait for another node of the customer, whose line isn't up or doesn't take
    them."""
    for place in places:
        asker, to = Asker(place.port, place.node), f"N{(place.line + 1) % 8}"
        for number in range(LISTED // len(places)):
            records = file_of(number + 1, place.node, "ANNA", to, "PAUL", [b"\x40"]) + [(CARD, b"")]
            asker.expect(PERMISSION, bytes([REQUEST, SYSOUT, 0]))
            asker.expect(COMPLETE, b"".join(bytes([SYSOUT, srcb]) + spelled(record) for srcb, record in records))
        asker.socket.close()


def answers_in(answers, begin, end):
    """How long the answers of a line took that were waited for in this time, in milliseconds. The pair goes on after
    that, so that the last one comes too; where none came all the time was waited."""
    return [1000 * (came - said) for said, came in answers if came >= begin and said <= end] or [1000 * (end - begin)]


def share_of(lasted, part):
    return sorted(lasted)[math.ceil(part * len(lasted)) - 1]


def run(options, tools, flood, count):
    """One run."""
    core, others, own = options.cores
    places = places_of([8, 2])
    table = table_for(places, QUOTA, 1024).replace(f"block = {BLOCK}", f"block = {LARGE}")
    with tempfile.TemporaryDirectory(prefix="floods.") as folder:
        kept = ("--spool", str(pathlib.Path(folder, "spool.db"))) if options.spool else ()
        with Hub(options, table, *kept, preexec_fn=on_core(core)) as hub:
            hub.serves()
            if flood == "lists":
                filed(places[:count])
            waiting = Waiting(tools.pair, places[8:], options.seconds + 3, others, REST)
            flooding = None
            if flood != "quiet":
                flooding = Flood(tools.flood, flood, places[:count], options.seconds + 1, own)
            time.sleep(0.3)
            begin, used = time.monotonic(), hub.seconds_used()
            time.sleep(options.seconds)
            end, used = time.monotonic(), hub.seconds_used() - used
            said, _, connections, load = flooding.stop() if flooding else (0, 0, 0, 0.0)
            lasted = [one for answers in waiting.stop() for one in answers_in(answers, begin, end)]
            if waiting.process.returncode:
                print(f"    the pair's load has ended: {hub.log()[-2:]}")
                lasted.append(1000.0 * options.seconds)
            if not hub.runs():
                raise ConnectionError(f"the program has ended with status {hub.process.returncode}")
    took = options.seconds + 1
    figures = statistics.median(lasted), share_of(lasted, 0.999), max(lasted)
    return Run(len(lasted), *figures, said / took / 1e6, connections, used / (end - begin), load / took)


def trial(options, tools, flood, count, quiet):
    """A row, and the 99.9 % of the run in the middle."""
    runs = sorted((run(options, tools, flood, count) for _ in range(options.runs)), key=lambda one: one.most)
    middle, longest = runs[len(runs) // 2], max(one.longest for one in runs)
    right = quiet is None or middle.most <= quiet + MORE
    cells = [middle.answers, *(f"{one:.2f}" for one in (middle.median, middle.most, middle.longest, longest))]
    cells += [f"{middle.rate:.1f}", middle.connections, f"{middle.hub:.2f}", f"{middle.load:.2f}"]
    row(WIDTHS, flood, count, *cells, "" if right else "WRONG")
    return middle.most, right


class Tools:
    """Both loads, as cc builds them."""

    def __init__(self, folder):
        self.pair, self.flood = built(folder, "spool_load.c"), built(folder, "flood.c")


def main():
    options = options_of(
        __doc__,
        (("--seconds",), {"type": int, "default": 5, "help": "how long each run is measured"}),
        (("--runs",), {"type": int, "default": 5, "help": "how many runs there are of each"}),
        (("--lines",), {"type": int, "nargs": "*", "default": [1, 8], "help": "how many lines flood"}),
        (("--cores",), {"type": int, "nargs": 3, "default": [2, 3, 1], "help": "the hub's, the pair's, the flood's"}),
        (("--spool",), {"action": "store_true", "help": "give the hub a spool file"}),
        (("--quick",), {"action": "store_true", "help": "one run of two seconds each"}),
        (("floods",), {"nargs": "*", "metavar": "FLOOD", "help": ", ".join(FLOODS[1:]) + "; all where none is named"}),
    )
    if options.quick:
        options.seconds, options.runs = 2, 1
    with tempfile.TemporaryDirectory() as folder:
        tools = Tools(folder)
        heads = ("answers", "median", "99.9 %", "longest", "of all", "MB/s", "connections", "hub", "load", "")
        row(WIDTHS, "flood", "lines", *heads)
        quiet, _ = trial(options, tools, "quiet", 0, None)
        right = [
            trial(options, tools, flood, count, quiet)[1]
            for flood in options.floods or FLOODS[1:]
            if flood != "quiet"
            for count in options.lines
        ]
    print("right" if all(right) else f"{right.count(False)} rows are wrong")
    sys.exit(not all(right))


if __name__ == "__main__":
    main()
