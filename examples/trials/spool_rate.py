"""Shows how many files a second a hub with a spool file takes and gives, next to SQLite alone and to a hub without one.

    python3 examples/trials/spool_rate.py PROGRAM [--pairs 2 32 128] [--seconds 5] [--slices 3] [--cores 2 3]

The load is a small program (spool_load.c): pairs of lines, of which one sends files of 20 cards, one after the other,
and the other takes them. The hub is on the first of `--cores`, the load on the second. In turn, so many slices of so
many seconds, run a hub without a spool file, one with it, and plain_writer.c, on the hub's core and the same disk
(TMPDIR says where), with as many files a commit as the hub was just seen to have. A library that is loaded before the
hub counts its syncs and rounds (spool_syncs.c). cc builds all three, the plain writer with SQLite's own library.

The table has a row for each number of pairs, of the medians of the slices:

- without a spool file: files a second, and microseconds of processor a file;
- with it the same, and by how many microseconds more; how many files a commit had; how many syncs there were a round,
  the most that one round had, and how many milliseconds a sync took in the middle;
- of the plain writer: files a second, microseconds of processor a file, and the hub's files a second in percent of its;
- the longest answer in milliseconds, without a spool file and with it, and what share of its core the load used at the
  most. If that is near 1.00 it was the load that was waited for.

What is wanted: 80 percent with 32 pairs and with 128, 100 microseconds more at most, one sync a round at most. Then as
many pairs send files that they give up, for one slice each: no sync is wanted.
"""

import collections
import statistics
import subprocess
import sys
import tempfile

from frames import BLOCK, CARD, SYSOUT, ebcdic, file_of, sign_on, spelled
from hub import options_of, places_of, row, table_of
from spool_hub import PinnedHub, built, on_core

WIDTHS = (5, 8, 7, 9, 7, 7, 8, 7, 4, 7, 9, 7, 7, 7, 8, 5)

HEAD = ("files/s", "us/file", "kept: f/s", "us/file", "us more", "f/commit", "s/round", "most", "sync ms", "plain f/s")

CARDS = [ebcdic(f"{number:04} THE QUICK BROWN FOX JUMPS OVER THE LAZY DOG".ljust(80)) for number in range(20)]

# The streams of a sender, the size of a block, which a file fits into, and how many customers a hub may have.
STREAMS, LARGE, CUSTOMERS = (SYSOUT, 0xA9), 4096, 64

# What one slice shows: each rate is of a second, the processor's microseconds are of a file.
Shown = collections.namedtuple("Shown", "files cost commit syncs most sync longest share exchanges count")


def squeezed(record):
    """A record as it stands in a block, the blanks behind it as counts."""
    text = record.rstrip(b"\x40")
    many, few = divmod(len(record) - len(text), 31)
    return spelled(text)[:-1] + b"\x9f" * many + bytes([0x80 + few] * (few > 0)) + b"\x00"


def on_stream(stream, records):
    """The records as they stand in a frame on this stream."""
    found = b"".join(bytes([stream, srcb]) + squeezed(record) for srcb, record in records)
    return found.replace(b"\x10", b"\x10\x10")


def pair_of(sender, receiver, is_ended=True, cards=CARDS):
    """What spool_load is told of a pair. A file without an end is given up by the next request on its stream."""
    records = file_of(1, sender.node, "ANNA", receiver.node, "PAUL", cards) + [(CARD, b"")] * is_ended
    frames = [sign_on(0xC9, place.node, LARGE) for place in (sender, receiver)]
    frames += [on_stream(stream, records) for stream in STREAMS]
    return " ".join([str(sender.port), str(receiver.port), *(frame.hex() for frame in frames)]) + "\n"


def places_for(pairs):
    """The lines of so many pairs, of as many customers as there may be."""
    shares = [len(range(at, pairs, CUSTOMERS)) for at in range(min(pairs, CUSTOMERS))]
    return places_of([2 * share for share in shares])


def shown(options, tools, pairs, is_kept, is_ended=True):
    """One slice of a hub."""
    places, (core, other) = places_for(pairs), options.cores
    table = table_of(places, 1000).replace(f"block = {BLOCK}", f"block = {LARGE}")
    with PinnedHub(options.program, table, core, tools.library, is_kept) as hub:
        hub.wait_for(places[-1].port)
        words = [tools.load, str(options.seconds), str(is_ended * (len(CARDS) + 3))]
        pipes = {"stdin": subprocess.PIPE, "stdout": subprocess.PIPE}
        with subprocess.Popen(words, text=True, preexec_fn=on_core(other), **pipes) as load:
            load.stdin.write("".join(pair_of(*two, is_ended) for two in zip(places[0::2], places[1::2])))
            load.stdin.close()
            begun, before = load.stdout.readline(), hub.counts()
            figures = load.stdout.readline().split()
            rounds, syncs, used = (now - then for now, then in zip(hub.counts(), before))
        if begun != "begin\n" or not figures:
            sys.exit(f"the load has ended: {hub.log()[-2:]}")
        files, exchanges, longest, own, asked = map(int, figures)
        if asked:
            print(f"the hub asked {asked} times again")
        times = [after - at for at, after in hub.syncs()] or [0]
        cost, commit = 1e6 * used / max(files, 1), files / max(syncs, 1)
        a_second, share = files / options.seconds, own / 1e6 / options.seconds
        often = (syncs / rounds, hub.most(), 1000 * statistics.median(times))
        return Shown(a_second, cost, commit, *often, longest / 1000, share, exchanges, syncs)


def plain(options, tools, files):
    """Files a second and microseconds of processor a file of SQLite alone, so many files a commit."""
    with tempfile.TemporaryDirectory(prefix="spool_rate.") as folder:
        words = [tools.plain, f"{folder}/spool.db", str(files), str(options.seconds)]
        said = subprocess.run(words, check=True, capture_output=True, preexec_fn=on_core(options.cores[0])).stdout
    count, passed, used = map(int, said.split())
    return 1e6 * count / passed, used / count


def trial(options, tools, pairs):
    slices = []
    for _ in range(options.slices):
        without, kept = shown(options, tools, pairs, False), shown(options, tools, pairs, True)
        slices.append((*without, *kept, *plain(options, tools, max(1, round(kept.commit)))))
    middle = [statistics.median(column) for column in zip(*slices)]
    count = len(Shown._fields)
    without, kept, (rate, cost) = Shown(*middle[:count]), Shown(*middle[count : 2 * count]), middle[2 * count :]
    cells = [f"{without.files:.0f}", f"{without.cost:.0f}", f"{kept.files:.0f}", f"{kept.cost:.0f}"]
    cells += [f"{kept.cost - without.cost:.0f}", f"{kept.commit:.1f}", f"{kept.syncs:.2f}", f"{kept.most:.0f}"]
    cells += [f"{kept.sync:.2f}", f"{rate:.0f}", f"{cost:.0f}", f"{100 * kept.files / rate:.0f}"]
    cells += [f"{without.longest:.1f}", f"{kept.longest:.1f}", f"{max(without.share, kept.share):.2f}"]
    row(WIDTHS, pairs, *cells)


def given_up(options, tools, pairs):
    only = shown(options, tools, pairs, True, False)
    print(f"{pairs} pairs whose files are given up, each two blocks later: {only.exchanges} exchanges, {only.count} syncs")


class Tools:
    """The load, the plain writer, and the library that notes syncs, as cc builds them."""

    def __init__(self, folder):
        self.load, self.plain = built(folder, "spool_load.c"), built(folder, "plain_writer.c", "-lsqlite3")
        self.library = built(folder, "spool_syncs.c", "-shared", "-fPIC", "-ldl")


def main():
    options = options_of(
        __doc__,
        (("--pairs",), {"type": int, "nargs": "*", "default": [2, 32, 128], "help": "how many pairs of lines"}),
        (("--seconds",), {"type": int, "default": 5, "help": "how long each figure is measured"}),
        (("--slices",), {"type": int, "default": 3, "help": "how often each is measured"}),
        (("--cores",), {"type": int, "nargs": 2, "default": [2, 3], "help": "the hub's and the load's"}),
    )
    with tempfile.TemporaryDirectory() as folder:
        tools = Tools(folder)
        row(WIDTHS, "pairs", *HEAD, "us/file", "% plain", "longest", "kept: ms", "load")
        for pairs in options.pairs:
            trial(options, tools, pairs)
        for pairs in options.pairs:
            given_up(options, tools, pairs)


if __name__ == "__main__":
    main()
