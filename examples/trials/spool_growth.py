"""Shows whether the file of `serve --spool` stays bounded by the quotas, whatever files are begun and given up.

    python3 examples/trials/spool_growth.py PROGRAM [--seconds 600] [--customers 4] [--lines 2] [--quota 4096]
        [--blocks N] [--cards 25] [--clients 2] [--seed N]

So many customers send files on so many lines each, as fast as they are answered, in frames of 4,096 bytes at most: as
many as the hub reads at once, so that each is one step. Of 100 files `--cards` are of cards, and the others of the
smallest records, a blank each, which takes four bytes of the frame and of the quota, so that a frame brings 1,020. A
file of cards fills one to three frames. Half of the other files fill two, the rest up to the line's share of the quota
(which has blocks of 256 bytes), or `--blocks` frames. Then the file is

- given up, by a request on its stream, by an abort, or by an end without a trailer; or
- made whole and cancelled by its owner, while nobody is there to take it; or
- if it is of cards and the customer has another line, made whole and taken there.

With `--cards 0` all are of the smallest records, with 100 none. No customer's files ever take more than its quota, so
nothing is to be refused, and each answer is known beforehand: any other is wrong, and so is a file that is taken with
other records. One more customer has a single line, which gives LIST some twenty times a second and says nothing else;
with `--customers 0` it is alone.

The table has a row for each ten seconds: megabytes (of 1,000,000 bytes) of the spool file, of its log, and of the hub's
memory (VmRSS); how many files were given up, cancelled and taken so far; the median and the longest answer to LIST, in
milliseconds; and the seconds of processor that the hub and the peers used for each second. While the peers use little
of theirs, it is the hub and its disk that are waited for. Then the hub is killed, and it is told

- how many records the spool file has, in how many rows, how many of them belong to no whole file, for how many of the
  smallest records the quotas have room, and how many of the file's pages are free;
- how many seconds a start on the same file takes until a contact is answered, the most memory that the program had by
  then (VmHWM), how large the file and its log are, and its records after it;
- how many times the blocks of the quotas the file is as large, and by how much it grew a second in the second half.

The last line says "right"; or the script ends with status 1, says what is wrong (also a line that isn't answered for 20
seconds, or a start for 600), and keeps the folder with the spool file.
"""

import contextlib
import pathlib
import random
import shutil
import sqlite3
import statistics
import sys
import tempfile
import time

from frames import ACK0, CONTACT
from growth_peers import CARD_BLOCKS, COST, NOBODY, Lister, Maker, share_of
from hub import connected, customer_of, line_of, options_of, places_of, row, seconds_used
from peers import Crowd
from spool_model import Wrong
from spool_served import Served

WIDTHS = (7, 8, 7, 8, 9, 9, 7, 10, 10, 8, 10)

# How many seconds lie between two rows, and how long an answer and a start may take.
WINDOW, HANGS, PATIENCE = 10, 20, 600

# The quota of the quiet customer, and how many of the smallest records a block of a quota holds.
QUIET, A_BLOCK = 16, 63


def table_for(options, places):
    """The table file: each customer has a line to each of its nodes, and one to nobody, which isn't served."""
    *busy, quiet = places
    text = f"capacity = {options.quota * options.customers + QUIET}\n"
    for customer in range(options.customers):
        own, nobody = [place for place in busy if place.customer == customer], f"c{customer}z"
        lines = [line_of(place.name, place.node, port=place.port) for place in own] + [line_of(nobody, NOBODY)]
        routes = [(place.node, place.name) for place in own] + [(NOBODY, nobody)]
        text += customer_of(f"C{customer}", "BUREAU", options.quota, lines, routes)
    line = line_of(quiet.name, quiet.node, port=quiet.port)
    return text + customer_of("QUIET", "BUREAU", QUIET, [line], [(quiet.node, quiet.name)])


def of_maker(peer):
    return peer.is_up, peer.wrong, peer.waited(), peer.naks, peer.given_up, peer.cancelled, peer.came


def of_lister(peer):
    times, peer.times = peer.times, []
    return peer.is_up, peer.wrong, peer.waited(), peer.naks, times


def crowds_of(options, places):
    """The peers, each customer's in one process, and last the quiet one in its own."""

    def make(own):
        def made(loop):
            on_way = {customer: {} for customer in own}
            there = [place for place in places if place.customer in on_way]
            return [Maker(loop, place, options, on_way[place.customer]) for place in there]

        return made

    count, seconds = min(options.clients, options.customers), options.seconds + 600
    crowds = [Crowd(make(range(at, options.customers, count)), of_maker, seconds) for at in range(count)]
    return [*crowds, Crowd(lambda loop: [Lister(loop, places[-1])], of_lister, seconds)]


def looked(served, crowds):
    """How many files were given up, cancelled and taken, the quiet line's times, the longest of them, the seconds of
    processor of the peers, and how often a line was asked again."""
    if served.process.poll() is not None:
        raise Wrong(f"the program has ended with status {served.process.returncode}: {served.log()[-2:]}")
    looks = [crowd.look() for crowd in crowds]
    peers = [peer for look in looks for peer in look[0]]
    for is_up, wrong, waited, *_ in peers:
        if wrong or not is_up:
            raise Wrong(wrong or "a session is over")
        if waited > HANGS:
            raise Wrong(f"a line isn't answered for {waited:.0f} seconds")
    *makers, lister = peers
    sums = [sum(peer[at] for peer in makers) for at in (4, 5, 6)]
    return sums, lister[4], lister[2], sum(look[2] for look in looks), sum(peer[3] for peer in peers)


def size_of(path):
    return path.stat().st_size if path.exists() else 0


def sizes_of(served):
    """Bytes of the spool file and of its log."""
    return size_of(served.spool), size_of(pathlib.Path(f"{served.spool}-wal"))


def memory_of(process, what):
    """Bytes of the program's memory, of /proc."""
    for line in pathlib.Path(f"/proc/{process.pid}/status").read_text().splitlines():
        if line.startswith(f"{what}:"):
            return 1024 * int(line.split()[1])
    return 0


def million(*counts):
    return [f"{count / 1e6:.1f}" for count in counts]


def watch(options, served, crowds):
    """Prints the rows, and says how large the spool file was at each."""
    head = ("file MB", "log MB", "RSS MB", "given up", "cancelled", "taken", "median ms", "longest ms", "hub s/s")
    row(WIDTHS, "second", *head, "peers s/s")
    _, _, _, peers_used, _ = looked(served, crowds)
    begin, used, sizes = time.monotonic(), seconds_used(served.process.pid), [size_of(served.spool)]
    last = begin
    while WINDOW * (len(sizes) - 1) < options.seconds:
        time.sleep(max(0, begin + WINDOW * len(sizes) - time.monotonic()))
        counts, times, longest, peers_now, naks = looked(served, crowds)
        now, used_now, size = time.monotonic(), seconds_used(served.process.pid), sizes_of(served)
        median = statistics.median(times or [longest])
        cells = [*million(*size, memory_of(served.process, "VmRSS")), *counts]
        cells += [f"{1000 * median:.1f}", f"{1000 * longest:.1f}", f"{(used_now - used) / (now - last):.2f}"]
        row(WIDTHS, f"{now - begin:.0f}", *cells, f"{(peers_now - peers_used) / (now - last):.2f}")
        sizes.append(size[0])
        last, used, peers_used = now, used_now, peers_now
    if naks:
        print(f"the hub asked again {naks} times")
    return sizes


def records_in(srcb, data):
    """How many records a row holds: one, or several if its SRCB is 256, each as SRCB, length and bytes."""
    count, at = srcb < 256, 0
    while srcb == 256 and at < len(data):
        count, at = count + 1, at + 3 + int.from_bytes(data[at + 1 : at + 3], "big")
    return count


def rows_told(served, quotas):
    """What SQLite says of a copy of the spool file."""
    room = A_BLOCK * quotas
    with contextlib.closing(sqlite3.connect(served.copy(served.folder / "copy"))) as copy:
        rows = copy.execute("select file in (select key from files), srcb, bytes from records")
        counts = [(is_whole, records_in(srcb, data)) for is_whole, srcb, data in rows]
        pages, free = (copy.execute(f"pragma {what}").fetchone()[0] for what in ("page_count", "freelist_count"))
    found, dead = sum(count for _, count in counts), sum(count for is_whole, count in counts if not is_whole)
    print(f"    {found} records in {len(counts)} rows, {dead} of no whole file; {free} of {pages} pages are free;")
    print(f"    the quotas have room for {room} of the smallest records, so these are {found / room:.2f} times as many")


def contacted(served, port):
    """The seconds from a start until a contact is answered."""
    begin = time.monotonic()
    served.start()
    while served.process.poll() is None and time.monotonic() < begin + PATIENCE:
        try:
            with connected(port, timeout=PATIENCE, patience=1) as line:
                line.sendall(CONTACT)
                if line.recv(2) == ACK0:
                    return time.monotonic() - begin
        except OSError:
            pass
    raise Wrong(f"a start isn't answered; status {served.process.poll()}: {served.log()[-2:]}")


def trial(options, served, places):
    quotas = options.quota * options.customers + QUIET
    served.start()
    with contextlib.ExitStack() as stack:
        crowds = [stack.enter_context(crowd) for crowd in crowds_of(options, places)]
        sizes = watch(options, served, crowds)
        served.kill()
    print("after SIGKILL:")
    rows_told(served, quotas)
    lasted = contacted(served, places[-1].port)
    memory, (file, log) = memory_of(served.process, "VmHWM"), sizes_of(served)
    served.kill()
    print(f"a start: contact is answered after {lasted:.2f} s, with {memory / 1e6:.0f} MB of memory at the most;")
    print(f"    the file has {file / 1e6:.1f} MB and its log {log / 1e6:.1f} MB")
    rows_told(served, quotas)
    half = len(sizes) // 2
    grew = (sizes[-1] - sizes[half]) / (WINDOW * (len(sizes) - 1 - half))
    print(f"the file was {sizes[-1] / (256 * quotas):.2f} times the quotas' {quotas} blocks of 256 bytes, and grew by")
    print(f"    {grew / 1000:.0f} KB a second in the second half")


def main():
    options = options_of(
        __doc__,
        (("--seconds",), {"type": int, "default": 600, "help": "how long files are sent"}),
        (("--customers",), {"type": int, "default": 4, "help": "how many customers send files"}),
        (("--lines",), {"type": int, "default": 2, "help": "lines of a customer"}),
        (("--quota",), {"type": int, "default": 4096, "help": "blocks of a customer"}),
        (("--cards",), {"type": int, "default": 25, "help": "how many of 100 files are of cards"}),
        (("--blocks",), {"type": int, "help": "the most frames that a file of the smallest records fills"}),
        (("--clients",), {"type": int, "default": 2, "help": "processes of peers"}),
        (("--seed",), {"type": int, "default": None, "help": "of what is drawn; the times of the machine stay"}),
    )
    if share_of(options) < 2:
        sys.exit(f"a line's share of the quota has to be {COST * (CARD_BLOCKS + 2)} blocks at least")
    options.seed = random.randrange(10**6) if options.seed is None else options.seed
    print(f"seed {options.seed}")
    places = places_of([options.lines] * options.customers + [1])
    served = Served(options.program, tempfile.mkdtemp(prefix="spool_growth."), table_for(options, places))
    try:
        trial(options, served, places)
    except Wrong as wrong:
        print(f"WRONG: {wrong}\nthe spool file and the log are in {served.folder}")
        sys.exit(1)
    finally:
        served.kill()
    shutil.rmtree(served.folder)
    print("right")


if __name__ == "__main__":
    main()
