"""Shows what an operator costs the lines: 64 customers, 256 lines under traffic, and `ctl files` in a loop.

    python3 examples/trials/console_load.py PROGRAM [--customers 64] [--lines 4] [--slices 6] [--seconds 1.5]
        [--clients 2] [--pause 0.05]

All lines but one send and take files, from so many processes; each peer waits 50 ms before its next block, so that
neither the program nor they use up a core. On the line that is left a peer makes contact a hundred times a second and
times the answers. What the operator does meanwhile takes turns, so many slices of so many seconds each: nothing, `ctl
files` of all customers or of one, `ctl lines`, or to ask on one connection, each again and again. So what the machine
does beside it falls on all of them alike.

The table has a row for each: how often the operator did it; how many answers on the timed line there were, their
median, and the longest in milliseconds, which is to stay below 10; how many exchanges a second the others made, and how
much of a core the program and the busiest process of peers used. The last columns say whether the figures are the
hub's: how much of its time the machine was stolen by its host, in percent (`st` of vmstat); by how many milliseconds a
process that does nothing but sleep for one woke too late at most; and the longest answer in the quiet slices, in which
less than half a percent was stolen and that process never woke 5 ms too late, with how many those are. This one decides
if there are any, else the row says that it can't be known, and the status is 2. The row says too if peers used more
than nine tenths of a core: then they are the limit, and not the hub.
"""

import multiprocessing
import os
import statistics
import sys
import threading
import time

from console import ConsoleHub, get
from frames import ebcdic, file_of
from hostile import asked
from hub import connected, options_of, places_of, row, table_of
from peers import Crowd, FilePeer

WIDTHS = (36, 6, 7, 6, 7, 8, 7, 5, 6, 6, 11)

CARDS = [ebcdic(f"{number:04} THE QUICK BROWN FOX JUMPS OVER THE LAZY DOG".ljust(80)) for number in range(40)]

# The longest answer that is wanted, in milliseconds.
WANTED = 10

# A slice counts as quiet if less was stolen, in percent of the machine's time, and no sleep was so much too long, in
# milliseconds.
STOLEN, LATE = 0.5, 5


class Sender(FilePeer):
    """A peer that always has another file to send, a block after each pause, and forgets those that came."""

    other, pause = None, 0.0

    def turn(self, frame):
        if not self.to_send:
            self.to_send.append(file_of(self.went % 60000 + 1, self.node, "ANNA", self.other, "PAUL", CARDS))
        super().turn(frame)
        self.files.clear()

    def say(self, frame):
        if self.is_up:
            self.loop.delay(self.pause, lambda: self.is_closed or super(Sender, self).say(frame))
        else:
            super().say(frame)


def make(own, options):
    def sender(loop, place):
        peer = Sender(loop, place.port, place.node)
        peer.other, peer.pause = f"N{(place.line + 1) % options.lines}", options.pause
        return peer

    return lambda loop: [sender(loop, place) for place in own]


class Noted:
    """Does something again and again in a process of its own, and notes when, and how long each took, in seconds."""

    def __init__(self, what, *given):
        self.pipe, there = multiprocessing.Pipe()
        fork = multiprocessing.get_context("fork")
        self.process = fork.Process(target=self.play, args=(what, given, there), daemon=True)
        self.process.start()

    @staticmethod
    def play(what, given, pipe):
        found, end = [], time.monotonic() + 600
        try:
            for lasted in what(*given):
                found.append((time.monotonic(), lasted))
                if pipe.poll() or found[-1][0] > end:
                    break
            pipe.send((found, ""))
        except (OSError, AssertionError) as error:
            pipe.send((found, f"{type(error).__name__} {error}"))

    def stop(self):
        """What it noted, and what went wrong."""
        self.pipe.send("stop")
        found = self.pipe.recv() if self.pipe.poll(30) else ([], "nothing was noted")
        self.process.kill()
        self.process.join()
        return found


def contacts(port):
    """A hundred times a second, how long the answer to a contact takes."""
    with connected(port) as peer:
        while True:
            yield asked(peer)[0]
            time.sleep(0.01)


def sleeps():
    """By how much a sleep of a millisecond is too long."""
    while True:
        begin = time.monotonic()
        time.sleep(0.001)
        yield time.monotonic() - begin - 0.001


class Operator:
    """Does something again and again, on a thread of its own."""

    def __init__(self, what):
        self.what, self.count, self.wrong, self.goes = what, 0, None, True
        self.thread = threading.Thread(target=self.play, daemon=True)

    def play(self):
        try:
            while self.goes:
                self.what()
                self.count += 1
        except (AssertionError, OSError, ValueError) as error:
            self.wrong = error

    def __enter__(self):
        self.thread.start()
        return self

    def __exit__(self, *_):
        self.goes = False
        self.thread.join(30)


def asks(hub, path):
    """Asks for a resource again and again, on one connection that is made anew where it was ended."""
    visitors = []

    def ask():
        if not visitors:
            visitors.append(hub.visit())
        try:
            status, _ = get(visitors[0], path)
        except ConnectionError:  # it said nothing between two slices
            visitors.pop().close()
        else:
            assert status == 200, status

    return ask


def stolen():
    """How much time the machine had so far, all processors together, and how much of it its host took, in ticks."""
    with open("/proc/stat") as stat:
        times = [int(word) for word in stat.readline().split()[1:9]]
    return sum(times), times[7]


class Moment:
    """The time, and what was counted by it."""

    def __init__(self, hub, crowds):
        looks = [crowd.look() for crowd in crowds]
        self.at, self.stolen, self.used = time.monotonic(), stolen(), hub.seconds_used()
        self.answers, self.peers = sum(peer[1] for one in looks for peer in one[0]), [one[2] for one in looks]


class Slice:
    """What was between two moments."""

    def __init__(self, begin, end, count):
        self.begin, self.end, self.count, self.seconds = begin.at, end.at, count, end.at - begin.at
        self.used, self.answers = end.used - begin.used, end.answers - begin.answers
        self.peers = [after - before for before, after in zip(begin.peers, end.peers)]
        (all_before, before), (all_after, after) = begin.stolen, end.stolen
        self.ticks, self.taken = all_after - all_before, after - before

    def of(self, noted):
        """What was noted in it, in milliseconds."""
        return [1000 * lasted for at, lasted in noted if self.begin <= at <= self.end]

    def is_quiet(self, late):
        return 100 * self.taken < STOLEN * self.ticks and max(self.of(late), default=0) < LATE


def sliced(hub, crowds, plays, options):
    """The slices of each play, which take turns, and what went wrong."""
    found, wrong = [[] for _ in plays], set()
    for _ in range(options.slices):
        for (what, play), slices in zip(plays, found):
            begin = Moment(hub, crowds)
            with Operator(play) as operator:
                time.sleep(options.seconds)
            slices.append(Slice(begin, Moment(hub, crowds), operator.count))
            if operator.wrong or not operator.count:
                wrong.add(f"{what}: {operator.wrong or 'never done'}")
    return found, wrong


def show(what, slices, times, late):
    """A row. Says whether the longest answer is as wanted, None where that can't be known."""
    own = [lasted for one in slices for lasted in one.of(times)] or [float("inf")]
    quiet = [one for one in slices if one.is_quiet(late)]
    longest = max((max(one.of(times), default=float("inf")) for one in quiet), default=None)
    seconds = sum(one.seconds for one in slices)
    busiest = max(map(sum, zip(*(one.peers for one in slices)))) / seconds
    cells = (
        sum(one.count for one in slices),
        len(own),
        f"{statistics.median(own):.2f}",
        f"{max(own):.1f}",
        f"{sum(one.answers for one in slices) / seconds:.0f}",
        f"{sum(one.used for one in slices) / seconds:.2f}",
        f"{busiest:.2f}",
        f"{100 * sum(one.taken for one in slices) / sum(one.ticks for one in slices):.1f}",
        f"{max(lasted for one in slices for lasted in one.of(late) or [0.0]):.1f}",
        "-" if longest is None else f"{longest:.1f} in {len(quiet)}",
    )
    row(WIDTHS, what, *cells)
    if busiest > 0.9:
        print("    the peers are the limit: give more --clients or a longer --pause")
    if longest is None:
        print("    no slice was quiet: what of this is the hub's can't be known")
        return None
    return longest <= WANTED


def main():
    options = options_of(
        __doc__,
        (("--customers",), {"type": int, "default": 64}),
        (("--lines",), {"type": int, "default": 4, "help": "lines of a customer"}),
        (("--slices",), {"type": int, "default": 6, "help": "how many of each row"}),
        (("--seconds",), {"type": float, "default": 1.5, "help": "of a slice"}),
        (("--clients",), {"type": int, "default": 2, "help": "processes of peers"}),
        (("--pause",), {"type": float, "default": 0.05, "help": "seconds before a peer's next block"}),
    )
    places = places_of([options.lines] * options.customers)
    busy, timed = places[:-1], places[-1]
    with ConsoleHub(options, table_of(places, 2000)) as hub:
        hub.listens()
        crowds = [Crowd(make(busy[at :: options.clients], options)) for at in range(options.clients)]
        print(f"{sum(crowd.up for crowd in crowds)} of {len(busy)} sessions are up, {os.cpu_count()} processors")
        answers, late = Noted(contacts, timed.port), Noted(sleeps)
        time.sleep(1)
        plays = (
            ("does nothing", lambda: time.sleep(0.1)),
            ("ctl files, of all customers", lambda: hub.prints("files")),
            ("ctl files C0", lambda: hub.prints("files", "C0")),
            ("ctl lines", lambda: hub.prints("lines")),
            ("GET /v1/customers/C0/files, no pause", asks(hub, "/v1/customers/C0/files")),
        )
        found, wrong = sliced(hub, crowds, plays, options)
        (times, said), (late, _) = answers.stop(), late.stop()
        for crowd in crowds:
            crowd.__exit__()
    head = ("times", "answers", "median", "longest", "others/s", "program", "peers", "stolen", "late", "quiet")
    row(WIDTHS, "the operator", *head)
    wanted = [show(what, slices, times, late) for (what, _), slices in zip(plays, found)]
    for text in sorted(wrong) + [said] * bool(said):
        print(f"    WRONG: {text}")
    sys.exit(1 if wrong or said or False in wanted else 2 if None in wanted else 0)


if __name__ == "__main__":
    main()
