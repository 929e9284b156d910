"""Shows that there is room for whoever waits at the console, and what its visitors cost the lines.

    python3 examples/trials/visitors.py PROGRAM [PLAY ..] [--seconds 5] [--runs 5] [--lines 256] [--rest 20]
                                        [--cores 2 3 1 0] [--connects 10000] [--patience 60] [--quick]

Visitors who are let go come again at once; callers.py has what each kind does. The plays, each with hubs of its own:

- `four`: four visitors of each kind, and `ctl status` eight times beside them, over some six seconds.
- `let_in`: while the hub does nothing 250 silent visitors come, and one who asks behind them; and 200 who all ask.
- `longest_first`: four silent visitors come one after the other, and then one who asks.
- `kept`: how long one is kept who says nothing, half a request, a byte at a time, or nothing more behind an answer.
- `ten_thousand`: so many connects at once, each of which stays until it is let go: how long that takes, and after how
  long `ctl status` is answered, which is asked again and again meanwhile.
- `busy_lines`: a hub with so many lines in pairs, one of which sends files of three cards and the other takes them,
  played by spool_load.c on a core of its own, a sender its next block `--rest` milliseconds after its last answer. In
  turn, so often each, nobody is at the console; and there are `--connects` connects at once, connects without a pause,
  visitors with half requests, such that drip, that pipeline and that never read, four of each, all on a third core, and
  `ctl status` in a loop on a fourth.

`busy_lines` has a table, a row for each run: how many answers the lines had, the median, the 99.9 % and the longest in
milliseconds, what share of its core the hub used, how often `ctl` was answered and how often it wasn't, and its longest
answer in seconds. Of the runs whose 99.9 % is in the middle that beside visitors may be 10 milliseconds longer. The
figures are worth something if nothing else uses these cores; `--cores` has the hub's, the lines', the visitors' and
that of `ctl`.

Each row of the other plays is a sentence, and whether it is so. The last line says "right", or how many rows are wrong,
with status 1. `busy_lines` needs cc. With `--quick` it has one run of two seconds each.
"""

import contextlib
import math
import multiprocessing
import os
import socket
import statistics
import subprocess
import tempfile
import time

from callers import STATUS, Callers, Storm
from console import ConsoleHub
from frames import BLOCK
from hub import places_of, row
from sentences import Bureau, answer_on, show
from spool_hub import built, on_core
from spool_long import CARDS
from spool_rate import LARGE, pair_of
from spool_speed import table_for

# How long `ctl` may wait beside four visitors, and how long one may have a seat without a whole request, in seconds.
WAITED, KEPT = 1.0, 2.0

# What a start of `ctl` and the hub's rounds may take besides, in seconds.
BESIDES = 0.5

# How much longer 99.9 % of the answers may take than beside nobody, in milliseconds.
MORE = 10.0

WIDTHS = (10, 8, 7, 7, 8, 5, 5, 6, 8, 8)

HEAD = ("answers", "median", "99.9 %", "longest", "hub", "lines", "ctl", "refused", "longest")


def four(options):
    for kind in ("silent", "half", "drip", "pipeline", "unread"):
        with Bureau(options) as hub:
            with Callers(hub.console, kind, 4):
                found = []
                for _ in range(8):
                    found.append(hub.timed("status"))
                    if found[-1][2] > 4:
                        break
                    time.sleep(0.7)
            longest = max(took for _, _, took in found)
            statuses = [status for status, _, _ in found]
            right = set(statuses) == {0} and longest <= WAITED
            yield (
                f"beside four visitors ({kind}) ctl waits a second at most",
                right,
                f"{longest:.2f} s, statuses {statuses}",
            )


def let_in(options):
    with Bureau(options) as hub:
        with contextlib.ExitStack() as stack:
            with hub.frozen():
                silent = [stack.enter_context(hub.visit()) for _ in range(250)]
                asker = stack.enter_context(hub.visit(10))
                asker.sendall(STATUS)
                begin = time.monotonic()
            answered = answers_within(asker, 8)
            found = f"{time.monotonic() - begin:.2f} s" if answered else "not within 8 s"
            right = answered and time.monotonic() - begin <= WAITED
            yield f"who asks behind {len(silent)} silent visitors is answered within a second", right, found
        with contextlib.ExitStack() as stack:
            with hub.frozen():
                askers = [stack.enter_context(hub.visit(10)) for _ in range(200)]
                for asker in askers:
                    asker.sendall(STATUS)
                begin = time.monotonic()
            answered = sum(answers_within(asker, max(0.01, begin + 4 - time.monotonic())) for asker in askers)
            found = f"{answered} of them, {time.monotonic() - begin:.2f} s"
            right = answered == len(askers) and time.monotonic() - begin <= 2 * WAITED
            yield f"{len(askers)} who ask at once are all answered within two seconds", right, found


def answers_within(visitor, seconds):
    visitor.settimeout(seconds)
    with contextlib.suppress(OSError):
        return answer_on(visitor).status == 200
    return False


def longest_first(options):
    with Bureau(options) as hub, contextlib.ExitStack() as stack:
        silent = []
        for _ in range(4):
            silent.append(stack.enter_context(hub.visit()))
            time.sleep(0.25)
        asker = stack.enter_context(hub.visit())
        asker.sendall(STATUS)
        yield "who asks beside four silent visitors is answered at once", answers_within(asker, 0.5), ""
        gone = [is_closed(visitor) for visitor in silent]
        right = gone == [True, False, False, False]
        yield "the one who was there longest gave up his seat, and nobody else", right, gone


def is_closed(visitor):
    visitor.settimeout(0.05)
    try:
        return visitor.recv(1) == b""
    except socket.timeout:
        return False
    except OSError:
        return True


def kept(options):
    with Bureau(options) as hub:
        for what, say in (("says nothing", b""), ("says half a request", STATUS[:30]), ("was answered", STATUS)):
            with hub.visit() as visitor:
                visitor.sendall(say)
                if say == STATUS:
                    answer_on(visitor)
                begin = time.monotonic()
                lasted = closed_after(visitor, begin, lambda: None)
            yield f"one who {what} is let go after two seconds", lasted <= KEPT + BESIDES, f"{lasted:.2f} s"
        with hub.visit() as visitor:
            begin = time.monotonic()
            visitor.sendall(b"GET /v1/status HTTP/1.1\r\nX: ")
            lasted = closed_after(visitor, begin, lambda: visitor.sendall(b"x"))
            yield (
                "one who drips a byte at a time is let go after two seconds",
                lasted <= KEPT + BESIDES,
                f"{lasted:.2f} s",
            )
        with hub.visit() as visitor:
            for byte in STATUS:
                visitor.sendall(bytes([byte]))
                time.sleep(1.2 / len(STATUS))
            answer = answer_on(visitor)
            yield "one who says a whole request within a second or so is answered", answer.status == 200, ""


def closed_after(visitor, begin, meanwhile):
    """After how many seconds the console ends a connection, eight at most."""
    visitor.settimeout(0.2)
    while time.monotonic() < begin + 8:
        try:
            meanwhile()
            if not visitor.recv(4096):
                break
        except socket.timeout:
            continue
        except OSError:
            break
    return time.monotonic() - begin


def ten_thousand(options):
    with Bureau(options) as hub:
        begin, first, longest, failed, asked = time.monotonic(), None, 0.0, 0, 0
        with Storm(hub.console, options.connects, options.patience) as storm:
            time.sleep(0.05)
            while not storm.is_over() or first is None:
                status, _, took = hub.timed("status")
                asked, failed = asked + 1, failed + (status != 0)
                longest = max(longest, took)
                if status == 0 and first is None:
                    first = time.monotonic() - begin
                if time.monotonic() > begin + options.patience + 5:
                    break
            connected, gone, last_in, last_out = storm.told()
        found = f"{connected} connects in {last_in:.1f} s, {gone} were let go, the last after {last_out:.1f} s"
        yield f"{options.connects} connects at once are all let go", gone == options.connects, found
        right = first is not None and gone == options.connects and first <= last_out + WAITED
        found = "never" if first is None else f"after {first:.2f} s"
        yield (
            "ctl is answered before the last of them is let go, or a second later",
            right,
            f"{found}; asked {asked} times, {failed} without an answer, {longest:.2f} s at most",
        )
        yield "behind them it is answered as ever", hub.timed("status")[2] <= WAITED, ""


class Asking:
    """`ctl status` again and again, on a core, and what came of it."""

    def __init__(self, hub, core):
        self.pipe, there = multiprocessing.Pipe()
        words = (hub, core, there)
        self.process = multiprocessing.get_context("fork").Process(target=self.play, args=words, daemon=True)
        self.process.start()

    @staticmethod
    def play(hub, core, pipe):
        os.sched_setaffinity(0, {core})
        found = []
        while not pipe.poll():
            begin = time.monotonic()
            try:
                status = hub.ctl("status")[0]
            except subprocess.TimeoutExpired:
                status = None
            found.append((status, time.monotonic() - begin))
        pipe.send(found)

    def stop(self):
        self.pipe.send("stop")
        found = self.pipe.recv() if self.pipe.poll(40) else []
        self.process.kill()
        self.process.join()
        return found


class PlacedHub(ConsoleHub):
    """A hub on a core."""

    def __init__(self, options, table, core):
        super().__init__(options, table, preexec_fn=on_core(core))


def lines_of(options):
    """The places of the lines, in pairs of a customer, and their table."""
    pairs = options.lines // 2
    customers = min(64, pairs)
    places = places_of([2 * len(range(at, pairs, customers)) for at in range(customers)])
    return places, table_for(places, 1000).replace(f"block = {BLOCK}", f"block = {LARGE}")


def busy_run(options, tool, has_visitors):
    """A run: the answers' milliseconds, the hub's share of its core, and what `ctl` took."""
    hub_core, lines_core, core, ctl_core = options.cores
    places, table = lines_of(options)
    with PlacedHub(options, table, hub_core) as hub:
        hub.serves()
        lasts = options.seconds + 5
        words = [tool, str(lasts), str(len(CARDS) + 3), str(1000 * options.rest)]
        pipes = {"stdin": subprocess.PIPE, "stdout": subprocess.PIPE}
        load = subprocess.Popen(words, text=True, preexec_fn=on_core(lines_core), **pipes)
        load.stdin.write("".join(pair_of(*two, cards=CARDS) for two in zip(places[0::2], places[1::2])))
        load.stdin.close()
        assert load.stdout.readline() == "begin\n", f"the lines aren't up: {hub.log()[-2:]}"
        with contextlib.ExitStack() as stack:
            asking = None
            if has_visitors:
                for kind in ("half", "drip", "pipeline", "unread", "connect"):
                    stack.enter_context(Callers(hub.console, kind, 4, core))
                asking = Asking(hub, ctl_core)
            time.sleep(0.5)
            if has_visitors:
                stack.enter_context(Storm(hub.console, options.connects, options.patience, core))
            begin, used = time.monotonic(), hub.seconds_used()
            time.sleep(options.seconds)
            end, used = time.monotonic(), hub.seconds_used() - used
            asked = asking.stop() if asking else []
        said = load.stdout.read().splitlines()
        assert load.wait() == 0 and said, f"the lines' load has ended: {hub.log()[-2:]}"
    times = [tuple(int(one) / 1e9 for one in line.split()[1:]) for line in said[1:]]
    lasted = [1000 * (came - at) for at, came in times if came >= begin and at <= end]
    return lasted, used / (end - begin), int(said[0].split()[3]) / 1e6 / lasts, asked


def busy_row(what, lasted, share, load, asked):
    """Prints a row, and says the 99.9 %."""
    lasted = sorted(lasted) or [math.inf]
    most = lasted[math.ceil(0.999 * len(lasted)) - 1]
    figures = (statistics.median(lasted), most, lasted[-1], share, load)
    cells = [len(lasted), *(f"{one:.2f}" for one in figures)]
    failed = sum(status != 0 for status, _ in asked)
    cells += [len(asked) - failed, failed, f"{max(took for _, took in asked):.2f}"] if asked else ["", "", ""]
    row(WIDTHS, what, *cells)
    return most


def busy_lines(options):
    if options.quick:
        options.seconds, options.runs = 2, 1
    with tempfile.TemporaryDirectory() as folder:
        tool, most, asked = built(folder, "spool_load.c"), {False: [], True: []}, []
        row(WIDTHS, "beside", *HEAD)
        for _ in range(options.runs):
            for has_visitors in (False, True):
                found = busy_run(options, tool, has_visitors)
                most[has_visitors].append(busy_row("visitors" if has_visitors else "nobody", *found))
                asked += found[3]
    nobody, visitors = (sorted(most[which])[options.runs // 2] for which in (False, True))
    found = f"{visitors:.2f} ms, {nobody:.2f} ms beside nobody"
    what = f"beside visitors 99.9 % of the answers on {options.lines} lines come within 10 ms of those beside nobody"
    yield what, visitors <= nobody + MORE, found
    answered = [took for status, took in asked if status == 0]
    found = f"{len(answered)} of {len(asked)} answered, {max(answered, default=0):.2f} s at most"
    yield "ctl is answered beside them", answered, found


PLAYS = (four, let_in, longest_first, kept, ten_thousand, busy_lines)

MORE_OPTIONS = (
    (("--seconds",), {"type": int, "default": 5, "help": "how long each run of busy_lines is measured"}),
    (("--runs",), {"type": int, "default": 5, "help": "how many runs it has of each"}),
    (("--lines",), {"type": int, "default": 256, "help": "how many lines are busy in it"}),
    (("--rest",), {"type": int, "default": 20, "help": "milliseconds before a line's next block"}),
    (("--cores",), {"type": int, "nargs": 4, "default": [2, 3, 1, 0], "help": "the hub's, the lines', and so on"}),
    (("--connects",), {"type": int, "default": 10000, "help": "how many connect at once in ten_thousand"}),
    (("--patience",), {"type": int, "default": 60, "help": "for how many seconds they wait to be let go"}),
    (("--quick",), {"action": "store_true", "help": "one run of two seconds"}),
)


if __name__ == "__main__":
    show(__doc__, PLAYS, *MORE_OPTIONS)
