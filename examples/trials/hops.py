"""Shows what a hop costs: how long what came on one line takes until it goes out on another that is at rest.

    python3 examples/trials/hops.py PROGRAM [--spool] [--core N] [--messages 1000] [--apart 50 400] [--files 50]
        [--rest 60] [--samples 8] [--seconds 10] [PLAY ..]

A line is at rest after an ACK0 that its peer answered by ACK0: nothing is to be sent, and the turn is the hub's. With
`--spool` each hub has a spool file in a temporary folder (TMPDIR says where). With `--core` the hub that is measured
(HUBA where there are several) runs on that core alone, and all else, the peers too, on the others. The peers answer
each frame at once. All times are of one clock. The plays:

- `messages`: a customer with two lines. On one come so many messages for the other, each as many milliseconds after the
  one before went out as `--apart` says, at random. A row for the lines alone, beside 254 silent lines of other
  customers (signed on, answering ticks; a hub has 256 lines), beside 7 busy ones (a block without records as soon as
  the one before is answered), and beside 7 busy and 247 silent ones: the milliseconds from just before the message is
  handed to the one connection until its bytes are there on the other; and the exchanges a second of the busy lines. The
  client sends and receives on sockets that wait, and another process answers the hub on the sender's line.
- `rests`: the same for as many customers as `--samples` says, whose lines had nothing but ticks for `--rest` seconds:
  then each has one message.
- `files`: HUBA, HUBB and HUBC in a row, LYON on HUBA, METZ on HUBC. Files of six records go from LYON to METZ: so many
  one after the other, each 100 to 800 ms after METZ had the one before, and then one of each of so many customers after
  a rest as in `rests`. A row for each hop, by which end has the turn as it begins, and for all three. A hop begins as a
  hub says that it has the file whole (C0) and ends as the next one does, or as METZ has the last record; "silent" is
  how many seconds ago at most the hop's line had a text then. That is seen by a process that relays the lines' bytes
  and notes when. The end that was sent an ACK0 and has sent nothing since has the turn; there is "neither" while an
  answer is on its way.
- `rings`: three hubs, each of which has the route of NOWHERE by its line to the next. What goes to NOWHERE goes round
  for ever: one message, sixty, or a file. A row before and after: how often a second all of it goes from HUBA to HUBB
  (the relay of that line counts); exchanges a second and the median and longest answer in milliseconds of another
  customer's line of HUBA that sends blocks without records; and the seconds of processor that HUBA used for each
  second.
- `looks`: what a customer of many lines costs the others. MANY has a line that sends blocks without records as fast as
  they are answered, then 250 lines besides that rest, then files too that wait for a line which nobody signs on: each
  of its blocks may have given one of the lines something to send. A row for each: its blocks a second, exchanges a
  second and the median and longest answer of another customer's line.
- `acks`: frames on a line, both ways, in each of the seven seconds after something came for it: between two hubs after
  a message (the mean of five); on a line whose peer suspends messages, all, or the stream whose file it permitted,
  while a message, a message and a file, or that file waits for it. Last: whether all of that came once the peer goes
  on.

What is wanted: `messages` and `rests` a median under 1 ms and at most 20 ms, with a spool file one commit more, taken
as 20 ms; `files` under 100 ms for all three hops where the lines had a text in the last second, and under 5 ms for each
hop whose sending end has the turn; `rings` nine tenths of the exchanges that there are before; `looks` six tenths of those beside the one line; `acks` at most 120
frames in each of the first two seconds, 20 in the third, and 4 from then on, and that all came. The last column says
"yes" where it is so. If other programs run on the machine, all figures are rough.
"""

import os
import random
import statistics
import time
import typing

from frames import CARD, COMPLETE, MESSAGE, SYSOUT, Text, ebcdic, file_of, message, records_of
from hop_ends import PATIENCE, End, Pairs
from hop_hubs import Ring, Row, Served
from hub import customer_of, line_of, options_of, places_of, row, table_of
from peers import Busy, Crowd, FilePeer, Loop, Peer
from relays import FROM_DIALLER, TO_DIALLER, turn_after

PLAYS = ("messages", "rests", "files", "rings", "looks", "acks")

CARDS = [ebcdic(f"{number:04} THE QUICK BROWN FOX JUMPS OVER THE LAZY DOG".ljust(80)) for number in range(3)]

CHANCE = random.Random(77)


def times_of(found):
    """Median, the time that 95 of 100 are within, and the longest, of nanoseconds, in milliseconds."""
    found = sorted(found)
    return [f"{one / 1e6:.3f}" for one in (statistics.median(found), found[-(-95 * len(found) // 100) - 1], found[-1])]


def told(is_wanted):
    return "yes" if is_wanted else "no"


MESSAGE_WIDTHS = (26, 9, 10, 9, 11, 8, 7)


def message_row(options, what, found, busy=""):
    cells = times_of(found)
    wanted = float(cells[0]) < 1 and (float(cells[2]) <= 20 or options.spool and float(cells[2]) <= 40)
    row(MESSAGE_WIDTHS, what, len(found), *cells, busy, told(wanted))


def messages(options):
    row(MESSAGE_WIDTHS, "beside", "messages", "median ms", "95 % ms", "longest ms", "busy/s", "wanted")
    for what, busy, silent in (
        ("nothing", 0, 0),
        ("254 silent lines", 0, 254),
        ("7 busy lines", 7, 0),
        ("7 busy, 247 silent lines", 7, 247),
    ):
        groups = [2] + [1] * busy + [min(5, silent - at) for at in range(0, silent, 5)]
        places = places_of(groups)
        with Served(options, table_of(places, 16)):
            with crowd_of(Busy, places[2 : 2 + busy]) as busy_ones, crowd_of(Peer, places[2 + busy :]) as silent_ones:
                with Pairs(places[:2]) as pair:
                    begin, before = time.monotonic(), answers_of(busy_ones)
                    found = [one_message(options, pair) for _ in range(options.messages)]
                    rate = (answers_of(busy_ones) - before) / (time.monotonic() - begin)
                up = sum(one[0] for crowd in (busy_ones, silent_ones) for one in crowd.look("stop")[0])
        message_row(options, what, found, f"{rate:.0f}" if busy else "")
        if up < busy + silent:
            print(f"  of {busy + silent} other lines {up} are up")


def crowd_of(kind, places):
    return Crowd(lambda loop: [kind(loop, place.port, place.node) for place in places], seconds=7200)


def answers_of(crowd):
    return sum(one[1] for one in crowd.look()[0])


def one_message(options, pair):
    pair.rest(CHANCE.uniform(*options.apart) / 1000)
    return pair.time(0)


def rests(options):
    places = places_of([2] * options.samples)
    row(MESSAGE_WIDTHS, "after a rest", "messages", "median ms", "95 % ms", "longest ms", "", "wanted")
    with Served(options, table_of(places, 16)), Pairs(places) as pairs:
        pairs.rest(options.rest)
        found = []
        for place in range(options.samples):
            pairs.rest(CHANCE.uniform(0.3, 1.3))
            found.append(pairs.time(place))
    message_row(options, f"of {options.rest:g} s", found)


FILE_WIDTHS = (14, 12, 6, 10, 9, 11, 9, 7)


class Hop(typing.NamedTuple):
    """A hop of a file: from which place of the row, when it began, how many seconds its line had no text then, which
    end had the turn, and how many nanoseconds it took."""

    place: int
    begun: int
    silent: float
    turn: str
    took: int = 0


def hops_of(frames, hubs):
    """The hops of files, of the frames that the relay of a row handed on, and how long the files took for all."""
    lines = len(hubs.nodes) - 1
    last, texts, under_way, first, found, wholes = {}, {}, {}, {}, [], []
    for one in frames:
        customer, place = divmod(one.line, lines)
        is_text = isinstance(one.frame, Text)
        if is_text and has_come(one, place == lines - 1):
            if place == 0:
                first[customer] = one.at
            else:
                hop = under_way.pop(customer)
                found.append(hop._replace(took=one.at - hop.begun))
            if place == lines - 1:
                wholes.append(one.at - first[customer])
            else:
                line = one.line + 1
                silent = (one.at - texts.get(line, one.at)) / 1e9
                sending = TO_DIALLER if place == lines - 2 else FROM_DIALLER
                turn = {None: "neither", sending: "sending end"}.get(turn_after(last.get(line)), "other end")
                under_way[customer] = Hop(place + 1, one.at, silent, turn)
        last[one.line] = one
        if is_text:
            texts[one.line] = one.at
    return found, wholes


def has_come(one, is_last):
    """Whether by this text a hub says that it has a file whole, or METZ has its last record."""
    if one.way != TO_DIALLER:
        return False
    wanted = (SYSOUT, CARD, b"") if is_last else (COMPLETE, SYSOUT, b"")
    return wanted in records_of(one.frame)


def send_file(loop, anna, metz, number):
    """Sends a file from LYON to METZ."""
    anna.to_send.append(file_of(number, "LYON", "ANNA", "METZ", "PAUL", CARDS))
    wanted = len(metz.files) + 1
    anna.answer()
    if not loop.run(30, lambda: len(metz.files) == wanted and anna.went == wanted):
        raise TimeoutError("a file didn't come")


def file_rows(what, hubs, is_lively):
    """The rows of files; the first two of those that go one by one don't count, since their lines had rested."""
    found, wholes = hops_of(hubs.relay.passed(), hubs)
    if is_lively:
        found, wholes = found[2 * (len(hubs.nodes) - 2) :], wholes[2:]
    row(FILE_WIDTHS, what, "turn", "files", "median ms", "95 % ms", "longest ms", "silent s", "wanted")
    for place in range(1, len(hubs.nodes) - 1):
        for turn in ("sending end", "other end", "neither"):
            own = [hop for hop in found if (hop.place, hop.turn) == (place, turn)]
            if own:
                cells, silent = times_of(hop.took for hop in own), max(hop.silent for hop in own)
                wanted = told(float(cells[2]) < 5) if turn == "sending end" else ""
                name = f"{hubs.nodes[place]} to {hubs.nodes[place + 1]}"
                row(FILE_WIDTHS, name, turn, len(own), *cells, f"{silent:.2f}", wanted)
    cells = times_of(wholes)
    row(FILE_WIDTHS, "all hops", "", len(wholes), *cells, "", told(float(cells[2]) < 100) if is_lively else "")


def files(options):
    loop = Loop()
    with Row(options, 1, 3) as hubs:
        hubs.sign_on(loop)
        ((anna, metz),) = hubs.people
        for number in range(options.files + 2):
            send_file(loop, anna, metz, number + 1)
            loop.run(CHANCE.uniform(0.1, 0.8))
        file_rows("one by one", hubs, True)
    with Row(options, options.samples, 3) as hubs:
        hubs.sign_on(loop)
        loop.run(options.rest)
        for number, (anna, metz) in enumerate(hubs.people):
            loop.run(CHANCE.uniform(0, 2))
            send_file(loop, anna, metz, number + 1)
        file_rows(f"after {options.rest:g} s", hubs, False)
    loop.close()


RING_WIDTHS = (18, 9, 12, 10, 11, 7, 7)


def rings(options):
    row(RING_WIDTHS, "goes round", "rounds/s", "exchanges/s", "median ms", "longest ms", "HUBA", "wanted")
    for what, count in (("a message", 1), ("sixty messages", 60), ("a file", 0)):
        loop = Loop()
        with Ring(options) as ring:
            ring.wait()
            other = End(ring.other, "N0")
            before = ring_row(options, ring, other, "nothing")
            lyon = FilePeer(loop, ring.lyon, "LYON")
            loop.run(5, lambda: lyon.is_up)
            if count:
                lyon.waits += [message("NOWHERE", "PAUL", "LYON", f"ROUND {number}") for number in range(count)]
            else:
                lyon.to_send.append(file_of(1, "LYON", "ANNA", "NOWHERE", "PAUL", CARDS))
            lyon.answer()
            loop.run(0.3)
            if lyon.state != "idle":
                raise TimeoutError("HUBA didn't take the file")
            lyon.close()
            ring_row(options, ring, other, what, count, before)
            other.socket.close()
        loop.close()


def ring_row(options, ring, other, what, count=1, before=None):
    """Measures the other customer's line, and counts what goes round; answers exchanges a second."""
    ring.relay.passed()
    hub, begin, used = ring.hubs[0], time.monotonic(), ring.hubs[0].seconds_used()
    times = other.exchanges(options.seconds)
    lasted, share = time.monotonic() - begin, hub.seconds_used() - used
    texts = [one for one in ring.relay.passed() if isinstance(one.frame, Text)]
    if count:
        kinds = [record[0] for one in texts if one.way == FROM_DIALLER for record in records_of(one.frame)]
        rounds = kinds.count(MESSAGE) / count
    else:
        rounds = sum(has_come(one, False) for one in texts)
    rate, cells = len(times) / lasted, times_of(times)
    wanted = told(rate >= 0.9 * before) if before else ""
    cells = (f"{rounds / lasted:.1f}", f"{rate:.0f}", cells[0], cells[2], f"{share / lasted:.2f}")
    row(RING_WIDTHS, what, *cells, wanted)
    return rate


LOOK_WIDTHS = (18, 9, 12, 10, 11, 7)

# Lines of MANY besides the one that sends and the one that nobody signs on, and files that wait for that one.
RESTING, WAITING = 250, 1000


def looks(options):
    row(LOOK_WIDTHS, "beside", "blocks/s", "exchanges/s", "median ms", "longest ms", "wanted")
    places = places_of([2 + RESTING, 1])
    own, other_place = places[:-1], places[-1]
    lines = [line_of(place.name, place.node, port=place.port) for place in own]
    text = f"capacity = {2 * 65535}\n"
    text += customer_of("MANY", "BUREAU", 65535, lines, [(place.node, place.name) for place in own], 1024)
    line = line_of(other_place.name, other_place.node, port=other_place.port)
    text += customer_of("OTHER", "BUREAU", 16, [line], [(other_place.node, other_place.name)])
    before = None
    cases = ("one line", 0, 0), (f"{RESTING} more at rest", RESTING, 0), (f"and {WAITING} files", RESTING, WAITING)
    for what, resting, waiting in cases:
        with Served(options, text):
            send_files(own[0], own[1].node, waiting)
            with crowd_of(Peer, own[2 : 2 + resting]) as at_rest, crowd_of(Busy, own[:1]) as busy:
                other = End(other_place.port, other_place.node)
                before = look_row(options, what, busy, other, before)
                other.socket.close()
                up = sum(one[0] for one in at_rest.look("stop")[0])
        if up < resting:
            print(f"  of {resting} lines {up} are up")


def send_files(place, node, count):
    """Sends so many files for a node, and ends the connection."""
    loop = Loop()
    peer = FilePeer(loop, place.port, place.node)
    peer.to_send += [file_of(number + 1, place.node, "ANNA", node, "PAUL", CARDS[:1]) for number in range(count)]
    if not loop.run(120, lambda: peer.is_up and peer.went == count):
        raise TimeoutError(f"{peer.went} files of {count} came")
    loop.close()


def look_row(options, what, busy, other, before):
    """Measures the other customer's line; answers the exchanges a second that are wanted of the next rows."""
    answers, begin = answers_of(busy), time.monotonic()
    times = other.exchanges(options.seconds)
    lasted = time.monotonic() - begin
    rate, cells = len(times) / lasted, times_of(times)
    wanted = told(rate >= 0.6 * before) if before else ""
    row(LOOK_WIDTHS, what, f"{(answers_of(busy) - answers) / lasted:.0f}", f"{rate:.0f}", cells[0], cells[2], wanted)
    return before or rate


ACK_WIDTHS = (40, 6, 6, 6, 6, 6, 6, 6, 8, 6)


class Holder(FilePeer):
    """A peer of METZ that may suspend what it is sent."""

    fcs = b"\x8f\xcf"

    def say_block(self, records, fcs=None):
        super().say_block(records, fcs or self.fcs)

    def hold(self, fcs):
        self.fcs = fcs
        self.say_block(b"")


def ack_row(what, frames, came=""):
    """A row of frames in each second, of pairs of the nanosecond at which it begins and the frames."""
    seconds = [0] * 7
    for begin, own in frames:
        for one in own:
            place = (one.at - begin) // 10**9
            if 0 <= place < len(seconds):
                seconds[place] += 1 / len(frames)
    is_few = all(count <= most for count, most in zip(seconds, (120, 120, 20, 4, 4, 4, 4)))
    row(ACK_WIDTHS, what, *(f"{one:.1f}" for one in seconds), came, told(is_few and came != "no"))


def acks(options):
    row(ACK_WIDTHS, "frames in second", *range(1, 8), "came", "wanted")
    loop = Loop()
    with Row(options, 1, 2) as hubs:
        hubs.sign_on(loop)
        ((anna, metz),) = hubs.people
        loop.run(3)
        found = []
        for number in range(5):
            found.append(after_message(loop, hubs, anna, metz, number))
        ack_row("two joined hubs after a message", found)
    with Row(options, 3, 1) as hubs:
        hubs.sign_on(loop, Holder)
        loop.run(3)
        held(loop, hubs)
    loop.close()


def after_message(loop, hubs, anna, metz, number):
    """Sends a message, and answers when it went from HUBA to HUBB and the frames of that line."""
    hubs.relay.passed()
    anna.waits.append(message("METZ", "PAUL", "LYON", f"HOP {number}"))
    anna.answer()
    if not loop.run(PATIENCE, lambda: f"HOP {number}" in metz.told):
        raise TimeoutError("a message didn't come")
    loop.run(CHANCE.uniform(8, 9))
    own = [one for one in hubs.relay.passed() if one.line == 1]
    return next(one.at for one in own if isinstance(one.frame, Text)), own


# The FCS with T off, with S on, and with the bit of SYSOUT 1 off.
HOLDS = (
    ("messages suspended, a message waits", b"\x8f\x8f"),
    ("all suspended, a message, a file wait", b"\xcf\xcf"),
    ("SYSOUT 1 suspended, its file waits", b"\x8f\xc7"),
)


def held(loop, hubs):
    """Three customers whose METZ suspends what waits for it, each with a row."""
    for (_, metz), (_, fcs) in zip(hubs.people, HOLDS):
        metz.hold(fcs)
    loop.run(3)
    hubs.relay.passed()
    begin = time.monotonic_ns()
    for place, (anna, _) in enumerate(hubs.people):
        if place < 2:
            anna.waits.append(message("METZ", "PAUL", "LYON", "HOP"))
        if place > 0:
            anna.to_send.append(file_of(1, "LYON", "ANNA", "METZ", "PAUL", CARDS))
        anna.answer()
    loop.run(7.1)
    frames = hubs.relay.passed()
    early = any(metz.told or metz.files for _, metz in hubs.people)
    for _, metz in hubs.people:
        metz.hold(b"\x8f\xcf")
    wanted = lambda place, metz: (place > 1 or metz.told == ["HOP"]) and (place < 1 or len(metz.files) == 1)
    loop.run(2.5, lambda: all(wanted(place, metz) for place, (_, metz) in enumerate(hubs.people)))
    for place, (what, _) in enumerate(HOLDS):
        came = told(wanted(place, hubs.people[place][1]) and not early)
        ack_row(what, [(begin, [one for one in frames if one.line == 2 * place + 1])], came)


def main():
    options = options_of(
        __doc__,
        (("--spool",), {"action": "store_true", "help": "with a spool file"}),
        (("--core",), {"type": int, "help": "run the hub that is measured on this core, and all else on the others"}),
        (("--messages",), {"type": int, "default": 1000, "help": "how many in each row of `messages`"}),
        (("--apart",), {"type": float, "nargs": 2, "default": [50, 400], "help": "milliseconds between them"}),
        (("--files",), {"type": int, "default": 50, "help": "how many go one by one"}),
        (("--rest",), {"type": float, "default": 60, "help": "how many seconds a rest is"}),
        (("--samples",), {"type": int, "default": 8, "help": "how many customers' lines rest"}),
        (("--seconds",), {"type": int, "default": 10, "help": "how long each row of `rings` is measured"}),
        (("plays",), {"nargs": "*", "metavar": "PLAY", "help": ", ".join(PLAYS) + "; all where none is named"}),
    )
    if options.core is not None:
        os.sched_setaffinity(0, set(range(os.cpu_count())) - {options.core})
    for name in options.plays or PLAYS:
        globals()[name](options)


if __name__ == "__main__":
    main()
