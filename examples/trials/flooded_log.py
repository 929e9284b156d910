"""Shows how many lines a peer can write into the log of a hub, and how often a hub dials that is refused.

    python3 examples/trials/flooded_log.py PROGRAM [PLAY ..] [--quick]

The plays, each with hubs of its own:

- `commands`: a peer says users' commands for six seconds, one a block, each as soon as the one before is answered.
- `sessions`: a peer signs on and off for six seconds, each as soon as it is answered.
- `connects`: strangers of 20 addresses connect for six seconds, and end each connection at once.
- `joined`: two hubs are joined by a line for a minute, with passwords that differ.
- `files`: a peer sends files without a card for ten seconds, in blocks of two dozen, and cancels them, as fast as
  flood.c can, which cc builds.
- `dials`: a hub dials a peer that takes its sign-on and ends the connection, four times; then it is given a session,
  whose connection ends too.
- `guesses`: a stranger guesses a line's password for twenty seconds from one address, which isn't loopback's.

Of all but `files` and `dials` the table has a row for each kind of line that came more than ten times in ten seconds,
or the one that came most: how many there were in all, and the most of them in ten seconds of one line of the table
file. At most ten are wanted. Of commands, what is counted by the last line of the spell is to add up to those that were
said. Of files a row has the most lines in a second of the customer, of seconds that each begin with the first line
behind the one before, as the log counts them: a thousand are wanted at most. And those that are told one by one, or
counted as `files: N more`, are to be all that came.

Of `joined`, `dials` and `guesses` a row has the pauses in seconds between two tries: they are to double from one second
on, and to begin anew after a session. The last line says "right", or the script ends with status 1 and says how many
rows are wrong. Needs root, `ip` and `unshare`, for a network of its own.
"""

import calendar
import collections
import re
import select
import socket
import subprocess
import sys
import tempfile
import time

from addresses import LISTENS, Strangers, in_own_network, stranger, wrong_sign_on
from console import ConsoleHub
from floods import ROOM, blocks_of
from frames import (
    ACK0,
    BLOCK,
    CARD,
    CONTACT,
    EOT,
    REQUEST,
    SYSOUT,
    Deframer,
    Text,
    command,
    file_of,
    sign_on,
    spelled,
)
from hub import Hub, customer_of, free_ports, line_of, options_of, places_of, row
from peers import Crowd, Peer
from spool_hub import built
from spool_rate import LARGE
from spool_speed import table_for

WIDTHS = (10, 52, 9, 7, 6)

NODE = "LYON"

# The most lines of a kind and a line of the table file in so many seconds, and of files of a customer in a second.
MOST, SPELL, FILES = 10, 10.0, 1000

# The first words of lines about files.
ABOUT_FILES = ("file in", "file out", "file held", "file refused")

# How a line tells that it stands for many files.
COUNTED = re.compile(r"\bfiles: (\d+) more\b")

LINE = re.compile(r"(\d{4}-\d\d-\d\dT\d\d:\d\d:\d\d)\.(\d{3})Z (?:(\S+) ?(\S*): )?(.*)")

Told = collections.namedtuple("Told", "at customer line words")


def told_in(log):
    """The lines of a log."""
    for text in log:
        if found := LINE.fullmatch(text):
            day, thousandths, customer, line, words = found.groups()
            seconds = calendar.timegm(time.strptime(day, "%Y-%m-%dT%H:%M:%S"))
            yield Told(seconds + int(thousandths) / 1000, customer, line, words)


def kind_of(told):
    """What kind of line it is: its words up to what differs."""
    words = re.sub(r"[0-9][0-9.:]*", "#", told.words)
    return re.split(r" of | with | from | to |, the last|: (?!the )| #", words)[0]


def most_in(times, seconds):
    """The most of these moments, which are in order, that lie within so many seconds."""
    most = first = 0
    for last, at in enumerate(times):
        while times[first] <= at - seconds:
            first += 1
        most = max(most, last - first + 1)
    return most


def most_in_turn(times, seconds):
    """The most of these moments in so many seconds; each such time begins with the first moment behind the last."""
    most = first = 0
    for last, at in enumerate(times):
        if times[first] <= at - seconds:
            first = last
        most = max(most, last - first + 1)
    return most


def show(name, what, count, most, right):
    row(WIDTHS, name, what, count, most, "" if right else "WRONG")
    return right


def counted(name, log):
    """Rows of the kinds of lines that came too often, or of the one that came most."""
    times = collections.defaultdict(list)
    for told in told_in(log):
        if told.line and kind_of(told) not in ABOUT_FILES:
            times[f"{told.line}: {kind_of(told)}"].append(told.at)
    found = sorted(((most_in(moments, SPELL), len(moments), what) for what, moments in times.items()), reverse=True)
    shown = [one for one in found if one[0] > MOST] or found[:1]
    return [show(name, what, count, most, most <= MOST) for most, count, what in shown]


def paused(name, what, pauses, wanted):
    """A row of pauses: each at least nine tenths of what is wanted, and a second and a half longer at most. Further
    ones are to be as the last."""
    wanted = wanted + wanted[-1:] * (len(pauses) - len(wanted))
    right = len(pauses) > 0 and all(0.9 * least <= pause <= least + 1.5 for pause, least in zip(pauses, wanted))
    show(name, what, len(pauses) + 1, "", right)
    print("    pauses: " + " ".join(f"{pause:.1f}" for pause in pauses[:12]) + (" .." if len(pauses) > 12 else ""))
    return right


def one_line(port, **more):
    line = line_of("a1", NODE, port=port, **more)
    return "capacity = 1000\n" + customer_of("ACME", "BUREAU", 1000, [line], [(NODE, "a1")])


class Commander(Peer):
    """A peer that says a command as soon as the one before is answered."""

    said = 0

    def turn(self, frame):
        self.said += 1
        self.say_block(command("BUREAU", NODE, "ANNA", f"HOLD LYON.{self.said % 9 + 1}"))


class Restless(Peer):
    """A peer that ends each session as soon as it has one."""

    said = 0

    def turn(self, frame):
        self.said += 1
        self.say(EOT)
        self.begin()


def by(peer, options, name):
    """The log of a hub, and how often its peer said what it says."""
    (port,) = free_ports(1)
    with Hub(options, one_line(port)) as hub:
        with Crowd(lambda loop: [peer(loop, port, NODE)], lambda one: one.said) as crowd:
            time.sleep(options.flood)
            (said,), _, _ = crowd.look("stop")
        time.sleep(SPELL + 1)
        return hub.log(), said


def last_of(told):
    return told[-1].words if told else "none"


def commands(options):
    log, said = by(Commander, options, "commands")
    found = counted("commands", log)
    told = [one for one in told_in(log) if one.words.startswith("command of")]
    counts = [int(number) for one in told_in(log) for number in re.findall(r"^commands: (\d+) more", one.words)]
    # The peer may not have heard the answer to one.
    most = len(told) + sum(counts)
    right = said - 1 <= most <= said + len(told)
    print(f"    {said} commands were said; the last line: {last_of(told)}")
    return found + [show("commands", "told, with those that a line counts", said, most, right)]


def sessions(options):
    log, said = by(Restless, options, "sessions")
    print(f"    {said} sessions")
    return counted("sessions", log)


def connects(options):
    (port,) = free_ports(1)
    with Hub(options, one_line(port), *LISTENS) as hub:
        hub.serves()
        with Strangers(port, [stranger(at) for at in range(20)], stays=False) as strangers:
            time.sleep(options.flood)
            heard = strangers.stop()
        time.sleep(1)
        log = hub.log()
    print(f"    {heard.connections} connections")
    return counted("connects", log)


def joined(options):
    (port,) = free_ports(1)
    dialled = line_of("joined", "HUBB", port=port, password="ONE")
    dials = line_of("joined", "HUBA", "call", connect=f"127.0.0.1:{port}", password="OTHER")
    first = "capacity = 100\n" + customer_of("ACME", "HUBA", 100, [dialled], [("HUBB", "joined")])
    second = "capacity = 100\n" + customer_of("ACME", "HUBB", 100, [dials], [("HUBA", "joined")])
    with Hub(options, first) as one:
        one.serves()
        with Hub(options, second) as other:
            time.sleep(options.joined)
            logs = one.log(), other.log()
    found = [right for name, log in zip(("HUBA", "HUBB"), logs) for right in counted(f"at {name}", log)]
    lines = [sum(told.line == "joined" for told in told_in(log)) for log in logs]
    print(f"    lines in {options.joined:g} s: {lines[0]} of HUBA, {lines[1]} of HUBB")
    dials = [told.at for told in told_in(logs[1]) if told.words.startswith(("connected to", "no connection"))]
    pauses = [after - at for at, after in zip(dials, dials[1:])]
    return found + [paused("joined", "dials, from one to the next", pauses, [1, 2, 4, 8, 16, 32])]


def tiny(node):
    """Blocks of files without a card, and after each a block that cancels them: as many as bring the count back."""
    records = file_of(1, node, "ANNA", "N1", "PAUL", []) + [(CARD, b"")]
    one = bytes([REQUEST, SYSOUT, 0]) + b"".join(bytes([SYSOUT, srcb]) + spelled(record) for srcb, record in records)
    return blocks_of([one * (ROOM // len(one)), command("BUREAU", node, "ANNA", f"CANCEL {node}.1")] * 8)


def files(options):
    places = places_of([2])
    table = table_for(places, 1000, 1024).replace(f"block = {BLOCK}", f"block = {LARGE}")
    with tempfile.TemporaryDirectory() as folder, ConsoleHub(options, table) as hub:
        load = built(folder, "flood.c")
        hub.serves()
        port, node = places[0].port, places[0].node
        words = f"{port} {(CONTACT + sign_on(0xC9, node, LARGE)).hex()} {tiny(node).hex()}\n"
        subprocess.run([load, str(options.files), "1"], input=words, capture_output=True, text=True, check=True)
        time.sleep(1.5)
        came = hub.answers("customers")[0]["customers"][0]["arrived"]
        log = hub.log()
    told = [one for one in told_in(log) if one.words.startswith(ABOUT_FILES)]
    most = most_in_turn([one.at for one in told], 1.0)
    print(f"    {came} files came, {came / options.files:.0f} a second; the last line: {last_of(told)}")
    # What is beyond that is counted, a line of the log for each line of the table file.
    counts = [int(number) for one in told_in(log) if one.line for number in COUNTED.findall(one.words)]
    all_told = sum(not COUNTED.search(one.words) for one in told) + sum(counts)
    return [
        show("files", "lines of files, and the most in a second", len(told), most, most <= FILES + 2 and came > 0),
        show("files", "told, with those that a line counts", came, all_told, all_told >= came),
    ]


def taken(listener, deframer, is_given):
    """Takes a dial, with a session or without one. When it came and when its connection ended."""
    if not select.select([listener], [], [], 80)[0]:
        raise TimeoutError("nobody dials")
    at = time.monotonic()
    with listener.accept()[0] as peer:
        peer.settimeout(20)
        peer.setsockopt(socket.IPPROTO_TCP, socket.TCP_NODELAY, 1)
        while data := peer.recv(4096):
            for frame in deframer.feed(data):
                if frame == CONTACT:
                    peer.sendall(ACK0)
                elif isinstance(frame, Text) and not is_given:
                    return at, time.monotonic()
                elif isinstance(frame, Text):
                    peer.sendall(sign_on(0xD1, "HUBB"))
                    time.sleep(0.5)
                    peer.sendall(EOT)
                    return at, time.monotonic()
    return at, time.monotonic()


def dials(options):
    with socket.create_server(("127.0.0.1", 0)) as listener:
        line = line_of("joined", "HUBB", "call", connect=f"127.0.0.1:{listener.getsockname()[1]}")
        table = "capacity = 100\n" + customer_of("ACME", "HUBA", 100, [line], [("HUBB", "joined")])
        with Hub(options, table) as hub:
            given = [False] * 4 + [True, False]
            times = [taken(listener, Deframer(), one) for one in given]
            ups = sum("session up" in line for line in hub.log())
    pauses = [after[0] - before[1] for before, after in zip(times, times[1:])]
    found = [paused("dials", "from an end to the next dial", pauses[:4], [1, 2, 4, 8])]
    found.append(paused("dials", "from a session's end to the next dial", pauses[4:], [1]))
    return found + [show("dials", "sessions", ups, "", ups == 1)]


def guesses(options):
    (port,) = free_ports(1)
    with Hub(options, one_line(port, password="SECRET"), *LISTENS) as hub:
        hub.serves()
        with Strangers(port, [stranger(0)] * 4, wrong_sign_on(NODE)) as strangers:
            time.sleep(options.guessed)
            moments = strangers.stop().moments
        time.sleep(1)
        found = counted("guesses", hub.log())
    pauses = [after - at for at, after in zip(moments, moments[1:])]
    return found + [paused("guesses", "connections of an address, each answered", pauses, [1, 2, 4, 8, 16, 32])]


PLAYS = (commands, sessions, connects, joined, files, dials, guesses)


def main():
    names = ", ".join(play.__name__ for play in PLAYS)
    options = options_of(
        __doc__,
        (("--quick",), {"action": "store_true", "help": "each for a third of its time or less"}),
        (("plays",), {"nargs": "*", "metavar": "PLAY", "help": f"{names}; all where none is named"}),
    )
    in_own_network()
    options.flood, options.joined, options.files, options.guessed = (2, 20, 2, 8) if options.quick else (6, 60, 10, 20)
    row(WIDTHS, "play", "what", "in all", "most", "")
    right = []
    for play in PLAYS:
        if not options.plays or play.__name__ in options.plays:
            right += play(options)
    print("right" if all(right) else f"{right.count(False)} rows are wrong")
    sys.exit(not all(right))


if __name__ == "__main__":
    main()
