"""Shows how many passwords can be tried on a line: of one connection, and by strangers who try as fast as they can.

    python3 examples/trials/guesses.py PROGRAM [--seconds 10] [--quick]

LYON's line a1 has a password. Each row has a hub of its own. In the first rows one connection says 75 sign-ons with
wrong passwords, or other faults, and then the right one: in one write, which the hub reads at once; byte by byte; and
one after the other, each as soon as its contact is answered. Then one says them in one write behind a session of its
own: it has the password, so that isn't guessing, but its connection is to be ended behind them. In the last rows
strangers say 75 of them on each of their connections, and connect anew as soon as the hub ends one, for so many
seconds: from one address, from eight, and from loopback.

The table has for each how many connections there were and how many of them were answered, how many sign-ons the hub
judged (by the console's count of refusals, and the sessions that came), how many answers came (each ACK0 is of a
contact), and how many sign-ons of the hub, which have the password; how many lines of the log tell of refusals; and
whether that is right: of a connection one sign-on is judged at most, and what stands behind one that was refused isn't
answered; of a line one is judged a second at most, and told by as few lines, each with an address that they came from.
The last line says "right", or the script ends with status 1 and says how many rows are wrong.

Needs root, `ip` and `unshare`, for a network of its own.
"""

import collections
import sys
import time

from addresses import HUB, LISTENS, RIGHT, Strangers, in_own_network, stranger, wrong_sign_on
from console import ConsoleHub
from frames import ACK0, CONTACT, EOT, Deframer, Text, framed, sign_on
from hub import connected, customer_of, free_ports, line_of, options_of, row

WIDTHS = (34, 11, 8, 6, 7, 8, 5, 5)

NODE, PASSWORD, MANY = "LYON", "SECRET", 75

# A hub reads so much at once.
READ = 4096

WRONG = wrong_sign_on(NODE)
RIGHT_ONE = CONTACT + sign_on(0xC9, NODE, password=PASSWORD)

# Sign-ons that are refused for other reasons: another node, too small a block, another record, and one that is cut off.
FAULTS = (
    CONTACT + sign_on(0xC9, "METZ", password=PASSWORD),
    CONTACT + sign_on(0xC9, NODE, block=299, password=PASSWORD),
    CONTACT + framed(b"\xa0\x8f\xcf\x00"),
    CONTACT + framed(b"\xa0\x8f\xcf\xf0\xc9\x29\x00"),
    WRONG,
)

Shown = collections.namedtuple("Shown", "connections answered answers texts")


class Guessed(ConsoleHub):
    """A hub whose line has a password."""

    def __init__(self, options):
        self.port = free_ports(1)[0]
        line = line_of("a1", NODE, port=self.port, password=PASSWORD)
        table = "capacity = 100\n" + customer_of("ACME", "BUREAU", 100, [line], [(NODE, "a1")])
        super().__init__(options, table, *LISTENS)
        self.serves()

    def refusals(self):
        """How many sign-ons were refused since the start."""
        (line,) = self.answers("lines", "ACME")[0]["lines"]
        return line["session"]["refusals"]

    def refused(self):
        return [line for line in self.log() if "sign-on refused" in line]


class One:
    """One connection, from an address that isn't loopback's."""

    def __init__(self, hub):
        self.socket, self.deframer, self.frames = connected(hub.port, timeout=1, source=RIGHT, to=HUB), Deframer(), []

    def say(self, words):
        try:
            self.socket.sendall(words)
        except OSError:
            pass

    def hear(self, seconds, until=lambda frames: False):
        """Hears what comes for so long, or until something is so or the hub ends the connection; whether it did."""
        end = time.monotonic() + seconds
        while (left := end - time.monotonic()) > 0 and not until(self.frames):
            self.socket.settimeout(left)
            try:
                data = self.socket.recv(65536)
            except TimeoutError:
                break
            except OSError:
                return True
            if not data:
                return True
            self.frames += [frame for frame in self.deframer.feed(data) if frame == ACK0 or isinstance(frame, Text)]
        return False

    def shown(self):
        self.socket.close()
        texts = sum(isinstance(frame, Text) for frame in self.frames)
        return Shown(1, int(bool(self.frames)), len(self.frames), texts)


def one_write(hub, wrong=WRONG * MANY):
    words = wrong + RIGHT_ONE
    assert len(words) <= READ, f"{len(words)} bytes are no single read"
    one = One(hub)
    one.say(words)
    one.hear(2)
    return one.shown()


def other_faults(hub):
    return one_write(hub, b"".join(FAULTS) * (MANY // len(FAULTS)))


def byte_by_byte(hub):
    one = One(hub)
    for byte in WRONG * MANY + RIGHT_ONE:
        one.say(bytes([byte]))
    one.hear(2)
    return one.shown()


def behind_a_session(options, what):
    """A session, and then its end, guesses and the right sign-on in one write.

    Whose session is up has the password, and is read as fast as he sends: all of that is judged. But his connection is
    ended behind it, since a sign-on was refused, and what he says then isn't.
    """
    with Guessed(options) as hub:
        one = One(hub)
        one.say(RIGHT_ONE)
        one.hear(5, lambda frames: any(isinstance(frame, Text) for frame in frames))
        assert len(one.frames) == 2, "there was no session"
        one.frames.clear()
        one.say(EOT + WRONG * (MANY - 1) + RIGHT_ONE)
        is_over = one.hear(2)
        one.say(WRONG)
        time.sleep(1.2)
        shown, judged, told = one.shown(), hub.refusals(), len(hub.refused())
        right = is_over and judged == MANY - 1 and told == 1
        row(WIDTHS, what, 1, shown.answered, judged, shown.answers, shown.texts, told, "" if right else "WRONG")
        return right


def one_by_one(hub):
    """Each guess as soon as the contact before it is answered."""
    one, said = One(hub), 0
    while said < MANY and not one.hear(2, lambda frames: len(frames) >= said):
        one.say(WRONG)
        said += 1
    one.say(RIGHT_ONE)
    one.hear(1)
    return one.shown()


ROWS = (
    ("75 in one write", one_write),
    ("75 with other faults in one write", other_faults),
    ("75 byte by byte", byte_by_byte),
    ("one by one", one_by_one),
)


def show(what, judged, told, shown, most, is_loose=False, is_told=True):
    """A row. So many sign-ons may be judged; of one connection nothing but the contact is answered then."""
    answers = shown.answered if is_loose else 1
    right = 0 < judged <= min(most, shown.answered) and shown.answers <= answers and not shown.texts
    right = right and 0 < told <= most and is_told
    cells = (shown.connections, shown.answered, judged, shown.answers, shown.texts, told)
    row(WIDTHS, what, *cells, "" if right else "WRONG")
    return right


def alone(options, what, play):
    """One connection."""
    with Guessed(options) as hub:
        shown = play(hub)
        time.sleep(1.2)
        return show(what, hub.refusals(), len(hub.refused()), shown, 1)


def storm(options, what, sources, to=HUB):
    """Strangers who guess from these addresses."""
    with Guessed(options) as hub:
        words = WRONG * MANY + RIGHT_ONE
        with Strangers(hub.port, sources, words, to=to) as strangers:
            time.sleep(options.seconds)
            judged, told = hub.refusals(), hub.refused()
            heard = strangers.stop()
    shown = Shown(heard.connections, heard.answered, heard.answers, heard.texts)
    is_told = all(any(source in line for source in sources) for line in told)
    right = show(what, judged, len(told), shown, int(options.seconds) + 2, True, is_told)
    for line in told[-1:]:
        print(f"    {line}")
    return right


def main():
    options = options_of(
        __doc__,
        (("--seconds",), {"type": float, "default": 10, "help": "how long strangers guess"}),
        (("--quick",), {"action": "store_true", "help": "three seconds"}),
    )
    in_own_network()
    if options.quick:
        options.seconds = 3
    row(WIDTHS, "what is said", "connections", "answered", "judged", "answers", "password", "told", "")
    right = []
    for what, play in ROWS:
        right.append(alone(options, what, play))
    right.append(behind_a_session(options, "a session, then 74 in one write"))
    seconds = f"{options.seconds:g} s"
    right.append(storm(options, f"one address, {seconds}", [stranger(0)] * 16))
    right.append(storm(options, f"eight addresses, {seconds}", [stranger(at) for at in range(8)] * 4))
    right.append(storm(options, f"loopback, {seconds}", ["127.0.0.1"] * 16, "127.0.0.1"))
    print("right" if all(right) else f"{right.count(False)} rows are wrong")
    sys.exit(not all(right))


if __name__ == "__main__":
    main()
