"""Shows whether a silent line feels the traffic of other customers' lines.

    python3 examples/trials/silent_line.py PROGRAM [--old] [--busy 1 7 63 255]

One line of a customer signs on and then says nothing. Beside it so many lines of other customers send blocks without
records, each as soon as the last one is answered. The table has a row for each number of busy lines, with the silent
one before them, among them and after them in the table file: how many milliseconds lie between the sign-on's answer
and the first time that the hub asks again (3D), and between that and each further one; what became of the session
after the last; and how many exchanges a second the busy lines had together. What is wanted: five ticks 2500 ms apart
within a tenth, since the hub answers on the line, and the session over after the fifth.

The session's end is not to be seen on a line by itself, so the connection's end is told where the hub closes it, and
else a block is sent on it, which a hub answers if the session goes on.
"""

import select
import time

from frames import ACK0, CONTACT, Deframer, Text, framed, sign_on
from hub import Hub, connected, one_beside, options_of, places_of, row, table_of
from peers import Busy, Crowd

WIDTHS = (5, 6, 38, 34, 12)

# Where the silent line stands among the others in the table.
PLACES = ("first", "middle", "last")


def heard(peer, deframer, seconds):
    """The frames that come within so long, None where nothing does; ConnectionError at the end."""
    if not select.select([peer], [], [], seconds)[0]:
        return None
    data = peer.recv(4096)
    if not data:
        raise ConnectionError
    return deframer.feed(data)


def answer(peer, deframer, sent, wanted):
    """Sends, and waits for a frame that is wanted, whatever comes before it."""
    peer.sendall(sent)
    while frames := heard(peer, deframer, 5):
        if any(wanted(frame) for frame in frames):
            return True
    return False


def ticks(port, node):
    """The times between ticks, and what became of the session."""
    with connected(port) as peer:
        deframer, times = Deframer(), []
        if not answer(peer, deframer, CONTACT, lambda frame: frame == ACK0):
            return times, "no contact"
        if not answer(peer, deframer, sign_on(0xC9, node), lambda frame: isinstance(frame, Text)):
            return times, "no sign-on"
        last = time.monotonic()
        begin = last
        try:
            while len(times) < 12 and time.monotonic() < begin + 30:
                frames = heard(peer, deframer, 5)
                if not frames:
                    break
                now = time.monotonic()
                times += [now - last] + [0.0] * (len(frames) - 1)
                last = now
            peer.sendall(framed(b"\x80\x8f\xcf\x00"))
            end = "goes on" if heard(peer, deframer, 2) else "is over, connection kept"
        except (ConnectionError, OSError):
            end = f"is over, closed {1000 * (time.monotonic() - last):.0f} ms after"
    return times, end


def trial(options, busy, at):
    groups = one_beside(busy)
    before = at * (len(groups) - 1) // 2
    places = places_of(groups[1 : before + 1] + groups[:1] + groups[before + 1 :])
    places_in_order = list(places)
    silent = places.pop(sum(groups[1 : before + 1]))
    with Hub(options, table_of(places_in_order, 16)) as hub:
        with Crowd(lambda loop: [Busy(loop, place.port, place.node) for place in places]) as crowd:
            first, begin, _ = crowd.look()
            times, end = ticks(silent.port, silent.node)
            last, stop, _ = crowd.look("stop")
            exchanges = sum(one[1] for one in last) - sum(one[1] for one in first)
            gaps = " ".join(f"{1000 * one:.0f}" for one in times)
            end = end if hub.runs() else "the program has ended"
            row(WIDTHS, busy, PLACES[at], gaps, end, f"{exchanges / (stop - begin):.0f}")


def main():
    more = (("--busy",), {"type": int, "nargs": "*", "default": [1, 7, 63, 255], "help": "how many busy lines"})
    options = options_of(__doc__, more)
    row(WIDTHS, "busy", "place", "ms before each 3D", "the session", "exchanges/s")
    for busy in options.busy:
        for at in range(len(PLACES)):
            trial(options, busy, at)


if __name__ == "__main__":
    main()
