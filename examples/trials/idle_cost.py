"""Shows what the hub costs while its lines are silent, and while nobody is connected.

    python3 examples/trials/idle_cost.py PROGRAM [--old] [--seconds 60] [--lines 256]

The table has a row for each case: 256 lines that are signed on, each of which answers its tick by ACK0 and says
nothing else, and then nobody connected. It says how many seconds of processor the program used in the time (system
and user, from /proc), in percent of a core, how many frames the lines had each a minute, and how many are up at the
end. What is wanted: at most 1 % of a core, and at most 0.1 %.
"""

import time

from hub import Hub, connected, options_of, places_of, row, table_of
from peers import Crowd, Peer

WIDTHS = (28, 10, 8, 8, 16, 9)


def spent(hub, seconds):
    """The seconds of processor, and how long it was measured: the program may end."""
    begin, before = time.monotonic(), hub.seconds_used()
    used = 0.0
    while time.monotonic() < begin + seconds and hub.runs():
        time.sleep(0.05)
        if hub.runs():
            used = hub.seconds_used() - before
    return used, time.monotonic() - begin


def show(what, hub, used, lasted, frames="", up=""):
    row(WIDTHS, what, f"{lasted:.1f}", f"{used:.3f}", f"{100 * used / lasted:.2f}", frames, up)
    if not hub.runs():
        print(f"  the program has ended with status {hub.process.returncode}")


def connected_lines(options):
    places = places_of([4] * (options.lines // 4) + [options.lines % 4] * (options.lines % 4 > 0))
    with Hub(options, table_of(places, 16)) as hub:
        with Crowd(lambda loop: [Peer(loop, place.port, place.node) for place in places]) as crowd:
            time.sleep(2)
            before, _, _ = crowd.look()
            used, lasted = spent(hub, options.seconds)
            after, _, _ = crowd.look("stop")
            count = sum(one[1] for one in after) - sum(one[1] for one in before)
            up = sum(one[0] for one in after)
            frames = f"{60 * count / lasted / len(places):.0f}"
            show(f"{options.lines} lines answer ticks", hub, used, lasted, frames, up)


def nobody(options):
    places = places_of([4] * (options.lines // 4))
    with Hub(options, table_of(places, 16)) as hub:
        connected(places[-1].port).close()
        time.sleep(1)
        used, lasted = spent(hub, options.seconds)
        show("nobody connected", hub, used, lasted)


def main():
    options = options_of(
        __doc__,
        (("--seconds",), {"type": int, "default": 60, "help": "how long each case is measured"}),
        (("--lines",), {"type": int, "default": 256, "help": "how many lines"}),
    )
    row(WIDTHS, "case", "seconds", "used", "%", "frames a minute", "lines up")
    connected_lines(options)
    nobody(options)


if __name__ == "__main__":
    main()
