"""Shows what a line over TCP/IP carries in a second, and how long a message waits for it, side by side with a bisync one.

    python3 examples/trials/tcp_rate.py PROGRAM [--runs 3] [--messages 60] [--megabytes 4] [--delay 25]

Three kinds of lines are measured, each with bisync and over TCP/IP, and both run at the same time and take turns, so
that what else the machine does falls on both:

- two hubs that are joined by such a line, with ANNA at LYON on a bisync line of the first and PAUL at METZ on one of
  the second;
- the same, where each way of the line between the hubs takes 25 milliseconds more, so that an answer takes 50 (by
  `far_lines.py`: this needs no kernel that has netem). A tenth of the megabytes is sent there;
- one hub, and the lines of both are such.

The table has a row for each: how long a message takes from ANNA to PAUL on lines at rest, in milliseconds, half of them
and nine tenths; the same beside a file; and how many megabytes of records a second files take, the median of the runs.
Below each pair of rows stands what the line over TCP/IP is to do: no median above that of the bisync line by more than
a tenth and a millisecond, and no fewer megabytes a second than nine tenths; with the delay at least twice as many. The
last line says "right", or the script ends with status 1.
"""

import random
import statistics
import sys
import time

from frames import MESSAGE, file_of, message
from far_lines import FarLines
from hub import Hub, customer_of, free_ports, line_of, options_of, row
from peers import FilePeer, Loop
from tcp_peers import TcpFilePeer

WIDTHS = (34, 10, 10, 10, 10, 10)

# How long a message may take, and a run of files, in seconds.
PATIENCE = 120


class Timed:
    """Notes when messages came."""

    moments = None

    def take(self, rcb, srcb, record):
        if rcb == MESSAGE and record:
            self.moments = (self.moments or []) + [time.monotonic()]
        super().take(rcb, srcb, record)


class BisyncPeer(Timed, FilePeer):
    def go_on(self):
        self.answer()


class TcpPeer(Timed, TcpFilePeer):
    pass


class Joined:
    """Two hubs that are joined by a line of a protocol, with a delay or without, or one hub whose lines are of it."""

    def __init__(self, options, loop, protocol, delay, is_one_hub=False):
        self.loop, self.protocol, self.hubs, self.far = loop, protocol, [], None
        self.number, self.times = 0, {}
        lyon, metz, port = free_ports(3)
        if is_one_hub:
            lines = [line_of("lyon", "LYON", port=lyon, protocol=protocol), line_of("metz", "METZ", port=metz, protocol=protocol)]
            self.serve(options, "BUREAU", lines, [("LYON", "lyon"), ("METZ", "metz")])
            peer = TcpPeer if protocol == "tcp" else BisyncPeer
        else:
            self.far = FarLines([port], delay / 1000) if delay else None
            to = self.far.ports[0] if self.far else port
            second = [line_of("metz", "METZ", port=metz), line_of("joined", "HUBA", port=port, protocol=protocol)]
            self.serve(options, "HUBB", second, [("METZ", "metz"), ("HUBA", "joined"), ("LYON", "joined")])
            first = [line_of("lyon", "LYON", port=lyon),
                     line_of("joined", "HUBB", "call", connect=f"127.0.0.1:{to}", protocol=protocol)]
            self.serve(options, "HUBA", first, [("LYON", "lyon"), ("HUBB", "joined"), ("METZ", "joined")])
            peer = BisyncPeer
        self.anna, self.paul = peer(loop, lyon, "LYON"), peer(loop, metz, "METZ")
        up = lambda: self.anna.is_up and self.paul.is_up and all(sum("session up" in line for line in hub.log()) == 2 for hub in self.hubs)
        if not loop.run(30, up):
            raise TimeoutError(f"the lines don't come up: {[hub.log()[-3:] for hub in self.hubs]}")

    def serve(self, options, name, lines, routes):
        self.hubs.append(Hub(options, "capacity = 60000\n" + customer_of("ACME", name, 60000, lines, routes)))
        self.hubs[-1].serves()

    def times_message(self, kind):
        """Says a message, and notes how long it took."""
        count, begin = len(self.paul.moments or []), time.monotonic()
        self.number += 1
        self.anna.waits.append(message("METZ", "PAUL", "LYON", f"NUMBER {self.number}"))
        if self.anna.state == "idle":
            self.anna.go_on()
        if not self.loop.run(PATIENCE, lambda: len(self.paul.moments or []) > count):
            raise TimeoutError(f"message {self.number} didn't come")
        self.times.setdefault(kind, []).append(1000 * (self.paul.moments[count] - begin))

    def times_files(self, files, beside=False):
        """Sends files, and notes how many megabytes a second they were; beside them messages, if they are wanted."""
        wanted, begin = len(self.paul.files) + len(files), time.monotonic()
        self.anna.to_send.extend(files)
        self.anna.go_on()
        while len(self.paul.files) < wanted:
            if beside:
                self.times_message("beside")
                self.loop.run(0.05)
            elif not self.loop.run(PATIENCE, lambda: len(self.paul.files) >= wanted):
                raise TimeoutError(f"the files didn't come: {len(self.paul.files)} of {wanted}")
        size = sum(len(record) for file in files for _, record in file)
        if not beside:
            self.times.setdefault("files", []).append(size / 1e6 / (time.monotonic() - begin))

    def figures(self):
        rest, beside = sorted(self.times["rest"]), sorted(self.times["beside"])
        most = lambda found: found[min(len(found) - 1, 9 * len(found) // 10)]
        return (statistics.median(rest), most(rest), statistics.median(beside), most(beside), statistics.median(self.times["files"]))

    def ends(self):
        return [line for hub in self.hubs for line in hub.log() if "session down" in line or "failed" in line]

    def close(self):
        if self.far:
            self.far.__exit__()
        for hub in self.hubs:
            hub.__exit__()


def files_of(megabytes, number):
    """Four files of so many megabytes of records."""
    chance = random.Random(number)
    count = max(1, int(megabytes * 1e6 / 4 / 200))
    return [file_of(10 * number + at, "LYON", "ANNA", "METZ", "PAUL", [chance.randbytes(200) for _ in range(count)]) for at in range(4)]


def measured(options, what, delay, is_one_hub=False):
    loop, pair, megabytes = Loop(), [], options.megabytes / (10 if delay else 1)
    try:
        for protocol in ("bisync", "tcp"):
            pair.append(Joined(options, loop, protocol, delay, is_one_hub))
        loop.run(3)
        chance = random.Random(7)
        for _ in range(options.messages):
            for one in pair:
                one.times_message("rest")
                loop.run(chance.uniform(0.05, 0.3))
        for number in range(options.runs):
            for one in pair:
                one.times_files(files_of(megabytes, number + 1))
                loop.run(0.2)
        for one in pair:
            one.times_files(files_of(megabytes, 99), beside=True)
        return shown(what, pair, bool(delay))
    finally:
        for one in pair:
            one.close()
        loop.close()


def shown(what, pair, is_far):
    figures = [one.figures() for one in pair]
    for one, found in zip(pair, figures):
        row(WIDTHS, f"{what}, {one.protocol}", *(f"{figure:.2f}" for figure in found))
    bisync, tcp = figures
    least = 2.0 if is_far else 0.9
    wrong = [name for name, at in (("at rest", 0), ("beside files", 2)) if tcp[at] > 1.1 * bisync[at] + 1]
    wrong += ["megabytes a second"] * (tcp[4] < least * bisync[4])
    wrong += [line for one in pair for line in one.ends()]
    print(f"    {'as wanted' if not wrong else 'WRONG: ' + '; '.join(wrong)}")
    return not wrong


def main():
    options = options_of(
        __doc__,
        (("--runs",), {"type": int, "default": 3, "help": "how many runs of files there are"}),
        (("--messages",), {"type": int, "default": 60, "help": "how many messages are timed on lines at rest"}),
        (("--megabytes",), {"type": float, "default": 4, "help": "how many megabytes of records a run has"}),
        (("--delay",), {"type": float, "default": 25, "help": "milliseconds that each way takes more"}),
    )
    row(WIDTHS, "", "at rest", "90 %", "beside", "90 %", "MB/s")
    right = [
        measured(options, "joined hubs", 0.0),
        measured(options, f"joined hubs, {2 * options.delay:g} ms", options.delay),
        measured(options, "peers of a hub", 0.0, is_one_hub=True),
    ]
    print("right" if all(right) else f"{right.count(False)} rows are wrong")
    sys.exit(not all(right))


if __name__ == "__main__":
    main()
