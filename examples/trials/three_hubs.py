"""Shows three hubs in a row, joined by lines that dial, and a file that crosses them.

    python3 examples/trials/three_hubs.py PROGRAM [--old]

HUBA has the line of LYON, HUBC that of METZ; HUBA dials HUBB and HUBB dials HUBC (`connect` in the table file). ANNA
at LYON sends a file to PAUL at METZ. HUBC isn't started yet, so the file waits at HUBB: she lists it there, holds it,
and only then HUBC is started. She releases it, it goes on to HUBC, and as METZ isn't there yet it waits again: she
holds it there, METZ signs on and gets nothing, she releases it, and METZ gets it. Each command goes to its hub as a
nodal message, from hub to hub, and its reply comes back so.

The table has a row for each step: how many seconds it took, and whether it came out as it should. With `--old` the
lines that would dial listen, and a process of this script joins each to the other hub's, so that all but the dialling
is tried.
"""

import multiprocessing
import select
import socket
import sys
import time

from frames import command, ebcdic, file_of
from hub import Hub, customer_of, free_ports, line_of, options_of, row
from peers import FilePeer, Loop

WIDTHS = (58, 8, 6)

HUBS = ("HUBA", "HUBB", "HUBC")

TEXTS = [f"{number:04} THE QUICK BROWN FOX JUMPS OVER THE LAZY DOG".ljust(80) for number in range(200)]
CARDS = [ebcdic(text) for text in TEXTS] + [bytes(range(80)), b"\x10" * 80]

FILE = file_of(42, "LYON", "ANNA", "METZ", "PAUL", CARDS)

LISTED = "NJH001 LYON.42 TO METZ PAUL OUT 205 RECORDS READY"


class Row:
    """The three hubs: their ports and table files."""

    def __init__(self, options):
        self.options = options
        self.lyon, self.ab, self.bc, self.metz, self.dial_ab, self.dial_bc = free_ports(6)

    def dialling(self, name, node, port, own):
        """A line that calls the next hub at this port; it listens on one of its own where a program can't dial."""
        way = {"port": own} if self.options.old else {"connect": f"127.0.0.1:{port}"}
        return line_of(name, node, "call", **way)

    def table(self, hub):
        behind, ahead = {
            "HUBA": (line_of("behind", "LYON", port=self.lyon), self.dialling("ahead", "HUBB", self.ab, self.dial_ab)),
            "HUBB": (line_of("behind", "HUBA", port=self.ab), self.dialling("ahead", "HUBC", self.bc, self.dial_bc)),
            "HUBC": (line_of("behind", "HUBB", port=self.bc), line_of("ahead", "METZ", port=self.metz)),
        }[hub]
        nodes = ["LYON", *HUBS, "METZ"]
        place = nodes.index(hub)
        routes = [(node, "behind" if at < place else "ahead") for at, node in enumerate(nodes) if at != place]
        return "capacity = 1000\n" + customer_of("ACME", hub, 1000, [behind, ahead], routes)

    def hub(self, name):
        return Hub(self.options, self.table(name))


def join(port, other):
    """Hands on bytes between two ports of this machine, and connects again a second after an end."""
    end = time.monotonic() + 300
    while time.monotonic() < end:
        try:
            with socket.create_connection(("127.0.0.1", port)) as one:
                with socket.create_connection(("127.0.0.1", other)) as two:
                    hand_on(one, two, end)
        except OSError:
            pass
        time.sleep(1)


def hand_on(one, two, end):
    for peer in (one, two):
        peer.setsockopt(socket.IPPROTO_TCP, socket.TCP_NODELAY, 1)
    while time.monotonic() < end:
        for peer in select.select([one, two], [], [], 1)[0]:
            data = peer.recv(65536)
            if not data:
                return
            (two if peer is one else one).sendall(data)


class Anna(FilePeer):
    """LYON's peer: says commands of ANNA, and keeps what she is told."""

    def ask(self, hub, words):
        self.told.clear()
        self.waits.append(command(hub, "LYON", "ANNA", words))

    def asks_until(self, hub, words, wanted, seconds):
        """Asks every second until she is told what is wanted."""
        end, found = time.monotonic() + seconds, lambda: any(text.startswith(wanted) for text in self.told)
        while not found() and time.monotonic() < end and not self.is_closed:
            self.ask(hub, words)
            self.loop.run(2.5, found)
        return found()


class Steps:
    """The rows of the table."""

    def __init__(self):
        self.wrong = 0
        row(WIDTHS, "step", "seconds", "")

    def step(self, what, done):
        """Does something, and says whether it came out so."""
        begin = time.monotonic()
        right = done()
        self.wrong += not right
        row(WIDTHS, what, f"{time.monotonic() - begin:.1f}", "right" if right else "WRONG")


def to_middle(hubs, steps, anna, started):
    """The file comes to HUBB and is held there, and HUBC is started."""
    told = anna.asks_until
    steps.step("LYON signs on at HUBA", lambda: anna.loop.run(10, lambda: anna.is_up))
    steps.step("HUBA has dialled HUBB: LIST there is answered", lambda: told("HUBB", "LIST", "NJH002 0", 30))
    anna.to_send.append(FILE)
    steps.step("the file goes to HUBA", lambda: anna.loop.run(20, lambda: anna.went == 1))
    steps.step("and waits at HUBB", lambda: told("HUBB", "LIST", LISTED, 20))
    steps.step("HOLD at HUBB", lambda: told("HUBB", "HOLD LYON.42", "NJH003 LYON.42 HELD 1", 10))
    started.append(hubs.hub("HUBC"))
    steps.step("HUBC is started, HUBB dials it: LIST, no file", lambda: told("HUBC", "LIST", "NJH002 0", 40))
    anna.loop.run(3)
    steps.step("three seconds later there is none", lambda: told("HUBC", "LIST", "NJH002 0", 3))
    steps.step("RELEASE at HUBB", lambda: told("HUBB", "RELEASE LYON.42", "NJH004 LYON.42 RELEASED 1", 10))


def to_end(hubs, steps, anna):
    """The file comes to HUBC, is held and released there, and goes to METZ."""
    told, run = anna.asks_until, anna.loop.run
    steps.step("the file waits at HUBC", lambda: told("HUBC", "LIST", LISTED, 20))
    steps.step("HOLD at HUBC", lambda: told("HUBC", "HOLD LYON.42", "NJH003 LYON.42 HELD 1", 10))
    metz = FilePeer(anna.loop, hubs.metz, "METZ")
    steps.step("METZ signs on at HUBC", lambda: run(10, lambda: metz.is_up))
    steps.step("and gets nothing in three seconds", lambda: not run(3, lambda: metz.files or metz.coming))
    steps.step("RELEASE at HUBC", lambda: told("HUBC", "RELEASE LYON.42", "NJH004 LYON.42 RELEASED 1", 10))
    steps.step("METZ gets the file, as it was sent", lambda: run(20, lambda: metz.files == [FILE]))
    for hub in HUBS:
        steps.step(f"no file is left at {hub}", lambda: told(hub, "LIST", "NJH002 0", 10))


def play(hubs):
    loop, steps, started = Loop(), Steps(), []
    try:
        started += [hubs.hub("HUBB"), hubs.hub("HUBA")]
        anna = Anna(loop, hubs.lyon, "LYON")
        to_middle(hubs, steps, anna, started)
        to_end(hubs, steps, anna)
        return steps.wrong
    finally:
        loop.close()
        for name, hub in zip(("HUBB", "HUBA", "HUBC"), started):
            for line in hub.log():
                print(f"  {name}: {line}")
            hub.__exit__()


def main():
    options = options_of(__doc__)
    hubs, joins = Row(options), []
    if options.old:
        for ends in ((hubs.dial_ab, hubs.ab), (hubs.dial_bc, hubs.bc)):
            joins.append(multiprocessing.get_context("fork").Process(target=join, args=ends, daemon=True))
            joins[-1].start()
    try:
        wrong = play(hubs)
    finally:
        for one in joins:
            one.kill()
    sys.exit(wrong > 0)


if __name__ == "__main__":
    main()
