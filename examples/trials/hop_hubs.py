"""The hubs of hops.py: one on a core of its own, some in a row, and three in a ring, with relays on their lines."""

import os
import pathlib
import tempfile
import time

from hub import Hub, customer_of, free_ports, line_of
from peers import FilePeer
from relays import Relay


class Served(Hub):
    """The program with a table, with a spool file if there is to be one. The hub that is measured has the core that the
    options name, if they name one."""

    def __init__(self, options, table, is_measured=True):
        self.place = tempfile.TemporaryDirectory(prefix="hops.")
        words = ("--spool", str(pathlib.Path(self.place.name, "spool.db"))) if options.spool else ()
        pinned = is_measured and options.core is not None
        given = {"preexec_fn": lambda: os.sched_setaffinity(0, [options.core])} if pinned else {}
        super().__init__(options, table, *words, **given)

    def __exit__(self, *words):
        if not self.runs():
            print(f"the program has ended with status {self.process.returncode}: {self.log()[-2:]}")
        super().__exit__(*words)
        self.place.cleanup()

    def sessions(self):
        return sum("session up with" in line for line in self.log())


class Row:
    """LYON, so many hubs and METZ in a row, for so many customers. Each line dials to the right, but METZ dials the
    last hub, and each goes by the relay: a customer's are numbered from LYON on."""

    def __init__(self, options, customers, hubs):
        self.nodes = ["LYON", *(f"HUB{letter}" for letter in "ABC"[:hubs]), "METZ"]
        self.lines = hubs + 1
        self.ports = free_ports(customers * self.lines)
        self.relay = Relay(self.ports)
        self.hubs = []
        for place in reversed(range(1, hubs + 1)):
            text = f"capacity = {1000 * customers}\n"
            text += "".join(self.customer(number, place) for number in range(customers))
            self.hubs.insert(0, Served(options, text, place == 1))
        self.people = []

    def customer(self, number, place):
        """A customer's entry in the table of the hub at a place of the row."""
        behind, ahead, first = f"b{number}", f"a{number}", number * self.lines
        if place < self.lines - 1:
            way, role = {"connect": f"127.0.0.1:{self.relay.ports[first + place]}"}, "call"
        else:
            way, role = {"port": self.ports[first + place]}, "answer"
        lines = [
            line_of(behind, self.nodes[place - 1], port=self.ports[first + place - 1]),
            line_of(ahead, self.nodes[place + 1], role, **way),
        ]
        routes = [(node, behind if at < place else ahead) for at, node in enumerate(self.nodes) if at != place]
        return customer_of(f"C{number}", self.nodes[place], 1000, lines, routes)

    def sign_on(self, loop, metz=FilePeer):
        """Peers of LYON and METZ for each customer, signed on, and the hubs joined."""
        ports = self.relay.ports
        for first in range(0, len(ports), self.lines):
            ends = (FilePeer, first, "LYON"), (metz, first + self.lines - 1, "METZ")
            self.people.append([peer(loop, ports[line], node) for peer, line, node in ends])
        up = lambda: all(peer.is_up for pair in self.people for peer in pair) and self.are_joined()
        if not loop.run(60, up):
            raise TimeoutError(f"the lines don't come up: {[hub.log()[-2:] for hub in self.hubs]}")

    def are_joined(self):
        return all(hub.sessions() >= 2 * len(self.people) for hub in self.hubs)

    def __enter__(self):
        return self

    def __exit__(self, *words):
        self.relay.__exit__()
        for hub in self.hubs:
            hub.__exit__(*words)


class Ring:
    """Three hubs, each of which dials the next and has the route of NOWHERE there, so that what is for NOWHERE goes
    round. LYON has a line of HUBA, and another customer one too. The line from HUBA to HUBB goes by the relay."""

    NODES = ("HUBA", "HUBB", "HUBC")

    def __init__(self, options):
        self.lyon, self.other, *self.ports = free_ports(5)
        self.relay = Relay(self.ports[:1])
        self.hubs = [Served(options, self.table(place), place == 0) for place in range(3)]

    def table(self, place):
        """The table of the hub at a place of the ring. Each listens for the one before it."""
        behind, ahead = self.NODES[place - 1], self.NODES[(place + 1) % 3]
        port = self.relay.ports[0] if place == 0 else self.ports[place]
        lines = [
            line_of("behind", behind, port=self.ports[place - 1]),
            line_of("ahead", ahead, "call", connect=f"127.0.0.1:{port}"),
        ]
        routes = [(behind, "behind"), (ahead, "ahead"), ("NOWHERE", "ahead")]
        more = ""
        if place == 0:
            lines.append(line_of("lyon", "LYON", port=self.lyon))
            routes.append(("LYON", "lyon"))
            more = customer_of("OTHER", "BUREAU", 16, [line_of("other", "N0", port=self.other)], [("N0", "other")])
        return "capacity = 1016\n" + customer_of("RING", self.NODES[place], 1000, lines, routes) + more

    def wait(self):
        """Waits until the hubs are joined."""
        end = time.monotonic() + 60
        while not all(hub.sessions() >= 2 for hub in self.hubs):
            if time.monotonic() > end:
                raise TimeoutError("the hubs don't join")
            time.sleep(0.1)

    def __enter__(self):
        return self

    def __exit__(self, *words):
        self.relay.__exit__()
        for hub in self.hubs:
            hub.__exit__(*words)
