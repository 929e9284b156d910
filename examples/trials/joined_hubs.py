"""Shows that hubs which are joined keep their sessions, whoever calls and whoever dials.

    python3 examples/trials/joined_hubs.py PROGRAM [--minutes 10]

Four pairs of hubs run side by side, HUBA and HUBB of each joined by a line: either calls, and either dials (`connect`
in the table file). ANNA at LYON is on a line of HUBA, PAUL at METZ on one of HUBB. For so many minutes ANNA and PAUL
send each other messages, ask the other's hub for LIST, and send each other files, one thing after the other with rests
of 0.5 to 9 seconds between them, in which nothing follows what was sent last.

The table has a row for each pair: who calls and dials, how many messages, replies and files came, the longest time that
one took in seconds, how often the session of the line between the hubs went up and down, and whether that is right: up
once on each hub and never down, and all that was sent came. Below stand the lines of the log of what went down.
"""

import random
import sys
import time

from frames import command, ebcdic, file_of, message
from hub import Hub, customer_of, free_ports, line_of, options_of, row
from peers import FilePeer, Loop

WIDTHS = (22, 9, 8, 6, 8, 4, 5, 6)

CARDS = [ebcdic(f"{number:04} THE QUICK BROWN FOX JUMPS OVER THE LAZY DOG".ljust(80)) for number in range(40)]


class Person(FilePeer):
    """A user at a node, with another at the far end."""

    def __init__(self, loop, port, node, user):
        super().__init__(loop, port, node)
        self.user, self.number = user, 0

    def tell(self, other):
        self.number += 1
        text = f"{self.node} {self.number}"
        self.waits.append(message(other.node, other.user, self.node, text))
        return lambda: any(text in told for told in other.told)

    def ask(self, other):
        self.told.clear()
        self.waits.append(command(other.hub, self.node, self.user, "LIST"))
        return lambda: any(told.startswith("NJH002") for told in self.told)

    def send(self, other):
        self.number += 1
        self.to_send.append(file_of(self.number, self.node, self.user, other.node, other.user, CARDS))
        wanted = len(other.files) + 1
        return lambda: len(other.files) == wanted


class Pair:
    """Two hubs that are joined, with a user of each."""

    def __init__(self, options, loop, calls, dials):
        self.what = f"HUB{calls} calls, HUB{dials} dials"
        self.lyon, self.metz, joined = free_ports(3)
        way = lambda hub: {"connect": f"127.0.0.1:{joined}"} if hub == dials else {"port": joined}
        role = lambda hub: "call" if hub == calls else "answer"
        first = [line_of("lyon", "LYON", port=self.lyon), line_of("joined", "HUBB", role("A"), **way("A"))]
        second = [line_of("metz", "METZ", port=self.metz), line_of("joined", "HUBA", role("B"), **way("B"))]
        routes = [("LYON", "lyon"), ("HUBB", "joined"), ("METZ", "joined")]
        back = [("METZ", "metz"), ("HUBA", "joined"), ("LYON", "joined")]
        self.hubs = [
            Hub(options, "capacity = 1000\n" + customer_of("ACME", "HUBA", 1000, first, routes)),
            Hub(options, "capacity = 1000\n" + customer_of("ACME", "HUBB", 1000, second, back)),
        ]
        self.people = [Person(loop, self.lyon, "LYON", "ANNA"), Person(loop, self.metz, "METZ", "PAUL")]
        self.people[0].hub, self.people[1].hub = "HUBA", "HUBB"
        self.came, self.longest, self.missing, self.waits, self.begun, self.next = [0, 0, 0], 0.0, [], None, 0.0, 0.0

    def is_up(self):
        ups = [sum("joined: session up" in line for line in hub.log()) for hub in self.hubs]
        return all(ups) and all(person.is_up for person in self.people)

    def go_on(self, chance, now):
        """Sees whether what was sent came, and sends the next."""
        if self.waits:
            kind, came = self.waits
            if came():
                self.came[kind] += 1
                self.longest = max(self.longest, now - self.begun)
            elif now < self.begun + 30:
                return
            else:
                self.missing.append(("message", "LIST", "file")[kind])
            self.waits, self.next = None, now + chance.uniform(0.5, 9)
        elif now >= self.next:
            kind, who = chance.randrange(3), chance.randrange(2)
            person, other = self.people[who], self.people[1 - who]
            self.begun = now
            self.waits = kind, (person.tell, person.ask, person.send)[kind](other)

    def row(self):
        logs = [hub.log() for hub in self.hubs]
        told = [line for log in logs for line in log if " joined: " in line]
        ups = sum("session up" in line for line in told)
        downs = [line for line in told if "session down" in line]
        right = ups == 2 and not downs and not self.missing and all(self.came)
        row(WIDTHS, self.what, *self.came, f"{self.longest:.1f}", ups, len(downs), "right" if right else "WRONG")
        for line in downs + [f"a {kind} didn't come" for kind in self.missing]:
            print(f"  {line}")
        return right


def main():
    options = options_of(__doc__, (("--minutes",), {"type": float, "default": 10, "help": "how long it goes on"}))
    loop, chance = Loop(), random.Random(58)
    pairs = [Pair(options, loop, calls, dials) for calls in "AB" for dials in "AB"]
    try:
        loop.run(20, lambda: all(pair.is_up() for pair in pairs))
        end = time.monotonic() + 60 * options.minutes
        while time.monotonic() < end:
            for pair in pairs:
                pair.go_on(chance, time.monotonic())
            loop.run(0.01)
        loop.run(20, lambda: all(not pair.waits or pair.waits[1]() for pair in pairs))
        row(WIDTHS, "the line between them", "messages", "replies", "files", "longest", "up", "down", "")
        right = [pair.row() for pair in pairs]
    finally:
        for pair in pairs:
            for hub in pair.hubs:
                hub.__exit__()
        loop.close()
    sys.exit(not all(right))


if __name__ == "__main__":
    main()
