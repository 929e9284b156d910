"""Shows that lines over TCP/IP whose bytes come in random pieces do what a bisync line does that is whole.

    python3 examples/trials/tcp_cuts.py PROGRAM [--steps 40] [--seed 89]

One hub has six customers, each with LYON and METZ: the first on bisync lines that are whole; all others behind a relay
that cuts the bytes of each way into random pieces (far_lines.py): bisync lines, one over TCP/IP and one bisync, the
other way round, both over TCP/IP, and both over TCP/IP with the hub dialling. All customers are given the same steps,
in the same order, by chance: messages to and fro, files of all bytes and lengths, files while METZ is away, which are
held, released, cancelled and rerouted, LISTs, a session that ends in the middle of a file and comes up again. A step is
over once nobody has anything to say, and nothing came for a second.

What each person is told and is sent in a step is compared with the first customer's: texts in their order, and files
record by record. The table has a row for each customer: the messages and files that came, the bytes of records, how
often its sessions ended, and whether all of it is what the first customer had. The last line says "right", or the
script ends with status 1 and says how many rows are wrong.
"""

import random
import socket
import sys
import time

from far_lines import FarLines
from frames import GENERAL, command, file_of, message
from hub import Hub, customer_of, free_ports, line_of, options_of, row
from peers import FilePeer, Loop
from tcp_pairs import cards_of
from tcp_peers import TcpFilePeer

WIDTHS = (44, 10, 8, 12, 8, 6)

# How long a step may take, and how long nothing comes once it is over, in seconds.
PATIENCE, QUIET = 60, 1.1

# How many blocks each customer may have.
QUOTA = 8000

SIGN_OFF = bytes([GENERAL, 0xC2])

USERS = {"LYON": "ANNA", "METZ": "PAUL"}


class Bisync(FilePeer):
    def go_on(self):
        """The turn is the hub's: it asks."""


class Customer:
    """A customer whose lines are of these kinds: "bisync", "tcp", or "dialled" where the hub dials over TCP/IP."""

    def __init__(self, number, kinds, is_cut, seed):
        self.number, self.kinds, self.is_cut = number, dict(zip(USERS, kinds)), is_cut
        self.what = f"LYON {kinds[0]}, METZ {kinds[1]}{', cut' if is_cut else ', whole'}"
        self.listeners, self.targets = {}, dict(zip(USERS, free_ports(2)))
        for node, kind in self.kinds.items():
            if kind == "dialled":
                self.listeners[node] = socket.create_server(("127.0.0.1", self.targets[node]))
        self.far = FarLines([*self.targets.values()], seed=seed) if is_cut else None
        self.ports = dict(zip(USERS, self.far.ports)) if is_cut else self.targets
        self.people, self.seen, self.trace = {}, {}, []
        self.told = self.files = self.bytes = 0

    def entry(self):
        """Its entry in the table file."""
        lines = []
        for node, kind in self.kinds.items():
            name, tcp = f"c{self.number}{node.lower()}", {} if kind == "bisync" else {"protocol": "tcp"}
            if kind == "dialled":
                lines.append(line_of(name, node, "call", connect=f"127.0.0.1:{self.ports[node]}", **tcp))
            else:
                lines.append(line_of(name, node, port=self.targets[node], **tcp))
        routes = [(node, f"c{self.number}{node.lower()}") for node in USERS]
        return customer_of(f"C{self.number}", "BUREAU", QUOTA, lines, routes)

    def sign_on(self, loop, node):
        """The person at a node, on a new connection."""
        if self.kinds[node] == "bisync":
            self.people[node] = Bisync(loop, self.ports[node], node)
        else:
            self.people[node] = TcpFilePeer(loop, self.ports[node], node, listener=self.listeners.get(node))
        self.seen[node] = (0, 0)

    def is_up(self, node):
        return self.people[node].is_up

    def notes(self):
        """What came in a step."""
        found = []
        for node, person in self.people.items():
            told, files = self.seen[node]
            new = person.told[told:], sorted(map(repr, person.files[files:]))
            found.append((node, *new))
            self.told, self.files = self.told + len(new[0]), self.files + len(new[1])
            self.bytes += sum(len(record) for file in person.files[files:] for _, record in file)
            self.seen[node] = (len(person.told), len(person.files))
        self.trace.append(found)

    def count(self):
        """How much came and went, to see whether something does."""
        return [(len(one.told), len(one.files), one.place, sum(map(len, one.coming.values()))) for one in self.people.values()]

    def is_idle(self):
        """Whether nobody who is there has anything to say."""
        return all(one.is_closed or not (one.waits or one.to_send or one.state != "idle" or getattr(one, "waiting", b""))
                   for one in self.people.values())

    def close(self):
        if self.far:
            self.far.__exit__()
        for listener in self.listeners.values():
            listener.close()


class Steps:
    """What is done, of each customer alike."""

    def __init__(self, options, loop, customers):
        self.options, self.loop, self.customers, self.number, self.says = options, loop, customers, 0, []

    def each(self, what, act):
        """A step: an act for each customer, and what comes of it."""
        self.says.append(what)
        for customer in self.customers:
            act(customer)
        begin = moved = time.monotonic()
        count = None
        while time.monotonic() < moved + QUIET or not all(customer.is_idle() for customer in self.customers):
            self.loop.run(0.05)
            if (now := [customer.count() for customer in self.customers]) != count:
                count, moved = now, time.monotonic()
            if time.monotonic() > begin + PATIENCE:
                break
        for customer in self.customers:
            customer.notes()

    def says_message(self, chance):
        node, to = chance.sample(sorted(USERS), 2)
        count = chance.choice((1, 3, 20))
        texts = [f"{node} SAYS {self.number} {at} " + "X" * chance.randrange(60) for at in range(count)]
        self.each(f"{count} messages of {node}", lambda one: self.speaks(one, node, *(
            message(to, USERS[to], node, text) for text in texts)))

    @staticmethod
    def speaks(customer, node, *records):
        person = customer.people[node]
        person.waits.extend(records)
        person.go_on()

    def sends(self, chance):
        node, to = chance.sample(sorted(USERS), 2)
        file = file_of(self.number, node, USERS[node], to, USERS[to], cards_of(chance))
        self.each(f"file {self.number} of {node}", lambda one: self.begins(one, node, file))

    @staticmethod
    def begins(customer, node, file):
        customer.people[node].to_send.append(file)
        customer.people[node].go_on()

    def orders(self, *words):
        self.each(f"{' '.join(words)}", lambda one: self.speaks(one, "LYON", command("BUREAU", "LYON", "ANNA", " ".join(words))))

    def is_away(self, chance):
        """METZ signs off, and LYON's files wait for it. Then METZ is there again."""
        self.each("METZ signs off", lambda one: self.speaks(one, "METZ", SIGN_OFF))
        for customer in self.customers:
            customer.people["METZ"].close()
        numbers = []
        for _ in range(3):
            self.number += 1
            numbers.append(self.number)
            file = file_of(self.number, "LYON", "ANNA", "METZ", "PAUL", cards_of(chance))
            self.each(f"file {self.number} of LYON, METZ is away", lambda one, file=file: self.begins(one, "LYON", file))
        self.orders("HOLD", f"LYON.{numbers[0]}")
        self.orders("CANCEL", f"LYON.{numbers[1]}")
        self.orders("REROUTE", f"LYON.{numbers[2]}", "LYON")
        self.orders("LIST")
        self.comes("METZ")
        self.orders("RELEASE", f"LYON.{numbers[0]}")
        self.orders("LIST")

    def comes(self, node):
        """A person connects, again if the hub doesn't know yet that the connection before has ended."""
        for customer in self.customers:
            customer.sign_on(self.loop, node)
        end = time.monotonic() + PATIENCE
        while not all(customer.is_up(node) for customer in self.customers) and time.monotonic() < end:
            for customer in self.customers:
                if customer.people[node].is_closed:
                    customer.sign_on(self.loop, node)
            self.loop.run(0.2)
        self.each(f"{node} is there", lambda one: None)

    def is_torn(self, chance):
        """LYON's connection ends in the middle of a file, which it sends again in the next session."""
        cards = [chance.randbytes(200) for _ in range(3000)]
        file = file_of(self.number, "LYON", "ANNA", "METZ", "PAUL", cards)
        for customer in self.customers:
            self.begins(customer, "LYON", file)
            person = customer.people["LYON"]
            self.loop.run(20, lambda: person.place > 200)
            person.close()
        self.comes("LYON")
        self.each(f"file {self.number} of LYON, again", lambda one: self.begins(one, "LYON", file))

    def run(self):
        chance = random.Random(self.options.seed)
        for node in USERS:
            self.comes(node)
        while self.number < self.options.steps:
            self.number += 1
            kind = chance.random()
            if kind < 0.35:
                self.says_message(chance)
            elif kind < 0.75:
                self.sends(chance)
            elif kind < 0.85:
                self.orders("LIST")
            elif kind < 0.95:
                self.is_away(chance)
            else:
                self.is_torn(chance)


def differences(steps, customer, first):
    for what, found, wanted in zip(steps.says, customer.trace, first.trace):
        for (node, told, files), (_, wanted_told, wanted_files) in zip(found, wanted):
            if told != wanted_told:
                yield f"{what}: {node} was told {told[:3]}, and in the first {wanted_told[:3]}"
            if files != wanted_files:
                yield f"{what}: {node} has {len(files)} files, and in the first {len(wanted_files)}, or other records"


def main():
    options = options_of(
        __doc__,
        (("--steps",), {"type": int, "default": 40, "help": "how many steps there are; some are several"}),
        (("--seed",), {"type": int, "default": 89, "help": "of what chance they are"}),
    )
    kinds = [("bisync", "bisync"), ("tcp", "bisync"), ("bisync", "tcp"), ("tcp", "tcp"), ("dialled", "dialled")]
    loop = Loop()
    customers = [Customer(0, kinds[0], False, None)]
    customers += [Customer(1 + at, kind, True, options.seed + at) for at, kind in enumerate(kinds)]
    steps = Steps(options, loop, customers)
    table = f"capacity = {QUOTA * len(customers)}\n" + "".join(customer.entry() for customer in customers)
    with Hub(options, table) as hub:
        hub.serves()
        steps.run()
        log = hub.log()
        right = []
        row(WIDTHS, "lines", "messages", "files", "bytes", "ends", "")
        for customer in customers:
            own = [line for line in log if f" C{customer.number} " in line]
            downs = [line for line in own if "session down" in line]
            wrong = [*differences(steps, customer, customers[0])]
            wrong += [line for line in own if any(word in line for word in ("failed: ", "tries", "sequence"))
                      and "failed: a read or a write failed" not in line]  # so ends the connection that LYON tears
            right.append(not wrong and customer.files > 0 and len(downs) == ends_of(log, customers[0]))
            cells = (customer.told, customer.files, f"{customer.bytes:,}", len(downs))
            row(WIDTHS, customer.what, *cells, "right" if right[-1] else "WRONG")
            for why in wrong[:5]:
                print(f"    {why}")
        print(f"{len(steps.says)} steps")
    for customer in customers:
        customer.close()
    loop.close()
    print("right" if all(right) else f"{right.count(False)} rows are wrong")
    sys.exit(not all(right))


def ends_of(log, customer):
    return sum(f" C{customer.number} " in line and "session down" in line for line in log)


if __name__ == "__main__":
    main()
