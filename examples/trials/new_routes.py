"""Shows what a running hub makes of a table file that changes.

    python3 examples/trials/new_routes.py PROGRAM

ACME has the lines of LYON, METZ and PARIS, BOLT has one whose peer is busy. LYON sends a file to METZ, which isn't
there, so it waits. The table file then leads METZ to the line of PARIS, and the file goes out there. After that the
file has another quota, is broken, has 3 MB, is what it was before, and has nearly 2 MB with 32,580 routes: each is
looked at within a second, and the log says what came of it.

The table has a row for each step: how many seconds it took, the longest answer on the busy line in milliseconds, and
whether it came out as it should. That of the last is the pause that a table file of 2 MB costs all lines.
"""

import os
import sys
import time

from frames import ebcdic, file_of
from hub import Hub, customer_of, free_ports, line_of, options_of, row
from peers import Busy, Crowd, FilePeer, Loop

WIDTHS = (58, 8, 8, 6)

CARDS = [ebcdic(f"{number:04} THE QUICK BROWN FOX".ljust(80)) for number in range(200)]

FILE = file_of(42, "LYON", "ANNA", "METZ", "PAUL", CARDS)


# How many customers there are, and how many routes beyond its own each may have.
CUSTOMERS, MORE = 64, 509


def table_of(ports, metz="a2", quota=500, more=0):
    """The table file, where each customer has so many routes besides those that it needs."""
    lyon, paris, metz_port, bolt = ports
    acme = [line_of("a1", "LYON", port=lyon), line_of("a2", "METZ", port=metz_port), line_of("a3", "PARIS", port=paris)]
    nodes = [f"NODE{number:04}" for number in range(more)]
    routes = [("LYON", "a1"), ("METZ", metz), ("PARIS", "a3"), *((node, "a1") for node in nodes)]
    text = "capacity = 10000\n" + customer_of("ACME", "BUREAU", quota, acme, routes)
    routes = [("ROME", "b1"), *((node, "b1") for node in nodes)]
    text += customer_of("BOLT", "BUREAU", 500, [line_of("b1", "ROME", port=bolt)], routes)
    for number in range(2, CUSTOMERS):
        routes = [(node, f"x{number}") for node in nodes]
        text += customer_of(f"C{number}", "BUREAU", 50, [line_of(f"x{number}", "OSLO")], routes)
    return text


class Steps:
    """The rows of the table."""

    def __init__(self, hub, crowd, loop):
        self.hub, self.crowd, self.loop, self.wrong = hub, crowd, loop, 0
        row(WIDTHS, "step", "seconds", "longest", "")

    def write(self, text):
        """Changes the table file in one go."""
        other = self.hub.table.with_suffix(".new")
        other.write_text(text)
        os.replace(other, self.hub.table)

    def step(self, what, text, told, until=lambda: True):
        """Writes the table file and waits until the log says this, and something is so."""
        self.crowd.look()
        begin, before = time.monotonic(), len(self.hub.log())
        self.write(text)
        right = self.loop.run(20, lambda: any(told in line for line in self.hub.log()[before:]) and until())
        longest = max(peer[2] for peer in self.crowd.look()[0])
        self.wrong += not right
        row(WIDTHS, what, f"{time.monotonic() - begin:.1f}", f"{longest * 1000:.1f}", "right" if right else "WRONG")


def padded(text, size):
    """A table file with a comment that makes it so long."""
    return text + "#" * (size - len(text) - 1) + "\n"


def play(ports, hub, crowd, loop):
    lyon, paris, _, _ = ports
    steps = Steps(hub, crowd, loop)
    sender, taker = FilePeer(loop, lyon, "LYON"), FilePeer(loop, paris, "PARIS")
    loop.run(10, lambda: sender.is_up and taker.is_up)
    sender.to_send.append(FILE)
    waits = loop.run(10, lambda: sender.went == 1) and not loop.run(2, lambda: taker.files)
    steps.wrong += not waits
    row(WIDTHS, "a file for METZ came, and waits", "", "", "right" if waits else "WRONG")
    moved = table_of(ports, "a3")
    steps.step("METZ by the line of PARIS: the file goes out", moved, "ACME: new routes", lambda: taker.files == [FILE])
    steps.step("another quota", table_of(ports, "a2", 501), "customer ACME: its quota differs; no routes change")
    steps.step("no TOML", "capacity = \n", "K1 BadToml: line 1: no TOML; nothing changes")
    steps.step("3 MB", padded(moved, 3_000_000), "longer than 2000000 bytes; nothing changes")
    steps.step("as it was", moved, "no new routes")
    steps.step("METZ by its own line again", table_of(ports), "ACME: new routes")
    many = padded(table_of(ports, more=MORE), 1_999_000)
    steps.step("2 MB, with 509 routes more for each of 64 customers", many, "C63: new routes")
    return steps.wrong


def main():
    options = options_of(__doc__)
    ports, loop = free_ports(4), Loop()
    with Hub(options, table_of(ports)) as hub, Crowd(lambda loop: [Busy(loop, ports[3], "ROME")]) as crowd:
        try:
            wrong = play(ports, hub, crowd, loop)
        finally:
            loop.close()
            for line in hub.log():
                print(f"  {line}")
    sys.exit(wrong > 0)


if __name__ == "__main__":
    main()
