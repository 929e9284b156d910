"""The program that the trials try, the table files that it serves, and the tables that the trials print.

Each trial takes the program as it was built as its first argument. `--old` is for a program that must be told its
turns: then it is given `--turns 1000000`, and lasts no longer than that. Everything is on loopback addresses, every
wait has an end, and what a trial started it also ends.
"""

import argparse
import os
import pathlib
import socket
import subprocess
import sys
import tempfile
import time

from frames import BLOCK


def free_ports(count):
    found = [socket.create_server(("127.0.0.1", 0)) for _ in range(count)]
    ports = [one.getsockname()[1] for one in found]
    for one in found:
        one.close()
    return ports


def line_of(name, node, role="answer", **more):
    """A line's entry in a table file."""
    text = f'[[customer.line]]\nname = "{name}"\nnode = "{node}"\nrole = "{role}"\nblock = {BLOCK}\nstreams = 4\n'
    return text + "".join(f"{key} = {value!r}\n".replace("'", '"') for key, value in more.items())


def customer_of(name, hub, quota, lines, routes, files=256):
    """A customer's entry in a table file, of the texts of its lines and the pairs of node and line of its routes."""
    text = f'[[customer]]\nname = "{name}"\nhub = "{hub}"\nquota = {quota}\nfiles = {files}\n' + "".join(lines)
    return text + "".join(f'[[customer.route]]\nnode = "{node}"\nline = "{line}"\n' for node, line in routes)


class Place:
    """A line of a table: its customer's number, its own within the customer, and its port."""

    def __init__(self, customer, line, port):
        self.customer, self.line, self.port = customer, line, port
        self.name, self.node = f"c{customer}l{line}", f"N{line}"


def places_of(groups):
    """Places for customers with so many lines each, on free ports."""
    ports = iter(free_ports(sum(groups)))
    return [Place(customer, line, next(ports)) for customer, count in enumerate(groups) for line in range(count)]


def one_beside(others):
    """How many lines each customer has: the first has one, the others share so many, 63 customers at most."""
    a_customer = max(4, -(-others // 63))
    return [1] + [min(a_customer, others - at) for at in range(0, others, a_customer)]


def table_of(places, quota=512):
    """The table file of these places: each node of a customer has a route by its own line."""
    customers = {}
    for place in places:
        customers.setdefault(place.customer, []).append(place)
    text = f"capacity = {quota * len(customers)}\n"
    for customer, own in customers.items():
        lines = [line_of(place.name, place.node, port=place.port) for place in own]
        text += customer_of(f"C{customer}", "BUREAU", quota, lines, [(place.node, place.name) for place in own])
    return text


class Hub:
    """The program, serving a table."""

    def __init__(self, options, table, *words, **given):
        self.folder = tempfile.TemporaryDirectory()
        os.chmod(self.folder.name, 0o755)
        self.table, self.told = pathlib.Path(self.folder.name, "tables.toml"), pathlib.Path(self.folder.name, "log")
        self.table.write_text(table)
        turns = ["--turns", "1000000"] if options.old else []
        with self.told.open("wb") as log:
            line = [options.program, "serve", "--tables", str(self.table), *turns, *words]
            self.process = subprocess.Popen(line, stdin=subprocess.DEVNULL, stdout=log, stderr=log, **given)

    def __enter__(self):
        return self

    def __exit__(self, *_):
        if self.runs():
            self.process.terminate()
            try:
                self.process.wait(timeout=5)
            except subprocess.TimeoutExpired:
                self.process.kill()
                self.process.wait()
        self.folder.cleanup()

    def runs(self):
        return self.process.poll() is None

    def serves(self, patience=20):
        """Waits until its lines listen, and nobody has connected."""
        end = time.monotonic() + patience
        while not any("ready: " in line for line in self.log()):
            if time.monotonic() > end or not self.runs():
                raise TimeoutError(f"the program isn't ready: {self.log()}")
            time.sleep(0.02)

    def log(self):
        """What the program has printed, line by line."""
        return self.told.read_text(errors="replace").splitlines()

    def seconds_used(self):
        """The seconds of processor that the program has used."""
        return seconds_used(self.process.pid)


def seconds_used(pid):
    times = pathlib.Path(f"/proc/{pid}/stat").read_text().rsplit(")", 1)[1].split()
    try:
        return int(pathlib.Path(f"/proc/{pid}/schedstat").read_text().split()[0]) / 1e9
    except (OSError, ValueError):
        return (int(times[11]) + int(times[12])) / os.sysconf("SC_CLK_TCK")


def connected(port, timeout=20, source=None, patience=20, to="127.0.0.1", **options):
    """A connection to a line, as soon as the program listens, which is tried for so many seconds."""
    end = time.monotonic() + patience
    while True:
        peer = socket.socket()
        for name, value in options.items():
            peer.setsockopt(socket.SOL_SOCKET, getattr(socket, name), value)
        try:
            peer.settimeout(timeout)
            if source:
                peer.bind((source, 0))
            peer.connect((to, port))
            peer.setsockopt(socket.IPPROTO_TCP, socket.TCP_NODELAY, 1)
            return peer
        except ConnectionRefusedError:
            peer.close()
            if time.monotonic() > end:
                raise
            time.sleep(0.02)


def options_of(doc, *more):
    """The arguments: the program, `--old`, and more, each as its words and settings for argparse."""
    parser = argparse.ArgumentParser(description=doc, formatter_class=argparse.RawDescriptionHelpFormatter)
    parser.add_argument("program", help="the program as it was built")
    parser.add_argument("--old", action="store_true", help="give the program --turns 1000000")
    for words, settings in more:
        parser.add_argument(*words, **settings)
    options = parser.parse_intermixed_args()
    options.program = str(pathlib.Path(options.program).resolve())
    sys.stdout.reconfigure(line_buffering=True)
    return options


def row(widths, *cells):
    """A row of a table: the first cell to the left, the others to the right."""
    first, *rest = zip(widths, cells)
    print("  ".join([f"{first[1]:<{first[0]}}"] + [f"{cell:>{width}}" for width, cell in rest]))
