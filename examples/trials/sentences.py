"""Rows of the trials of what an operator is told and can order: each shows a sentence, and whether it is so.

A play is a generator that is given the options. It gives a sentence, whether it is so, and what was found. One that
ends by an exception has a wrong row for that, and the next one is played.
"""

import contextlib
import json
import os
import signal
import subprocess
import sys
import time

from console import ConsoleHub
from frames import ebcdic, file_of
from hub import customer_of, free_ports, line_of, options_of
from peers import FilePeer, Loop

# Who owns the files that come from LYON, and whom they and the messages are for, as the console has them.
ANNA, PAUL = {"node": "LYON", "user": "ANNA"}, {"node": "METZ", "user": "PAUL"}

ORDERS, MESSAGES, STOP = "/v1/customers/ACME/orders", "/v1/customers/ACME/messages", "/v1/stop"


def show(doc, plays, *more):
    """Plays all, or those that the arguments name, and ends the script with status 1 if a row is wrong."""
    names = ", ".join(play.__name__ for play in plays)
    what = (("plays",), {"nargs": "*", "metavar": "PLAY", "help": f"{names}; all where none is named"})
    options = options_of(doc, *more, what)
    right = []
    for play in plays:
        if not options.plays or play.__name__ in options.plays:
            print(play.__name__)
            right += played(play, options)
    print("right" if all(right) else f"{right.count(False)} of {len(right)} rows are wrong")
    sys.exit(not all(right))


def played(play, options):
    """Prints the rows of a play, and says which are right."""
    right = []
    try:
        for sentence, is_so, found in play(options):
            right.append(bool(is_so))
            tell(is_so, sentence, found)
    except Exception as error:  # whatever ends a play is a wrong row, and the next one goes on
        right.append(False)
        tell(False, f"{play.__name__} goes to its end", f"{type(error).__name__}: {error}")
    return right


def tell(is_so, sentence, found):
    print(f"  {'right' if is_so else 'WRONG'}  {sentence}")
    if str(found):
        print(f"         {' '.join(str(found).split())[:300]}")


class Answer:
    """What the console answered."""

    def __init__(self, head, body):
        self.status, self.body = int(head.split(None, 2)[1]), body
        pairs = (line.split(":", 1) for line in head.decode().split("\r\n")[1:])
        self.fields = {name.lower(): value.strip() for name, value in pairs}

    @property
    def told(self):
        """The members of its body, none where it isn't an object."""
        with contextlib.suppress(ValueError):
            found = json.loads(self.body)
            if isinstance(found, dict):
                return found
        return {}

    @property
    def error(self):
        return str(self.told.get("error", ""))

    def __str__(self):
        return f"{self.status} {self.body.decode(errors='replace')}"


def request(method, path, body=None):
    """A request as it is sent; a body that is no text is written as JSON."""
    text = body if isinstance(body, str) or body is None else json.dumps(body)
    length = "" if text is None else f"Content-Length: {len(text.encode())}\r\n"
    return f"{method} {path} HTTP/1.1\r\nHost: hub\r\n{length}\r\n{text or ''}".encode()


def answer_on(visitor, method="GET"):
    """The next answer on a connection."""
    data = b""
    while b"\r\n\r\n" not in data:
        data += more_on(visitor)
    head, body = data.split(b"\r\n\r\n", 1)
    answer = Answer(head, body)
    length = 0 if method == "HEAD" else int(answer.fields.get("content-length", 0))
    while len(answer.body) < length:
        answer.body += more_on(visitor)
    return answer


def more_on(visitor):
    more = visitor.recv(65536)
    if not more:
        raise ConnectionError("closed without an answer")
    return more


def bureau_table(ports, acme=(), quota=1000, files=400):
    """ACME has lines to LYON (a1), METZ (a2) and PARIS (a3), and these routes besides; BOLT has one to ROME (b1)."""
    lines = [line_of(f"a{at + 1}", node, port=ports[at]) for at, node in enumerate(("LYON", "METZ", "PARIS"))]
    routes = [("LYON", "a1"), ("METZ", "a2"), ("PARIS", "a3"), *acme]
    text = f"capacity = {2 * quota}\n" + customer_of("ACME", "BUREAU", quota, lines, routes, files)
    return text + customer_of("BOLT", "BUREAU", quota, [line_of("b1", "ROME", port=ports[3])], [("ROME", "b1")], files)


class Bureau(ConsoleHub):
    """The program with the table of `bureau_table`, and a loop for its peers, which goes on while it is run."""

    def __init__(self, options, *words, ports=None, table=None, **given):
        self.ports, self.loop = ports or free_ports(4), Loop()
        super().__init__(options, table or bureau_table(self.ports), *words, **given)

    def __enter__(self):
        self.listens()
        self.serves()
        return self

    def __exit__(self, *words):
        with contextlib.suppress(OSError):
            self.process.send_signal(signal.SIGCONT)
        super().__exit__(*words)
        self.loop.close()

    def asks(self, method, path, body=None, timeout=10):
        """The answer to a request on a connection of its own."""
        with self.visit(timeout) as visitor:
            visitor.sendall(request(method, path, body))
            return answer_on(visitor, method)

    def outcome(self, key):
        """What the console tells of an order, once it doesn't wait any more."""
        end = time.monotonic() + 3
        while (answer := self.asks("GET", f"/v1/orders/{key}")).status == 409 and time.monotonic() < end:
            time.sleep(0.02)
        return answer

    def listed(self, what, customer="ACME"):
        """The lines or files of a customer, as the console has them."""
        found, place = [], 0
        while place is not None:
            told = self.asks("GET", f"/v1/customers/{customer}/{what}?from={place}").told
            found += told[what]
            place = told["next"]
        return found

    def line(self, name, customer="ACME"):
        return next(line for line in self.listed("lines", customer) if line["name"] == name)

    def has_file(self, name):
        return any(file["name"] == name for file in self.listed("files"))

    def sends(self, *files):
        """LYON's peer sends these files, and leaves."""
        lyon = self.peer(0, "LYON")
        lyon.to_send += files
        speaks(lyon)
        assert self.loop.run(20, lambda: lyon.went == len(files)), f"{lyon.went} of {len(files)} files went"
        lyon.close()

    def peer(self, at, node, make=FilePeer):
        """A peer with a session on a line."""
        peer = make(self.loop, self.ports[at], node)
        assert self.loop.run(15, lambda: peer.is_up), f"no session with {node}"
        return peer

    def texts_at(self, at, node, seconds=1.5):
        """The texts of the messages that wait for a line whose peer comes now."""
        peer = self.peer(at, node)
        self.loop.run(seconds)
        peer.close()
        return peer.told

    @contextlib.contextmanager
    def frozen(self):
        """The hub does nothing meanwhile: what comes waits in its sockets."""
        self.process.send_signal(signal.SIGSTOP)
        try:
            yield
        finally:
            self.process.send_signal(signal.SIGCONT)

    def ends(self, seconds):
        """Whether the program ends within so many seconds."""
        with contextlib.suppress(subprocess.TimeoutExpired):
            self.process.wait(seconds)
        return not self.runs()

    def says(self, *words):
        """The lines of the log that have all of these."""
        return [line for line in self.log() if all(word in line for word in words)]

    def comes_to_say(self, *words, patience=3):
        """The same, once there is one."""
        end = time.monotonic() + patience
        while not (found := self.says(*words)) and time.monotonic() < end:
            time.sleep(0.05)
        return found

    def timed(self, *words):
        """What `ctl` ended with, its output and errors in one text, and how long it took."""
        begin = time.monotonic()
        status, out, err = self.ctl(*words)
        return status, out + err, time.monotonic() - begin


def file_to(number, node="METZ", user="ANNA", cards=2):
    """A file of a user at LYON for PAUL at a node."""
    records = [ebcdic(f"{place:04}".ljust(80)) for place in range(cards)]
    return file_of(number, "LYON", user, node, "PAUL", records)


def speaks(peer):
    """A peer says what waits, as it may at any time: at rest the hub would ask it seconds later."""
    peer.loop.run(0.05)
    peer.answer()


def renew(hub, text):
    """Another table file takes the place of the one that the hub has, as an operator does it."""
    new = hub.table.with_suffix(".new")
    new.write_text(text)
    os.replace(new, hub.table)
