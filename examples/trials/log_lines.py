"""Shows what the log of a served hub says of files, of a quota, of the console and of the end, next to what was done.

    python3 examples/trials/log_lines.py PROGRAM

ANNA at LYON sends files to PAUL at METZ, who takes one and refuses one; then files for a node that nobody knows, one
that fills nine tenths of the quota, twice, and one in whose midst her connection ends. Each step says which lines about
files and quotas the log is to have further, and no others; their times are left out. How many records and blocks a
file has is reckoned here from what was sent. A CANCEL of hers is told as well.

Then visitors come to the console, some of whom ask for what isn't there, order what can't be, or speak no HTTP, and the
operator ends the service: at once, and once no file is on a stream, while one is. There the lines are those of the
console. As the log tells ten requests in ten seconds that were refused, and counts those beyond, the eleventh waits.

The table has a row for each step, and whether the log has these lines; where it hasn't, they are printed.
"""

import contextlib
import re
import subprocess
import sys

from console import ConsoleHub, get, response
from frames import REFUSAL, REQUEST, command, ebcdic, file_of
from hub import Hub, customer_of, free_ports, line_of, options_of, row
from peers import FilePeer, Loop

WIDTHS = (70, 6)

QUOTA = 1000

# In so many seconds the log has ten lines of requests.
SPELL = 10

# How many bytes of records a block of the spool has, and how many a record takes besides its own.
BLOCK, HEAD = 252, 3


def file_to(number, node, count):
    """A file of ANNA for PAUL at this node, of so many cards."""
    return file_of(number, "LYON", "ANNA", node, "PAUL", [ebcdic(f"{place:04}".ljust(80)) for place in range(count)])


def told_of(number, file):
    """What the log says of a file for PAUL at METZ."""
    blocks = -(-sum(HEAD + len(record) for _, record in file) // BLOCK)
    return f"LYON.{number} of LYON.ANNA for METZ.PAUL, {len(file)} records, {blocks} blocks"


def told_cancel(number):
    """What the log says of ANNA's CANCEL."""
    return re.escape(f"ACME lyon: command of LYON.ANNA: CANCEL LYON.{number}: NJH005 LYON.{number} CANCELLED 1")


class Anna(FilePeer):
    """LYON's peer: what is refused isn't sent again."""

    def take(self, rcb, srcb, record):
        super().take(rcb, srcb, record)
        if rcb == REFUSAL:
            self.to_send.pop(0)

    def sends(self, file):
        """Sends a file, and says whether it was taken."""
        went, refused = self.went, self.refused
        self.to_send.append(file)
        self.loop.run(30, lambda: self.went > went or self.refused > refused)
        return self.went > went

    def asks(self, words, wanted):
        self.told.clear()
        self.waits.append(command("BUREAU", "LYON", "ANNA", words))
        return self.loop.run(10, lambda: any(text.startswith(wanted) for text in self.told))


class Paul(FilePeer):
    """METZ's peer, which takes files or refuses each."""

    refuses = False

    def take(self, rcb, srcb, record):
        if rcb == REQUEST and self.refuses:
            self.waits.append(bytes([REFUSAL, srcb, 0]))
        else:
            super().take(rcb, srcb, record)


class Steps:
    """Rows of the table, which look at the lines with one of these words."""

    def __init__(self, hub, loop, *words):
        self.hub, self.loop, self.words, self.seen, self.wrong = hub, loop, words, 0, 0

    def lines(self):
        """The lines that are looked at, without their times."""
        texts = [line.split(" ", 1)[-1] for line in self.hub.log()]
        return [text for text in texts if any(word in text for word in self.words)]

    def step(self, what, done, *wanted):
        """Something was done, and the log is to have these lines further."""
        self.loop.run(5, lambda: len(self.lines()) >= self.seen + len(wanted))
        self.loop.run(0.3)
        new = self.lines()[self.seen :]
        self.seen += len(new)
        right = done and len(new) == len(wanted) and all(map(re.fullmatch, wanted, new))
        self.wrong += not right
        row(WIDTHS, what, "right" if right else "WRONG")
        if not right:
            print("  wanted:", *wanted, "found:", *new, sep="\n    ")


def play(hub, ports):
    loop = Loop()
    steps = Steps(hub, loop, ": file ", ": command ", "blocks are used")
    anna = Anna(loop, ports[0], "LYON")
    loop.run(10, lambda: anna.is_up)
    to_and_from(loop, steps, anna, ports[1])
    refused(steps, anna)
    filled(loop, steps, anna)
    loop.close()
    return steps.wrong


def to_and_from(loop, steps, anna, port):
    """Files that PAUL takes and refuses."""
    file, other = file_to(42, "METZ", 20), file_to(43, "METZ", 1)
    told, refused = re.escape(told_of(42, file)), re.escape(told_of(43, other))
    steps.step("a file comes in", anna.sends(file), f"ACME lyon: file in: {told}")
    paul = Paul(loop, port, "METZ")
    done = loop.run(10, lambda: paul.files == [file])
    loop.run(0.5)
    steps.step("it goes out", done, f"ACME metz: file out: {told}")
    paul.refuses = True
    done = anna.sends(other)
    loop.run(0.5)
    wanted = f"ACME lyon: file in: {refused}", f"ACME metz: file refused: {refused}"
    steps.step("a file of one block comes in, and its peer refuses it", done, *wanted)
    cancelled = anna.asks("CANCEL LYON.43", "NJH005 LYON.43 CANCELLED 1")
    steps.step("its owner cancels it", cancelled, told_cancel(43))


def refused(steps, anna):
    """Files for a node that nobody knows."""
    refused = re.escape("ACME lyon: file in refused: SYSOUT 1, LYON.ANNA was told: NJH020 NODE NOWHERE UNKNOWN")
    done = not anna.sends(file_to(44, "NOWHERE", 100))
    steps.step("a file for no known node is refused", done, refused)
    done = not anna.sends(file_to(45, "NOWHERE", 1))
    steps.step("one of one block too, whose rest came at once", done, refused)


def filled(loop, steps, anna):
    """Files that fill nine tenths of the quota, which PAUL refuses, and one in whose midst the connection ends."""
    count = (QUOTA - 60) * BLOCK // (80 + HEAD)
    near = f"ACME: 9[0-9][0-9] of {QUOTA} blocks are used"
    for number in (46, 47):
        file = file_to(number, "METZ", count)
        told = re.escape(told_of(number, file))
        wanted = near, f"ACME lyon: file in: {told}", f"ACME metz: file refused: {told}"
        steps.step("a file fills nine tenths of the quota, and is refused", anna.sends(file), *wanted)
        cancelled = anna.asks(f"CANCEL LYON.{number}", f"NJH005 LYON.{number} CANCELLED 1")
        steps.step("its owner cancels it", cancelled, told_cancel(number))
    anna.to_send.append(file_to(48, "METZ", 500))
    done = loop.run(10, lambda: anna.state == "sending" and anna.place > 100)
    anna.close()
    steps.step("the connection ends in the midst of a file", done, "ACME lyon: file in cut off: SYSOUT 1")


def ask(hub, method, path, body=""):
    """Asks the console, and says the status of its answer."""
    with hub.visit() as visitor:
        head = f"{method} {path} HTTP/1.1\r\nHost: hub\r\nContent-Length: {len(body)}\r\n\r\n"
        visitor.sendall((head + body).encode())
        return response(visitor)[0]


def speak(hub, said):
    """Sends bytes that are no HTTP, and reads until the console ends the connection."""
    with hub.visit() as visitor, contextlib.suppress(OSError):
        visitor.sendall(said)
        while visitor.recv(4096):
            pass
    return True


def at_the_console(hub, loop):
    """What is told of visitors."""
    steps = Steps(hub, loop, "request", "operator", "no HTTP")
    with hub.visit() as visitor:
        done = get(visitor, "/v1/status")[0] == get(visitor, "/v1/customers/ACME/lines")[0] == 200
    steps.step("what is there is asked for", done and not hub.ctl("tell", "ACME", "LYON", "ANNA", "SOON")[0])
    orders = "/v1/customers/ACME/orders"
    refused = (
        ("GET", "/v1/nothing", "", 404, "there is nothing at /v1/nothing"),
        ("GET", "/v1/customers/NOBODY/files", "", 404, "no customer is called NOBODY"),
        ("DELETE", "/v1/status", "", 405, "this is asked by GET, HEAD"),
        ("POST", orders, "{", 400, "the body isn't an object of JSON"),
        ("POST", orders, '{"command":"HOLD LYON.7"}', 404, "the customer has no file LYON.7"),
        ("PUT", "/v1/lines/lyon", '{"state":"asleep"}', 400, "state is started or stopped"),
        ("GET", "/v1/orders/77", "", 404, "no order 77 is remembered"),
    )
    for method, path, body, status, sentence in refused:
        done = ask(hub, method, path, body) == status
        steps.step(f"{method} {path} {body}", done, re.escape(f"request refused: {sentence}"))
    done = hub.ctl("cancel", "ACME", "LYON.7")[0] == 1
    steps.step("ctl cancel of no file", done, "request refused: the customer has no file LYON.7")
    steps.step("bytes that are no HTTP", speak(hub, b"\x01\x2d\x10\x70 no HTTP\r\n\r\n"), "a request was no HTTP")
    long = b"POST /v1/stop HTTP/1.1\r\nHost: h\r\nContent-Length: 9000\r\n\r\n" + b"x" * 9000
    steps.step("a body of 9,000 bytes", speak(hub, long), "a request was no HTTP")
    half = b"GET /v1/status HTTP/1.1\r\nHost: h"
    loop.run(SPELL)
    with hub.visit() as visitor:
        visitor.sendall(half)
    steps.step("half a request, whose visitor leaves", True, "a request was no HTTP")
    steps.step("half a request, whose visitor is let go after two seconds", speak(hub, half))
    return steps


def status_of(hub):
    """The status with which the program ends, if it does within ten seconds."""
    with contextlib.suppress(subprocess.TimeoutExpired):
        return hub.process.wait(10)


def ended(options, table, ports):
    """What is told of visitors and of both ends of the service."""
    wrong, loop = 0, Loop()
    with ConsoleHub(options, table) as hub:
        hub.listens()
        steps = at_the_console(hub, loop)
        hub.prints("shutdown")
        done = status_of(hub) == 0
        steps.step("ctl shutdown, by which it ends with status 0", done, "the operator ends the service")
        wrong += steps.wrong
    with ConsoleHub(options, table) as hub:
        hub.listens()
        steps = Steps(hub, loop, "request", "operator", "no HTTP")
        anna = Anna(loop, ports[0], "LYON")
        loop.run(10, lambda: anna.is_up)
        anna.to_send.append(file_to(42, "METZ", 2000))
        comes = loop.run(10, lambda: anna.state == "sending" and anna.place > 100)
        hub.prints("shutdown", "--when-idle")
        told = "the operator ends the service once no file is on a stream"
        steps.step("ctl shutdown --when-idle, while a file comes", comes and hub.runs(), told)
        done = loop.run(20, lambda: anna.went == 1) and status_of(hub) == 0
        steps.step("the file is taken, and then it ends with status 0", done)
        wrong += steps.wrong
    loop.close()
    return wrong


def main():
    options, ports = options_of(__doc__), free_ports(2)
    lines = [line_of("lyon", "LYON", port=ports[0]), line_of("metz", "METZ", port=ports[1])]
    table = f"capacity = {QUOTA}\n" + customer_of("ACME", "BUREAU", QUOTA, lines, [("LYON", "lyon"), ("METZ", "metz")])
    row(WIDTHS, "step", "")
    with Hub(options, table) as hub:
        wrong = play(hub, ports)
    sys.exit(wrong + ended(options, table, ports) > 0)


if __name__ == "__main__":
    main()
