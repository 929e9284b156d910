#!/usr/bin/env python3
"""Writes the script of a row, and the table file that it is for, into a folder: scripts.py FOLDER ROW BYTES.

A row is one of ROWS below, or `block`, `list` or `hold` with one of BESIDE, as in `list-left`. A script has the bytes
that are asked for, to within a line. Of the row `largest` there is a table file alone, with as much in it as may be.
"""
import sys

ROWS = ["cards", "commands", "mixed", "empty", "ignored", "waiting", "routes", "reroute-job", "reroute-output"]

# The rows of which the cost of one event is asked for, beside the files of one user: for a line that is down, all of
# those that a customer may have, or half of them, or what is left where every other one was removed.
BESIDE = ["all", "half", "left"]

# How many files wait for a line that is down, in the row `waiting`.
WAITING = 1024

# How many cards the one file has that REROUTE is for, in `reroute-job` and `reroute-output`.
REROUTED = 3000

LETTERS = {"@": 0x7C, "#": 0x7B, "$": 0x5B, " ": 0x40, ".": 0x4B}
LETTERS.update({chr(65 + n): 0xC1 + n for n in range(9)})
LETTERS.update({chr(74 + n): 0xD1 + n for n in range(9)})
LETTERS.update({chr(83 + n): 0xE2 + n for n in range(8)})
LETTERS.update({chr(48 + n): 0xF0 + n for n in range(10)})

QUOTA = 2000

HEADER, DATA_SET, CARD, TRAILER = 0xC0, 0xE0, 0x80, 0xD0
SYSIN = [0x98, 0xA8, 0xB8, 0xC8]
SYSOUT = 0x99
MESSAGE = 0x9A


def ebcdic(text):
    return bytes(LETTERS[c] for c in text)


def name(text):
    return ebcdic(text.ljust(8))


def spelling(record):
    """The spelling that the hub itself writes."""
    out, literal, place = bytearray(), bytearray(), 0

    def flush():
        for start in range(0, len(literal), 63):
            part = literal[start : start + 63]
            out.append(0xC0 + len(part))
            out.extend(part)
        literal.clear()

    while place < len(record):
        byte, run = record[place], 1
        while run < 31 and place + run < len(record) and record[place + run] == byte:
            run += 1
        if byte == 0x40 and run >= 2:
            flush()
            out.append(0x80 + run)
        elif byte != 0x40 and run >= 3:
            flush()
            out += bytes([0xA0 + run, byte])
        else:
            literal.append(byte)
            run = 1
        place += run
    flush()
    return bytes(out) + b"\0"


def spelled(rcb, srcb, record):
    return bytes([rcb, srcb]) + spelling(record)


def job_header(number, origin, user, node):
    section = bytes([0, 0x60, 0, 0]) + number.to_bytes(2, "big") + bytes(18) + name("PAYROLL") + name(user)
    section += bytes(24) + name(origin) + name(user) + name(node) + name("")
    return bytes([0, 0x64, 0, 0]) + section


def data_set_header(node, user):
    return bytes([0, 0x18, 0, 0, 0, 0x14, 0, 0]) + name(node) + name(user)


def card(number):
    text = f"{number % 10000:04} THE QUICK BROWN FOX JUMPS OVER THE LAZY DOG IN LYON"
    return ebcdic(text.ljust(80))


def message(hub, user, node, text):
    body = ebcdic(text)
    head = bytes([0xA0, 0x77, 0, len(body)]) + name(hub) + b"\0" + name(user) + name(node) + b"\0"
    return spelled(MESSAGE, 0x80, head + body)


class Line:
    """A peer that answers to the hub's name for it, and calls."""

    def __init__(self, line, node):
        self.name, self.node, self.count = line, node, 0

    def event(self, data):
        return f"BYTES {self.name} {data.hex()}\n"

    def text(self, data):
        return self.event(b"\x10\x02" + data.replace(b"\x10", b"\x10\x10") + b"\x10\x26")

    def sign_on(self):
        sign_on = bytes([0xF0, 0xC9, 0x29]) + name(self.node) + b"\x01" + bytes(4) + b"\0\0\x04\0"
        sign_on += name("") + name("") + bytes(5)
        return [self.event(b"\x01\x2d"), self.text(b"\xa0\x8f\xcf" + sign_on)]

    def block(self, records):
        head = bytes([0x80 + self.count, 0x8F, 0xCF])
        self.count = (self.count + 1) % 16
        return self.text(head + records + b"\0")


def blocks(line, records):
    """Records in blocks of at most 1,024 bytes."""
    held = b""
    for record in records:
        if len(held) + len(record) > 1020:
            yield line.block(held)
            held = b""
        held += record
    if held:
        yield line.block(held)


def files(origin, user, node, streams, cards):
    """Files without end: as many at once as there are streams, a record of each in turn."""
    number = 0
    while True:
        for stream in streams:
            yield bytes([0x90, stream, 0])
        for stream in streams:
            number = number % 60000 + 1
            yield spelled(stream, HEADER, job_header(number, origin, user, node))
        for n in range(cards):
            for stream in streams:
                yield spelled(stream, CARD, card(n))
        for stream in streams:
            yield spelled(stream, TRAILER, bytes([0, 4, 0, 0]))
        for stream in streams:
            yield spelled(stream, CARD, b"")


def taking(line, streams):
    """Blocks of a peer that takes whatever is sent to it: each permits and completes all that may be asked for."""
    records = b"".join(bytes([0xA0, stream, 0]) for stream in streams)
    records += b"".join(bytes([0xC0, stream, 0]) for stream in streams)
    while True:
        yield line.block(records)


def ignored(line):
    """Records on a stream that wasn't asked for, and on one that drains after a first record that is no header."""

    def records():
        yield bytes([0x90, SYSIN[1], 0])
        yield spelled(SYSIN[1], CARD, card(0))
        n = 0
        while True:
            n += 1
            yield spelled(SYSIN[n % 2], CARD, card(n))

    return blocks(line, records())


def commands(line, node, user, files_of_user):
    """LIST, HOLD and RELEASE in turn, one a block."""
    n = 0
    while True:
        n = n % files_of_user + 1
        job = f"{node}.{n}"
        for text in ["LIST", f"HOLD {job}", f"RELEASE {job}"]:
            yield line.block(message("BUREAU", user, node, text))


def empty(line):
    while True:
        yield line.block(b"")


def stored(line, user, node, count):
    """So many files of one card, one after the other on one stream."""
    records = []
    for number, part in zip(range(count * 5), files(line.node, user, node, SYSIN[:1], 1)):
        records.append(part)
    return list(blocks(line, records))


def long_file(line, stream):
    """One file of many cards for METZ, a job on SYSIN 1, or output on SYSOUT 1."""
    records = [bytes([0x90, stream, 0]), spelled(stream, HEADER, job_header(1, line.node, "ANNA", "METZ"))]
    if stream == SYSOUT:
        records.append(spelled(stream, DATA_SET, data_set_header("METZ", "")))
    records += [spelled(stream, CARD, card(n)) for n in range(REROUTED)]
    return list(blocks(line, records + [spelled(stream, TRAILER, bytes([0, 4, 0, 0])), spelled(stream, CARD, b"")]))


def reroutes(line):
    """REROUTE of that file to one node and to another in turn, each of a line that is down."""
    while True:
        for node in ["PARIS", "NICE"]:
            yield line.block(message("BUREAU", "ANNA", "LYON", f"REROUTE LYON.1 {node}"))


def new_routes(lines):
    """The most routes that a customer may be given, again and again."""
    while True:
        routes = " ".join(f"N{n}:{lines[n % len(lines)].name}" for n in range(512))
        yield f"ROUTES ACME {routes}\n"


def beside(lines, which):
    """Files for a line that is down: 1,024, 512, or the 512 that are left of 1,024."""
    line = lines[0]
    first = line.sign_on() + stored(line, "ANNA", "METZ", WAITING // 2 if which == "half" else WAITING)
    if which == "left":
        for number in range(1, WAITING, 2):
            first.append(line.block(message("BUREAU", "ANNA", "LYON", f"CANCEL LYON.{number}")))
    return first


def one_event(line, what):
    """A block without records, LIST, or HOLD of the file that came last but one."""
    if what == "block":
        return empty(line)
    text = {"list": "LIST", "hold": f"HOLD LYON.{WAITING // 2}"}[what]
    return iter(lambda: line.block(message("BUREAU", "ANNA", "LYON", text)), None)


def in_turn(*parts):
    while True:
        for part in parts:
            yield next(part)


def table(customers):
    """customers: pairs of a name and the lines of the customer."""
    rows = [f"capacity = {QUOTA * len(customers)}"]
    for customer, lines in customers:
        rows += ["[[customer]]", f'name = "{customer}"', 'hub = "BUREAU"', f"quota = {QUOTA}", "files = 1024"]
        for line in lines:
            rows += ["[[customer.line]]", f'name = "{line.name}"', f'node = "{line.node}"']
            rows += ['role = "answer"', "block = 1024", "streams = 4"]
        for line in lines:
            rows += ["[[customer.route]]", f'node = "{line.node}"', f'line = "{line.name}"']
    return "\n".join(rows) + "\n"


NODES = ["LYON", "METZ", "PARIS", "NICE"]


def customer_lines(customer):
    return [Line(f"{customer}{n + 1}", NODES[n]) for n in range(4)]


def largest():
    """A table file of 64 customers, 256 lines and 32,768 routes, and quotas of 65,535 blocks each."""
    rows = ["capacity = 4194240"]
    for customer in range(64):
        rows += ["[[customer]]", f'name = "C{customer}"', 'hub = "BUREAU"', "quota = 65535", "files = 1024"]
        for line in range(4):
            rows += ["[[customer.line]]", f'name = "c{customer}x{line}"', f'node = "N{line}"']
            rows += ['role = "answer"', "block = 4096", "streams = 4"]
        for route in range(512):
            node = f"N{route}" if route < 4 else f"R{route}"
            rows += ["[[customer.route]]", f'node = "{node}"', f'line = "c{customer}x{route % 4}"']
    return "\n".join(rows) + "\n"


def script(row):
    """The customers of a row, the events at first, and those that follow without end."""
    a = customer_lines("a")
    one = [("ACME", a)]
    if row == "cards":
        sent = blocks(a[0], files("LYON", "ANNA", "METZ", SYSIN, 100))
        return one, a[0].sign_on() + a[1].sign_on(), in_turn(sent, taking(a[1], SYSIN))
    if row == "commands":
        first = a[0].sign_on() + stored(a[0], "ANNA", "METZ", 64)
        return one, first, commands(a[0], "LYON", "ANNA", 64)
    if row == "mixed":
        customers = [(f"C{n}", customer_lines(f"c{n}x")) for n in range(64)]
        first, then = [], []
        for _, lines in customers:
            for line in lines:
                first += line.sign_on()
            then.append(
                in_turn(
                    blocks(lines[0], files("LYON", "ANNA", "METZ", SYSIN, 3)),
                    taking(lines[1], SYSIN),
                    commands(lines[2], "LYON", "ANNA", 9),
                    empty(lines[3]),
                    ignored(lines[3]),
                )
            )
        return customers, first, in_turn(*then)
    if row == "empty":
        return one, a[0].sign_on(), empty(a[0])
    if row == "ignored":
        return one, a[0].sign_on(), ignored(a[0])
    if row == "waiting":
        return one, a[0].sign_on() + stored(a[0], "ANNA", "METZ", WAITING), empty(a[0])
    if row == "routes":
        return one, [], new_routes(a)
    if row in ["reroute-job", "reroute-output"]:
        stream = SYSIN[0] if row == "reroute-job" else SYSOUT
        return one, a[0].sign_on() + long_file(a[0], stream), reroutes(a[0])
    what, _, which = row.partition("-")
    if what in ["block", "list", "hold"] and which in BESIDE:
        return one, beside(a, which), one_event(a[0], what)
    raise SystemExit(f"no such row: {row}")


def main(folder, row, size):
    if row == "largest":
        with open(f"{folder}/{row}.toml", "w", encoding="ascii") as out:
            out.write(largest())
        return
    customers, first, then = script(row)
    written = 0
    with open(f"{folder}/{row}.script", "w", encoding="ascii") as out:
        for events in (first, then):
            for event in events:
                if written + len(event) > size:
                    break
                written += len(event)
                out.write(event)
    with open(f"{folder}/{row}.toml", "w", encoding="ascii") as out:
        out.write(table(customers))


if __name__ == "__main__":
    main(sys.argv[1], sys.argv[2], int(sys.argv[3]))
