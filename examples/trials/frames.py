"""What the trials say on a line: control frames, texts, blocks, records, commands and files, as docs/PROTOCOL.md has
them."""

import re
import struct

CONTACT, ACK0, NAK, EOT = bytes.fromhex("012d"), bytes.fromhex("1070"), b"\x3d", b"\x37"

# The first stream for files out, and a nodal message.
SYSOUT, MESSAGE = 0x99, 0x9A

REQUEST, PERMISSION, REFUSAL, COMPLETE, OUT_OF_SEQUENCE, GENERAL = 0x90, 0xA0, 0xB0, 0xC0, 0xE0, 0xF0

# What the records of a file are, by their SRCB.
JOB_HEADER, DATA_SET_HEADER, TRAILER, CARD = 0xC0, 0xE0, 0xD0, 0x80

# The size of a block that both ends keep to.
BLOCK = 1024


def ebcdic(text):
    return text.encode("cp037")


def field(name):
    """A name as a field of eight bytes."""
    return ebcdic(name).ljust(8, b"\x40")


def framed(text):
    """The frame of a text: each 10 in it doubled."""
    return b"\x10\x02" + text.replace(b"\x10", b"\x10\x10") + b"\x10\x26"


def sign_on(srcb, node, block=BLOCK, password=""):
    """The frame of a sign-on as node, with a block size and a line password: C9 of who makes contact, D1 of who
    answers."""
    record = bytes([GENERAL, srcb, 0x29]) + field(node) + b"\x01" + bytes(6) + struct.pack(">H", block)
    return framed(b"\xa0\x8f\xcf" + record + field(password) + b"\x40" * 8 + bytes(5) + b"\x00")


def spelled(record):
    """A record as it stands in a block: pieces of 63 bytes, as they are."""
    pieces = [record[at : at + 63] for at in range(0, len(record), 63)]
    return b"".join(bytes([0xC0 + len(piece)]) + piece for piece in pieces) + b"\x00"


def unspelled(text, at):
    """The record whose spelling begins at this place, None of one that is given up, and the place after it."""
    record = b""
    while text[at] not in (0x00, 0x40):
        code, count = text[at], text[at] & 0x1F
        if code >= 0xC0:
            count = code & 0x3F
            record += text[at + 1 : at + 1 + count]
            at += 1 + count
        elif code >= 0xA0:
            record += text[at + 1 : at + 2] * count
            at += 2
        else:
            record += b"\x40" * count
            at += 1
    return (None if text[at] == 0x40 else record), at + 1


def records_of(text):
    """The records of a block: RCB, SRCB and bytes, None where the record was given up."""
    found, at = [], 3
    while at < len(text) and text[at]:
        rcb, srcb = text[at], text[at + 1]
        if rcb == GENERAL:
            return found + [(rcb, srcb, text[at + 2 :])]
        if rcb & 0x0F == 0:
            found.append((rcb, srcb, b""))
            at += 2 + (len(text) > at + 3 and text[at + 2] == 0)
        else:
            record, after = unspelled(text, at + 2)
            found.append((rcb, srcb, record))
            at = after
    return found


def command(to, node, user, words):
    """The record of a command by this user at this node, as it stands in a block."""
    head = b"\xa0\x77\x00" + bytes([len(words)])
    names = field(to) + b"\x00" + field(user) + field(node) + b"\x00"
    return bytes([MESSAGE, 0x80]) + spelled(head + names + ebcdic(words))


def message(to, user, node, text):
    """The record of a message from a node to a user at another, as it stands in a block."""
    said = ebcdic(text)
    record = b"\x20\x77\x00" + bytes([len(said)]) + field(to) + b"\x00" + field(user) + field(node) + b"\x00" + said
    return bytes([MESSAGE, 0x80]) + spelled(record)


def file_of(number, origin, user, to, receiver, cards):
    """The records of a file for a receiver at another node: SRCB and bytes."""
    job = bytearray(100)
    job[0:6] = struct.pack(">HBBH", 100, 0, 0, 96)
    job[8:10] = struct.pack(">H", number)
    for place, name in ((24, "JOB"), (32, user), (64, origin), (72, user), (80, to), (88, receiver)):
        job[4 + place : 12 + place] = field(name)
    data_set = struct.pack(">HBBHBB", 24, 0, 0, 20, 0, 0) + field(to) + field(receiver)
    body = [(CARD, card) for card in cards]
    return [(JOB_HEADER, bytes(job)), (DATA_SET_HEADER, data_set), *body, (TRAILER, bytes.fromhex("00040000"))]


class Text(bytes):
    """The data of a text, as against a control frame."""


class Deframer:
    """Bytes of a line in, frames out: a control frame as its bytes, a text as its data."""

    ESCAPE = re.compile(rb"\x10(.)", re.DOTALL)

    def __init__(self):
        self.rest = b""

    def feed(self, data):
        if data in (ACK0, NAK) and not self.rest:
            return [data]
        self.rest += data
        found = []
        while self.rest:
            taken = self.step(found)
            if not taken:
                break
            self.rest = self.rest[taken:]
        return found

    def step(self, found):
        """How many bytes the next frame takes, 0 where it isn't whole."""
        if self.rest[:1] in (NAK, EOT):
            found.append(self.rest[:1])
            return 1
        if self.rest[0] not in (0x01, 0x10):
            return 1
        if len(self.rest) < 2:
            return 0
        if self.rest[:2] != b"\x10\x02":
            found.append(self.rest[:2])
            return 2
        at = 2
        while True:
            at = self.rest.find(b"\x10", at)
            if at < 0 or at + 1 >= len(self.rest):
                return 0
            if self.rest[at + 1] in (0x26, 0x03):
                found.append(Text(self.ESCAPE.sub(self.meaning, self.rest[2:at])))
                return at + 2
            at += 2

    @staticmethod
    def meaning(pair):
        return b"" if pair[1] == b"\x32" else pair[1]
