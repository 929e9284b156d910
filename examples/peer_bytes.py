"""The bytes of examples/peer.py: frames on a TCP connection, blocks, records, messages and files, as docs/PROTOCOL.md
has them, whose words stand here too. Text is in code page 037 on the line."""

import re
import socket

# What frames are made of, and the four control frames.
SOH, STX, ETX, DLE, ETB, ENQ, SYN = b"\x01", b"\x02", b"\x03", b"\x10", b"\x26", b"\x2d", b"\x32"
ENQUIRY, ACK0, NAK, EOT = SOH + ENQ, DLE + b"\x70", b"\x3d", b"\x37"

# RCBs: what kind of record it is. The peer sends files on the stream SYSOUT 1.
REQUEST, PERMISSION, REFUSAL, COMPLETE, OUT_OF_SEQUENCE, GENERAL = 0x90, 0xA0, 0xB0, 0xC0, 0xE0, 0xF0
SYSOUT_1, MESSAGE = 0x99, 0x9A

# SRCBs: of general records, and of the records of a file.
SIGN_ON, RESPONSE, SIGN_OFF = 0xC9, 0xD1, 0xC2
JOB_HEADER, DATA_SET_HEADER, TRAILER, DATA_SET_TRAILER, DATA = 0xC0, 0xE0, 0xD0, 0xF0, 0x80
CARRIAGE_CONTROL = (0x90, 0xA0)  # the first byte of such a line is for the printer

# Of a message: it is a command; its user field holds a user.
COMMAND_FLAG, USER_FLAG = 0x80, 0x20

# The peer's FCS suspends nothing. Of an FCS, one bit suspends all, and these let messages and SYSOUT 1 go on.
FCS, SUSPENDED, GOES_ON = b"\x8f\xcf", 0x40, {MESSAGE: 0x40, SYSOUT_1: 0x08}

BLOCK_SIZE, RECORD_SIZE, MESSAGE_SIZE = 1024, 256, 148
SILENCE, TRIES = 3.0, 5  # after so many seconds without a byte the hub is asked again, so many times


class Trouble(Exception):
    """Why the peer can't go on, in plain words."""


def field(name):
    """A name as a field of eight bytes."""
    return name.ljust(8).encode("cp037")


def name_in(record, place):
    """The name in the field at this place of a record."""
    text = record[place : place + 8].decode("cp037").rstrip()
    return "".join(c if c.isalnum() or c in "$#@" else "?" for c in text)


def framed(block):
    """The frame of a block's text: each DLE in it doubled."""
    return DLE + STX + block.replace(DLE, DLE + DLE) + DLE + ETB


def spelled(rcb, srcb, record):
    """A record as it stands in a block: pieces of 63 bytes as they are, and 00. Nothing is compressed."""
    pieces = [record[at : at + 63] for at in range(0, len(record), 63)]
    return bytes([rcb, srcb]) + b"".join(bytes([0xC0 + len(piece)]) + piece for piece in pieces) + b"\x00"


def unspelled(block, at):
    """The record whose spelling begins at this place, None of one that is given up, and the place after it."""
    record = b""
    while block[at] not in (0x00, 0x40):
        code, at = block[at], at + 1
        if code >= 0xC0:  # the next bytes as they are
            record += block[at : at + (code & 0x3F)]
            at += code & 0x3F
        elif code >= 0xA0:  # the next byte so many times
            record += block[at : at + 1] * (code & 0x1F)
            at += 1
        else:  # so many blanks
            record += b"\x40" * (code & 0x1F)
    return (record if block[at] == 0x00 else None), at + 1


def records_of(block):
    """The records of a block: RCB, SRCB and bytes, None for one that is given up."""
    records, at = [], 3
    while at < len(block) and block[at] != 0x00:
        rcb, srcb, at = block[at], block[at + 1], at + 2
        if rcb == GENERAL:
            return records + [(rcb, srcb, block[at:])]
        if rcb & 0x0F == 0:  # it has no bytes, and a 00 where the block goes on
            record = b""
            at += at + 1 < len(block) and block[at] == 0x00
        else:
            record, at = unspelled(block, at)
        records.append((rcb, srcb, record))
    return records


def goes_on(fcs, rcb):
    """Whether an FCS lets records of this kind go on."""
    return not fcs[0] & SUSPENDED and bool(fcs[1] & GOES_ON[rcb])


def follows(bcb, last):
    """Whether a block with this BCB comes next after the one with the last BCB, as far as its count says."""
    has_set = last & 0x70 == 0x20
    return bcb & 0x70 != 0 or bcb % 16 == (last + 1) % 16 or (has_set and bcb % 16 == last % 16)


def sign_on_of(srcb, node, password):
    """The record with which a node signs on, or answers one that does."""
    head = bytes([GENERAL, srcb, 0x29]) + field(node) + b"\x01" + bytes(6) + BLOCK_SIZE.to_bytes(2, "big")
    return head + field(password or "") + field("") + bytes(5)


def message_of(flags, to, user, node, words):
    """A nodal message record. Of a command the user is who gives it, of a message who gets it."""
    text = words.encode("cp037", errors="replace")
    if len(text) > MESSAGE_SIZE:
        raise Trouble(f"a message has at most {MESSAGE_SIZE} characters with its sender, and this one has {len(text)}")
    head = bytes([flags, 0x77, 0x00, len(text)]) + field(to) + b"\x00" + field(user) + field(node) + b"\x00"
    return spelled(MESSAGE, 0x80, head + text)


def message_in(record):
    """Of a nodal message record the node that it is from, the user whom it is for, and its text."""
    text = record[30 : 30 + record[3]].decode("cp037")
    return name_in(record, 21), name_in(record, 13), "".join(c if c.isprintable() else "?" for c in text)


def lines_of(path):
    """The lines of a text file as records. An empty one becomes a blank, as a record without bytes ends a file."""
    records = []
    try:
        with path.open(encoding="utf-8") as file:
            for number, line in enumerate(file, 1):
                record = (line.rstrip("\n") or " ").encode("cp037")
                if len(record) > RECORD_SIZE:
                    raise Trouble(f"{path}: line {number} has {len(record)} characters, over {RECORD_SIZE}")
                records.append((DATA, record))
    except UnicodeEncodeError:
        raise Trouble(f"{path}: line {number} has a character that code page 037 lacks") from None
    except UnicodeDecodeError:
        raise Trouble(f"{path} is no text in UTF-8") from None
    return records


def text_of(file):
    """The lines of a file that came, as text, without the blanks behind them."""
    lines = []
    for srcb, record in file:
        if srcb not in (JOB_HEADER, DATA_SET_HEADER, TRAILER, DATA_SET_TRAILER):
            line = record[1:] if srcb in CARRIAGE_CONTROL else record
            lines.append(line.decode("cp037").rstrip(" ") + "\n")
    return lines


def file_of(path, number, origin, to):
    """The records of a text file, each with its SRCB: job header, data set header, lines, trailer. Who sends it and who
    gets it are each a user and a node; the file's name is the job's."""
    job, lines = re.sub("[^A-Z0-9$#@]", "", path.stem.upper())[:8], lines_of(path)
    (user, node), (receiver, destination) = origin, to
    job_header = bytearray(100)
    job_header[0:10] = bytes([0, 100, 0, 0, 0, 96, 0, 0]) + number.to_bytes(2, "big")
    for place, name in ((24, job), (32, user), (64, node), (72, user), (80, destination), (88, receiver)):
        job_header[4 + place : 12 + place] = field(name)
    data_set_header = bytes([0, 24, 0, 0, 0, 20, 0, 0]) + field(destination) + field(receiver)
    headers = [(JOB_HEADER, bytes(job_header)), (DATA_SET_HEADER, data_set_header)]
    return headers + lines + [(TRAILER, bytes([0, 4, 0, 0]))]


def name_of(file):
    """The name of a file that came: its origin node and its job number."""
    job_header = file[0][1]
    return f"{name_in(job_header, 68)}.{int.from_bytes(job_header[8:10], 'big')}"


def users_of(file):
    """Who sent a file that came, and whom it is for: an output file says so in its data set header."""
    job_header = file[0][1]
    receivers = [name_in(record, 16) for srcb, record in file if srcb == DATA_SET_HEADER]
    return name_in(job_header, 76), (receivers + [name_in(job_header, 92)])[0]


class Line:
    """The line: frames over a TCP connection."""

    def __init__(self, host, port):
        try:
            self.socket = socket.create_connection((host, port), timeout=SILENCE)
        except OSError as why:
            raise Trouble(f"no connection to {host}, port {port}: {why.strerror or why}") from None
        self.waiting = b""

    def write(self, frame):
        try:
            self.socket.sendall(frame)
        except OSError:
            raise Trouble("session lost: the connection ended") from None

    def byte(self):
        """The next byte. After a silence it is socket.timeout."""
        if not self.waiting:
            try:
                self.waiting = self.socket.recv(4096)
            except ConnectionError:
                pass
            if not self.waiting:
                raise Trouble("session lost: the connection ended")
        byte, self.waiting = self.waiting[:1], self.waiting[1:]
        return byte

    def read(self):
        """The next frame: a control frame as its bytes, a text as its block, nothing for one that is spoiled."""
        while True:
            frame = self.byte()
            if frame in (SOH, DLE):
                frame += self.byte()
            if frame == DLE + STX:
                return self.block()
            if frame in (ENQUIRY, ACK0, NAK, EOT):
                return frame

    def block(self):
        """The rest of a text: DLE DLE is one byte, DLE SYN is fill, DLE ETB or DLE ETX ends it."""
        block, is_good = b"", True
        while True:
            byte = self.byte()
            if byte == DLE:
                byte += self.byte()
            if byte in (DLE + ETB, DLE + ETX):
                return block if is_good else b""
            if byte == DLE + ENQ:
                return b""
            if len(byte) == 1 or byte == DLE + DLE:
                block += byte[:1]
            elif byte != DLE + SYN:
                is_good = False

    def close(self):
        """Ends the connection, once the hub has read all that was sent."""
        try:
            self.socket.shutdown(socket.SHUT_WR)
            while self.socket.recv(4096):
                pass
        except OSError:
            pass
        self.socket.close()
