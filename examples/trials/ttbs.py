"""What the trials say on a line over TCP/IP: control records, TTBs and their TTRs, as docs/PROTOCOL.md has them, and an
end of such a line that waits for what comes."""

import contextlib
import socket
import time

from frames import Text, ebcdic, field, records_of, sign_on
from hub import connected

HUB, NODE = "BUREAU", "LYON"

OPEN, ACK, NAK = (ebcdic(kind).ljust(8, b"\x40") for kind in ("OPEN", "ACK", "NAK"))
RECORD = 33

CALL, ACK0 = b"\x01\x2d", b"\x10\x70"
SIGN_OFF = bytes.fromhex("1002a08fcff0c200")

# How many bytes a TTB has before its TTRs and behind them, and a TTR before its data.
HEAD, END = 8, 4

# How long an answer may take, in seconds.
SOON = 2.0


def control(kind, sender, receiver, reason=0):
    """A control record."""
    return kind + field(sender) + bytes(4) + field(receiver) + bytes(4) + bytes([reason])


def words_of(record):
    """A control record in words."""
    kind, sender, receiver = (record[at : at + 8].decode("cp037").rstrip() for at in (0, 8, 20))
    return f"{kind} {sender} {receiver}" + (f" {record[32]}" if record[32] else "")


def ttb(*ttrs):
    """A TTB with these data, a TTR each."""
    body = b"".join(b"\x00\x00" + len(data).to_bytes(2, "big") + data for data in ttrs)
    return b"\x00\x00" + (HEAD + END + len(body)).to_bytes(2, "big") + bytes(4) + body + bytes(END)


def text_of(frame):
    """The data of the TTR that carries a frame of a bisync line."""
    return b"\x10\x02" + frame[2:-2].replace(b"\x10\x10", b"\x10")


def block(count, records=b""):
    """The data of a block's TTR."""
    return b"\x10\x02" + bytes([0x80 | count % 16]) + b"\x8f\xcf" + records + b"\x00"


class Ttbs:
    """Bytes of a connection in, the data of TTRs out."""

    def __init__(self):
        self.rest = b""

    def feed(self, data):
        self.rest += data
        found, at = [], 0
        while len(self.rest) >= at + HEAD and len(self.rest) >= at + (size := self.size(at)):
            found += self.ttrs(self.rest[at + HEAD : at + size])
            at += size
        self.rest = self.rest[at:]
        return found

    def size(self, at):
        size = int.from_bytes(self.rest[at + 2 : at + 4], "big")
        if size < HEAD + END:
            raise ValueError(f"a TTB of {size} bytes")
        return size

    @staticmethod
    def ttrs(body):
        found, at = [], 0
        while length := int.from_bytes(body[at + 2 : at + 4], "big"):
            found.append(body[at + END : at + END + length])
            at += END + length
            if at + END > len(body):
                raise ValueError(f"a TTB with a TTR of {length} bytes that doesn't fit")
        if at + END != len(body):
            raise ValueError(f"{len(body) - at - END} bytes behind the end of a TTB")
        return found


class Link:
    """A connection to or from the hub, and the data of the TTRs that came on it."""

    def __init__(self, peer):
        self.peer, self.rest, self.ended, self.was_reset = peer, b"", False, False

    def __enter__(self):
        return self

    def __exit__(self, *_):
        self.peer.close()

    def bytes_within(self, count, seconds=SOON):
        """So many bytes, or as many as come in time or before the end."""
        end = time.monotonic() + seconds
        while len(self.rest) < count and not self.ended and (left := end - time.monotonic()) > 0:
            self.peer.settimeout(left)
            with contextlib.suppress(socket.timeout):
                try:
                    data = self.peer.recv(65536)
                except ConnectionError:
                    data, self.was_reset = b"", True
                self.ended, self.rest = not data, self.rest + data
        found, self.rest = self.rest[:count], self.rest[count:]
        return found

    def record(self, seconds=SOON):
        """A control record in words."""
        found = self.bytes_within(RECORD, seconds)
        if len(found) < RECORD:
            return "an end" if self.ended and not found else f"{len(found)} bytes"
        return words_of(found)

    def ttr(self, seconds=SOON):
        """The data of the next TTR, which is alone in its TTB; None if none comes."""
        head = self.bytes_within(HEAD + END, seconds)
        if len(head) < HEAD + END:
            return None
        size = int.from_bytes(head[2:4], "big")
        body = head[HEAD:] + self.bytes_within(size - HEAD - END, seconds)
        is_whole = len(body) == size - HEAD and int.from_bytes(body[2:4], "big") == size - HEAD - 2 * END
        return body[END:-END] if is_whole else None

    def has_ended(self, seconds=SOON):
        """Whether the other end sends no more, in time."""
        end = time.monotonic() + seconds
        while not self.ended and time.monotonic() < end:
            self.bytes_within(1, end - time.monotonic())
        return self.ended

    def sends(self, *data):
        """Sends these bytes, of which the hub may take no more."""
        for one in data:
            with contextlib.suppress(ConnectionError):
                self.peer.sendall(one)


def opened(port, sender=NODE, receiver=HUB, **options):
    """A link of which the hub was asked, with what it answered."""
    link = Link(connected(port, **options))
    link.sends(control(OPEN, sender, receiver))
    return link, link.record()


def in_session(port, password="", **options):
    """A link in a session, or the words that came in its place."""
    link, answer = opened(port, **options)
    if not answer.startswith("ACK"):
        return link, answer
    link.sends(ttb(CALL))
    if link.ttr() != ACK0:
        return link, "no answer to the contact"
    link.sends(ttb(text_of(sign_on(0xC9, NODE, password=password))))
    answer = link.ttr()
    if answer is None or answer[:2] != b"\x10\x02" or records_of(Text(answer[2:]))[0][1] != 0xD1:
        return link, "no sign-on"
    return link, "session"
