"""NJE over TCP/IP for examples/peer.py: a control record each way, then blocks in TTBs, as docs/PROTOCOL.md has them.
A `TcpLine` is to the peer as the line of peer_bytes.py is: it reads and writes the frames of such a line."""

import socket
import time

from peer_bytes import ACK0, DLE, ENQUIRY, ETB, SILENCE, STX, Line, Trouble, field

OPEN, ACK, NAK = (kind.ljust(8).encode("cp037") for kind in ("OPEN", "ACK", "NAK"))
CONTROL_SIZE = 33
REASONS = {1: "it knows no link with these names", 2: "the link is active", 3: "both ends open", 4: "not now"}

TTB_HEAD, TTR_HEAD, LONGEST_TTR = 8, 4, 4098

PATIENCE = 10.0  # for so many seconds a control record is waited for
PAUSE = 0.1  # after so many seconds without a block the other end has none: then the line says that the last one came
KEEP_ALIVE = 60.0  # after so many seconds in which nothing was sent the line says that it is there


def control(kind, sender, receiver, reason=0):
    """A control record: who sends it, and to whom. The addresses aren't told."""
    return kind + field(sender) + bytes(4) + field(receiver) + bytes(4) + bytes([reason])


def names_in(record):
    """Who sent a control record, and to whom."""
    return record[8:16], record[20:28]


def ttb(data):
    """A TTB with one TTR, which has these data."""
    ttr = b"\x00\x00" + len(data).to_bytes(2, "big") + data
    return b"\x00\x00" + (TTB_HEAD + len(ttr) + TTR_HEAD).to_bytes(2, "big") + bytes(4) + ttr + bytes(TTR_HEAD)


class TcpLine(Line):
    """The line over TCP/IP: it opens the link, and frames go over in TTBs. What TCP promises nobody says: an ACK0 isn't
    sent, but read when the other end has no block."""

    def __init__(self, options):
        self.called = not options.accept
        if self.called:
            super().__init__(options.host, options.port)
        else:
            self.socket, self.waiting = accepted(options.host, options.port), b""
        self.frames, self.is_owed, self.has_texts, self.bcb = [], False, False, None
        self.sent_at = time.monotonic()
        self.socket.settimeout(PATIENCE)
        try:
            self.open(options.node, options.hub) if self.called else self.answer(options.node, options.hub)
        except socket.timeout:
            raise Trouble("the other end doesn't speak NJE over TCP/IP") from None

    def bytes_of(self, count):
        return b"".join(self.byte() for _ in range(count))

    def send(self, data):
        super().write(data)
        self.sent_at = time.monotonic()

    def open(self, node, hub):
        """Asks for the link."""
        self.send(control(OPEN, node, hub))
        answer = self.bytes_of(CONTROL_SIZE)
        if answer.startswith(NAK):
            raise Trouble(f"{hub} answers NAK {answer[32]}: {REASONS.get(answer[32], 'who knows why')}")
        if not answer.startswith(ACK):
            raise Trouble(f"{hub} doesn't speak NJE over TCP/IP")

    def answer(self, node, hub):
        """Gives the link to an OPEN of the hub for this node, and to no other."""
        asked = self.bytes_of(CONTROL_SIZE)
        sender, receiver = names_in(asked)
        is_right = asked.startswith(OPEN) and (sender, receiver) == (field(hub), field(node))
        self.send((ACK if is_right else NAK) + receiver + bytes(4) + sender + bytes([0, 0, 0, 0, not is_right]))
        if not is_right:
            names = " for ".join(name.decode("cp037").rstrip() for name in (sender, receiver))
            raise Trouble(f"refused: an OPEN of {names}" if asked.startswith(OPEN) else "refused: no OPEN")

    def write(self, frame):
        """Sends a frame of a line, if it goes over TCP/IP: the contact, or a block that isn't the last one again."""
        if frame.startswith(DLE + STX):
            block = frame[2 : -len(DLE + ETB)].replace(DLE + DLE, DLE)
            if block[:1] != self.bcb:
                self.send(ttb(DLE + STX + block))
            self.bcb, self.is_owed, self.has_texts = block[:1], True, True
        elif frame == ENQUIRY or (frame == ACK0 and not self.called and not self.has_texts):
            self.send(ttb(frame))
        elif frame == ACK0:
            self.is_owed = True

    def read(self):
        """The next frame of a line: a control frame as its bytes, a text as its block."""
        while not self.frames:
            self.socket.settimeout(PAUSE if self.is_owed else SILENCE)
            try:
                self.read_ttb()
            except socket.timeout:
                self.keep_alive()
                if not self.is_owed:
                    raise
                self.is_owed = False
                return ACK0
        frame = self.frames.pop(0)
        if frame not in (ENQUIRY, ACK0):
            self.is_owed, self.has_texts = False, True
        return frame

    def read_ttb(self):
        """Reads a TTB whole, and keeps its frames. Only its first byte may be long in coming."""
        first = self.byte()
        self.socket.settimeout(PATIENCE)
        size = int.from_bytes((first + self.bytes_of(TTB_HEAD - 1))[2:4], "big")
        if size < TTB_HEAD + TTR_HEAD:
            raise Trouble(f"session lost: a TTB of {size} bytes came")
        ttrs = self.bytes_of(size - TTB_HEAD)
        while True:
            length = int.from_bytes(ttrs[2:4], "big")
            data, ttrs = ttrs[4 : 4 + length], ttrs[4 + length :]
            if length == 0 or length > LONGEST_TTR or len(data) < length or len(ttrs) < TTR_HEAD:
                break
            self.keep(data)
        if length or ttrs:
            raise Trouble("session lost: a TTB came that doesn't add up")

    def keep(self, data):
        """Keeps the frame that a TTR carries. An Ack0 is one before the texts of a call, and else a keep-alive."""
        if data == ACK0:
            if self.called and not self.has_texts:
                self.frames.append(ACK0)
        elif data == ENQUIRY and not self.called and not self.has_texts:
            self.frames.append(ENQUIRY)
        elif data.startswith(DLE + STX) and len(data) > 2:
            self.frames.append(data[2:])
        else:
            raise Trouble(f"session lost: a TTR {data[:2].hex(' ').upper()} came")

    def keep_alive(self):
        if time.monotonic() - self.sent_at > KEEP_ALIVE:
            self.send(ttb(ACK0))


def accepted(host, port):
    """The connection of who dials this port first."""
    try:
        with socket.create_server((host, port)) as listener:
            connection, _ = listener.accept()
    except OSError as why:
        raise Trouble(f"port {port} of {host}: {why.strerror or why}") from None
    return connection
