"""The peers' ends of lines in hops.py, on sockets that wait, so that the client is not what is measured."""

import multiprocessing
import select
import socket
import struct
import time

from exchanges import BLOCKS
from frames import ACK0, CONTACT, Deframer, Text, ebcdic, framed, message, records_of, sign_on
from hub import connected

# How long nothing may come that is waited for, in seconds.
PATIENCE = 10


class End:
    """The peer's end of a line. It signs on, and leaves the turn to itself."""

    def __init__(self, port, node):
        self.socket, self.deframer, self.count = connected(port), Deframer(), 0
        self.socket.settimeout(None)
        self.socket.setsockopt(socket.SOL_SOCKET, socket.SO_RCVTIMEO, struct.pack("ll", PATIENCE, 0))
        for sent in (CONTACT, sign_on(0xC9, node)):
            self.socket.sendall(sent)
            self.socket.recv(4096)

    def fileno(self):
        return self.socket.fileno()

    def hear(self):
        """When something came, and which frames. Each is answered by ACK0."""
        try:
            data = self.socket.recv(4096)
        except BlockingIOError:
            raise TimeoutError("nothing came") from None
        at = time.monotonic_ns()
        if not data:
            raise ConnectionError("the hub closed a connection")
        frames = self.deframer.feed(data)
        self.socket.sendall(ACK0 * len(frames))
        return at, frames

    def say(self, record):
        """Sends a block of a record, and answers the nanosecond just before."""
        block = framed(bytes([0x80 + self.count]) + b"\x8f\xcf" + record + b"\x00")
        self.count = (self.count + 1) % 16
        at = time.monotonic_ns()
        self.socket.sendall(block)
        return at

    def exchanges(self, seconds):
        """The nanoseconds of exchanges one after the other, of blocks without records, each answered by ACK0."""
        times, stop = [], time.monotonic() + seconds
        while time.monotonic() < stop:
            for block in BLOCKS:
                begin = time.monotonic_ns()
                self.socket.sendall(block)
                got = self.socket.recv(4096)
                times.append(time.monotonic_ns() - begin)
                if got != ACK0:
                    raise ConnectionError(f"answered {got.hex() or 'by an end'}")
        return times


def answers(ends, seconds):
    """Answers what comes on these lines, in a process of its own."""
    stop = time.monotonic() + seconds
    while time.monotonic() < stop:
        for end in select.select(ends, [], [], 1)[0]:
            end.hear()


class Pairs:
    """Pairs of lines, each of a customer: messages come on the first of each for its second."""

    def __init__(self, places):
        ends = [End(place.port, place.node) for place in places]
        self.senders, self.receivers, self.number = ends[0::2], ends[1::2], 0
        self.process = multiprocessing.get_context("fork").Process(
            target=answers, args=(self.senders, 7200), daemon=True
        )
        self.process.start()
        for end in ends:
            end.socket.sendall(ACK0)

    def rest(self, seconds):
        """Answers what comes on the receivers' lines for so long."""
        end = time.monotonic() + seconds
        while (left := end - time.monotonic()) > 0:
            for one in select.select(self.receivers, [], [], left)[0]:
                one.hear()

    def time(self, place):
        """How many nanoseconds a message took."""
        self.number += 1
        receiver, text = self.receivers[place], f"HOP {self.number}"
        sent = self.senders[place].say(message("N1", "PAUL", "N0", text))
        while time.monotonic_ns() < sent + PATIENCE * 10**9:
            at, frames = receiver.hear()
            records = [record for frame in frames if isinstance(frame, Text) for _, _, record in records_of(frame)]
            if any(record and ebcdic(text) in record for record in records):
                return at - sent
        raise TimeoutError(f"{text} didn't come")

    def __enter__(self):
        return self

    def __exit__(self, *_):
        self.process.kill()
        self.process.join()
        for end in self.senders + self.receivers:
            end.socket.close()
