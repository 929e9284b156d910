"""Peers of the trials: they keep sessions with a hub, many on one thread, or a crowd in a process of its own."""

import collections
import multiprocessing
import select
import time

from frames import (
    ACK0,
    BLOCK,
    COMPLETE,
    CONTACT,
    MESSAGE,
    NAK,
    OUT_OF_SEQUENCE,
    PERMISSION,
    REFUSAL,
    REQUEST,
    SYSOUT,
    Deframer,
    Text,
    framed,
    records_of,
    sign_on,
    spelled,
)
from hub import connected


class Loop:
    """Peers on one thread, each called when its connection has bytes."""

    def __init__(self):
        self.poll, self.peers, self.late = select.epoll(), {}, collections.deque()

    def add(self, peer):
        self.peers[peer.socket.fileno()] = peer
        self.poll.register(peer.socket.fileno(), select.EPOLLIN)

    def drop(self, peer):
        if self.peers.pop(peer.socket.fileno(), None):
            self.poll.unregister(peer.socket.fileno())

    def delay(self, seconds, say):
        """Has something said after so long, the same for all that is delayed on this loop."""
        self.late.append((time.monotonic() + seconds, say))

    def run(self, seconds, until=lambda: False):
        """Goes on for so long, or until something is so, and says whether it is."""
        end = time.monotonic() + seconds
        while not until():
            now = time.monotonic()
            while self.late and self.late[0][0] <= now:
                self.late.popleft()[1]()
            if now >= end:
                return False
            next_late = self.late[0][0] - now if self.late else 0.1
            for place, _ in self.poll.poll(min(end - now, 0.1, next_late)):
                if place in self.peers:
                    self.peers[place].readable()
        return True

    def close(self):
        for peer in list(self.peers.values()):
            peer.close()
        self.poll.close()


class Peer:
    """A peer that makes contact and signs on, and then answers each frame by ACK0; 3D is answered by its last frame."""

    def __init__(self, loop, port, node, source=None):
        self.loop, self.node, self.deframer = loop, node, Deframer()
        self.is_up, self.is_closed, self.sent, self.naks, self.answers, self.longest = False, False, b"", 0, 0, 0.0
        self.socket = self.connect(port, source)
        loop.add(self)
        self.begin()

    def connect(self, port, source):
        """The peer's connection."""
        return connected(port, source=source)

    def begin(self):
        """Makes contact, also after a session that is over."""
        self.is_up, self.count = False, 0
        self.say(CONTACT)

    def say(self, frame):
        self.sent, self.at = frame, time.monotonic()
        try:
            self.socket.sendall(frame)
        except OSError:
            self.close()

    def say_block(self, records, fcs=b"\x8f\xcf"):
        self.say(framed(bytes([0x80 + self.count]) + fcs + records + b"\x00"))
        self.count = (self.count + 1) % 16

    def close(self):
        if not self.is_closed:
            self.is_closed, self.is_up = True, False
            self.loop.drop(self)
            self.socket.close()

    def readable(self):
        try:
            data = self.socket.recv(65536)
        except OSError:
            data = b""
        if not data:
            self.close()
            return
        for frame in self.deframer.feed(data):
            if self.is_closed:
                return
            self.answers += 1
            self.longest = max(self.longest, time.monotonic() - self.at)
            self.hear(frame)

    def hear(self, frame):
        if frame == NAK:
            self.naks += 1
            self.say(self.sent)
        elif self.is_up:
            self.turn(frame)
        elif frame == ACK0:
            self.say(sign_on(0xC9, self.node))
        elif isinstance(frame, Text) and frame[3:5] == b"\xf0\xd1":
            self.is_up = True
            self.turn(frame)

    def turn(self, frame):
        """What is done with a frame in a session."""
        self.say(ACK0)


class Busy(Peer):
    """A peer that sends a block without records as soon as the one before is answered."""

    def turn(self, frame):
        self.say_block(b"")


class FilePeer(Peer):
    """A peer that sends files on SYSOUT 1, takes those of the hub on every stream, and says commands.

    `to_send` are files, first to go first; `files` are those that came whole; `told` are the texts of messages.
    """

    def __init__(self, *words, **given):
        self.to_send, self.files, self.told, self.waits = [], [], [], []
        super().__init__(*words, **given)

    def begin(self):
        self.state, self.place, self.coming, self.refused, self.went, self.heard = "idle", 0, {}, 0, 0, None
        super().begin()

    def turn(self, frame):
        self.goes = True
        if isinstance(frame, Text):
            if frame[0] == self.heard:
                return  # the same block again: it was answered already
            self.heard = frame[0]
            self.goes = frame[1] & 0x40 == 0 and frame[2] & 0x08 != 0
            for record in records_of(frame):
                self.take(*record)
        if self.is_up:
            self.answer()

    def take(self, rcb, srcb, record):
        if rcb == REQUEST:
            self.coming[srcb] = []
            self.waits.append(bytes([PERMISSION, srcb, 0]))
        elif rcb == PERMISSION and self.state == "requested":
            self.state, self.place = "sending", 0
        elif rcb == REFUSAL:
            self.state = "idle"
            self.refused += 1
        elif rcb == COMPLETE:
            self.state = "idle"
            self.to_send.pop(0)
            self.went += 1
        elif rcb == MESSAGE and record:
            self.told.append(record[30 : 30 + record[3]].decode("cp037"))
        elif rcb in (OUT_OF_SEQUENCE,):
            self.is_up = False
        elif rcb in self.coming:
            self.take_record(rcb, srcb, record)

    def take_record(self, rcb, srcb, record):
        if record is None:
            del self.coming[rcb]
        elif record:
            self.coming[rcb].append((srcb, record))
        else:
            self.files.append(self.coming.pop(rcb))
            self.waits.append(bytes([COMPLETE, rcb, 0]))

    def answer(self):
        """The next block of what waits, or ACK0."""
        records = b"".join(self.waits)
        self.waits.clear()
        if self.state == "idle" and self.to_send:
            records += bytes([REQUEST, SYSOUT, 0])
            self.state = "requested"
        elif self.state == "sending" and self.goes:
            records += self.pieces(BLOCK - 16 - len(records))
        if records:
            self.say_block(records)
        else:
            self.say(ACK0)

    def pieces(self, room):
        """Records of the file that is being sent, as many as have room."""
        found, file = b"", self.to_send[0]
        while self.place <= len(file):
            srcb, record = file[self.place] if self.place < len(file) else (0x80, b"")
            piece = bytes([SYSOUT, srcb]) + spelled(record)
            if len(found) + len(piece) > room:
                break
            found += piece
            self.place += 1
        if self.place > len(file):
            self.state = "at its end"
        return found


class Crowd:
    """Peers in a process of their own, so that they cost who measures nothing. `make(loop)` makes them, and they go on
    until the crowd is stopped or `seconds` are over. Then it tells of each of them what `of` says."""

    def __init__(self, make, of=lambda peer: (peer.is_up, peer.answers, peer.longest), seconds=600):
        here, there = multiprocessing.Pipe()
        self.pipe = here
        self.process = multiprocessing.get_context("fork").Process(
            target=self.play, args=(make, of, seconds, there), daemon=True
        )
        self.process.start()
        there.close()
        self.up = self.ask(60)

    @staticmethod
    def play(make, of, seconds, pipe):
        loop = Loop()
        peers = make(loop)
        loop.run(30, lambda: all(peer.is_up or peer.is_closed for peer in peers))
        pipe.send(sum(peer.is_up for peer in peers))
        end = time.monotonic() + seconds
        while time.monotonic() < end:
            loop.run(min(1.0, end - time.monotonic()), pipe.poll)
            if not pipe.poll():
                continue
            word = pipe.recv()
            pipe.send(([of(peer) for peer in peers], time.monotonic(), time.process_time()))
            if word == "stop":
                break
            for peer in peers:
                peer.longest = 0.0
        loop.close()

    def ask(self, seconds):
        if not self.pipe.poll(seconds):
            raise TimeoutError("the crowd says nothing")
        return self.pipe.recv()

    def look(self, word="look"):
        """What its peers say now, the time, and the seconds of processor that they used."""
        self.pipe.send(word)
        return self.ask(10)

    def __enter__(self):
        return self

    def __exit__(self, *_):
        self.process.kill()
        self.process.join()
