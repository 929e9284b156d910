"""Relays of the trials: what comes on a line is handed on to its other end, and it is noted when each piece came.

A relay stands between two ends of a line, as between two hubs, in a process of its own. Whoever would dial the other
end dials the relay's port, and the relay the other end's. So all that goes over the line is seen from outside, with
times of one clock, and with it which end has the turn: the one that was sent an ACK0 and has sent nothing since. To any
other frame an answer is on its way.
"""

import multiprocessing
import select
import socket
import time
import typing

from frames import ACK0, Deframer
from hub import connected

# The ways on a line: from the end that dialled, and to it.
FROM_DIALLER, TO_DIALLER = 0, 1


class Passed(typing.NamedTuple):
    """A frame that was handed on: the nanosecond, the number of the line, the way, and the frame."""

    at: int
    line: int
    way: int
    frame: bytes


class Relay:
    """Hands on the bytes of lines whose other ends listen on these ports, for so many seconds at most. `ports` are its
    own, in the same order."""

    def __init__(self, targets, seconds=3600):
        listeners = [socket.create_server(("127.0.0.1", 0)) for _ in targets]
        self.ports = [one.getsockname()[1] for one in listeners]
        self.deframers = {}
        self.pipe, there = multiprocessing.Pipe()
        self.process = multiprocessing.get_context("fork").Process(
            target=play, args=(listeners, targets, there, seconds), daemon=True
        )
        self.process.start()
        there.close()
        for one in listeners:
            one.close()

    def passed(self):
        """The frames that were handed on since the last call, in their order."""
        self.pipe.send("notes")
        if not self.pipe.poll(30):
            raise TimeoutError("the relay says nothing")
        found = []
        for at, line, way, data in self.pipe.recv():
            deframer = self.deframers.setdefault((line, way), Deframer())
            found += [Passed(at, line, way, frame) for frame in deframer.feed(data)]
        return found

    def __enter__(self):
        return self

    def __exit__(self, *_):
        self.process.kill()
        self.process.join()


def play(listeners, targets, pipe, seconds):
    """The relay's process."""
    end, poll, notes, ends = time.monotonic() + seconds, select.epoll(), [], {}
    doors = {one.fileno(): (line, one) for line, one in enumerate(listeners)}
    for place in (*doors, pipe.fileno()):
        poll.register(place, select.EPOLLIN)
    while time.monotonic() < end:
        for place, _ in poll.poll(1):
            if place in ends:
                hand_on(place, ends, poll, notes)
            elif place in doors:
                line, listener = doors[place]
                join(line, listener.accept()[0], targets[line], ends, poll)
            elif place == pipe.fileno():
                pipe.recv()
                pipe.send(notes)
                notes.clear()


def join(line, dialler, port, ends, poll):
    """Joins a connection that was made to the end that listens on a port."""
    try:
        other = connected(port, timeout=5, patience=20)
    except OSError:
        dialler.close()
        return
    dialler.settimeout(5)
    dialler.setsockopt(socket.IPPROTO_TCP, socket.TCP_NODELAY, 1)
    for one, two, way in ((dialler, other, FROM_DIALLER), (other, dialler, TO_DIALLER)):
        ends[one.fileno()] = (line, way, one, two)
        poll.register(one.fileno(), select.EPOLLIN)


def hand_on(place, ends, poll, notes):
    """Hands on what came on a connection, or its end."""
    line, way, one, two = ends[place]
    try:
        data = one.recv(65536)
        at = time.monotonic_ns()
        if data:
            two.sendall(data)
            notes.append((at, line, way, data))
    except OSError:
        data = b""
    if not data:
        for end in (one, two):
            poll.unregister(end.fileno())
            del ends[end.fileno()]
            end.close()


def turn_after(last):
    """From which end the next frame is to come: the way that it would go, None while an answer is on its way."""
    return 1 - last.way if last and last.frame == ACK0 else None
