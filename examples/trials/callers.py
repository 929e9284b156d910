"""Visitors of the console that misbehave: a process for each kind, with so many at a time.

One that is let go comes again at once. The kinds:

- `silent` connects, and says nothing;
- `half` says half a request, and no more;
- `drip` says a byte of an endless head each third of a second;
- `pipeline` has some thirty requests more under way than it was answered, at any time;
- `unread` asks again and again, and reads no answer;
- `connect` ends each connection at once.
"""

import contextlib
import multiprocessing
import os
import resource
import select
import signal
import socket
import threading
import time

STATUS = b"GET /v1/status HTTP/1.1\r\nHost: hub\r\n\r\n"

# What one drips, at most: longer heads are refused.
DRIPPED = b"GET /v1/status HTTP/1.1\r\nHost: hub\r\nX: " + b"x" * 3000


def visit(path, timeout=20.0):
    visitor = socket.socket(socket.AF_UNIX)
    visitor.settimeout(timeout)
    try:
        visitor.connect(path)
    except OSError:
        visitor.close()
        raise
    return visitor


def silent(visitor):
    visitor.recv(1)


def half(visitor):
    visitor.sendall(STATUS[:30])
    visitor.recv(1)


def drip(visitor):
    for byte in DRIPPED:
        visitor.sendall(bytes([byte]))
        visitor.settimeout(0.3)
        with contextlib.suppress(socket.timeout):
            if not visitor.recv(4096):
                return


def pipeline(visitor):
    waiting, tail = 0, b""
    while True:
        if waiting < 30:
            visitor.sendall(STATUS * 30)
            waiting += 30
        data = visitor.recv(65536)
        if not data:
            return
        waiting -= (tail + data).count(b"HTTP/1.1 ") - tail.count(b"HTTP/1.1 ")
        tail = (tail + data)[-8:]


def unread(visitor):
    visitor.settimeout(1.0)
    while True:
        with contextlib.suppress(socket.timeout):
            visitor.sendall(STATUS)


def connect(_):
    """Nothing: the connection ends at once."""


KINDS = {kind.__name__: kind for kind in (silent, half, drip, pipeline, unread, connect)}


class Callers:
    """So many visitors of a kind, in a process of their own, until they are stopped."""

    def __init__(self, console, kind, count, core=None):
        words = (str(console), KINDS[kind], count, core)
        self.process = multiprocessing.get_context("fork").Process(target=self.play, args=words, daemon=True)
        self.process.start()

    @staticmethod
    def play(path, kind, count, core):
        signal.signal(signal.SIGINT, signal.SIG_IGN)
        if core is not None:
            os.sched_setaffinity(0, {core})

        def again():
            while True:
                try:
                    with visit(path) as visitor:
                        kind(visitor)
                except OSError:
                    time.sleep(0.01)

        for _ in range(count):
            threading.Thread(target=again, daemon=True).start()
        time.sleep(600)

    def __enter__(self):
        time.sleep(0.3)
        return self

    def __exit__(self, *_):
        self.process.kill()
        self.process.join()


class Storm:
    """So many silent visitors at once, over some processes, each until it is let go."""

    PROCESSES = 4

    def __init__(self, console, count, patience, core=None):
        fork, self.begin = multiprocessing.get_context("fork"), time.monotonic()
        self.pipes, self.processes = [], []
        for _ in range(self.PROCESSES):
            here, there = multiprocessing.Pipe()
            words = (str(console), count // self.PROCESSES, self.begin + patience, core, there)
            self.pipes.append(here)
            self.processes.append(fork.Process(target=self.play, args=words, daemon=True))
            self.processes[-1].start()

    @staticmethod
    def play(path, count, end, core, pipe):
        """Says how many were connected and how many were let go, and when the last of each was."""
        if core is not None:
            os.sched_setaffinity(0, {core})
        hard = resource.getrlimit(resource.RLIMIT_NOFILE)[1]
        resource.setrlimit(resource.RLIMIT_NOFILE, (hard, hard))
        poll, visitors = select.epoll(), {}
        connected, gone, last_in, last_out = 0, 0, 0.0, 0.0
        while gone < count and time.monotonic() < end:
            for _ in range(min(50, count - connected)):
                visitor = socket.socket(socket.AF_UNIX)
                visitor.setblocking(False)
                try:
                    visitor.connect(path)
                except OSError:  # as many wait as the console lets wait
                    visitor.close()
                    break
                visitors[visitor.fileno()] = visitor
                poll.register(visitor.fileno(), select.EPOLLIN)
                connected, last_in = connected + 1, time.monotonic()
            for place, _ in poll.poll(0.001 if connected < count else 0.1, 256):
                poll.unregister(place)
                visitors.pop(place).close()
                gone, last_out = gone + 1, time.monotonic()
        pipe.send((connected, gone, last_in, last_out))

    def is_over(self):
        return not any(process.is_alive() for process in self.processes)

    def told(self):
        """How many were connected and let go, and after how many seconds the last of each was."""
        found = [pipe.recv() if pipe.poll(5) else (0, 0, 0.0, 0.0) for pipe in self.pipes]
        connected, gone, last_in, last_out = zip(*found)
        return sum(connected), sum(gone), max(last_in) - self.begin, max(last_out) - self.begin

    def __enter__(self):
        return self

    def __exit__(self, *_):
        for process in self.processes:
            process.kill()
            process.join()
