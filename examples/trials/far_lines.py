"""Relays of the trials that make lines long, or cut what goes over them: bytes are handed on later, or in random pieces.

Such a relay stands before ends of lines that listen, in a process of its own. Whoever would dial one of them dials the
relay's port. A way has room for a megabyte that is under way; then the relay reads no more of its end, as a network
would. An end that sends no more is handed on behind what it sent, and a reset as an end.
"""

import collections
import contextlib
import multiprocessing
import random
import select
import socket
import time

from hub import connected

# How many bytes may be under way.
ROOM = 1 << 20


class FarLines:
    """A relay before these ports, whose own are `ports`, in the same order. Each way takes `delay` seconds; with a
    `seed` what goes over it is cut into pieces of 1 to some 2,000 bytes, up to two milliseconds apart."""

    def __init__(self, targets, delay=0.0, seed=None, seconds=3600):
        listeners = [socket.create_server(("127.0.0.1", 0)) for _ in targets]
        self.ports = [one.getsockname()[1] for one in listeners]
        relay = Relaying(listeners, targets, delay, seed)
        self.process = multiprocessing.get_context("fork").Process(target=relay.play, args=(seconds,), daemon=True)
        self.process.start()
        for one in listeners:
            one.close()

    def __enter__(self):
        return self

    def __exit__(self, *_):
        self.process.kill()
        self.process.join()


class Way:
    """What goes from one end to the other."""

    def __init__(self, one, two, delay, chance):
        self.one, self.two, self.delay, self.chance = one, two, delay, chance
        self.under_way, self.bytes, self.is_over, self.is_shut, self.next = collections.deque(), 0, False, False, 0.0

    def has_room(self):
        return self.bytes < ROOM and not self.is_over

    def take(self, now):
        """Reads what is there."""
        try:
            data = self.one.recv(65536)
        except BlockingIOError:
            return
        except OSError:
            data = b""
        self.is_over = not data
        self.bytes += len(data)
        while data:
            size = len(data) if self.chance is None else self.chance.choice((1, 2, 3, 11, 12, 13, 33, 200, 700, 2000))
            self.under_way.append((now + self.delay, data[:size]))
            data = data[size:]

    def due(self):
        """When something of it is to be handed on; None if nothing is."""
        if self.under_way:
            return max(self.under_way[0][0], self.next)
        return 0.0 if self.is_over and not self.is_shut else None

    def hand_on(self, now):
        """Hands on what is due."""
        while self.under_way and max(self.under_way[0][0], self.next) <= now:
            moment, data = self.under_way.popleft()
            try:
                sent = self.two.send(data)
            except BlockingIOError:
                sent = 0
            except OSError:
                self.under_way.clear()
                self.is_over = True
                return
            self.bytes -= sent
            if sent < len(data):
                self.under_way.appendleft((moment, data[sent:]))
                self.next = now + 0.002
            elif self.chance:
                self.next = now + self.chance.choice((0.0, 0.0, 0.0, 0.0005, 0.001, 0.002))
        if self.is_over and not self.under_way and not self.is_shut:
            self.is_shut = True
            with contextlib.suppress(OSError):
                self.two.shutdown(socket.SHUT_WR)


class Relaying:
    """The relay's process."""

    def __init__(self, listeners, targets, delay, seed):
        self.doors = {one.fileno(): (one, port) for one, port in zip(listeners, targets)}
        self.delay, self.chance = delay, random.Random(seed) if seed is not None else None
        self.ways = {}

    def play(self, seconds):
        end = time.monotonic() + seconds
        while (now := time.monotonic()) < end:
            dues = [due for way in self.ways.values() if (due := way.due()) is not None]
            wait = min(1.0, max(0.0, min(dues) - now)) if dues else 1.0
            reads = [*self.doors, *(place for place, way in self.ways.items() if way.has_room())]
            for place in select.select(reads, [], [], wait)[0]:
                if place in self.doors:
                    self.join(*self.doors[place])
                else:
                    self.ways[place].take(time.monotonic())
            for way in [*self.ways.values()]:
                way.hand_on(time.monotonic())
            self.sweep()

    def join(self, listener, port):
        one = listener.accept()[0]
        try:
            two = connected(port, timeout=5, patience=5)
        except OSError:
            one.close()
            return
        one.setsockopt(socket.IPPROTO_TCP, socket.TCP_NODELAY, 1)
        for end, other in ((one, two), (two, one)):
            end.setblocking(False)
            self.ways[end.fileno()] = Way(end, other, self.delay, self.chance)

    def sweep(self):
        """Closes connections on which neither end sends any more."""
        for place, way in [*self.ways.items()]:
            back = self.ways.get(way.two.fileno())
            if place in self.ways and way.is_shut and (back is None or back.is_shut):
                for end in (way.one, way.two):
                    self.ways.pop(end.fileno(), None)
                    end.close()
