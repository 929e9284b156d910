"""Addresses beyond loopback for the trials, and the strangers who connect from them.

A script that calls `in_own_network` begins anew in a network namespace of its own, which has the addresses below, so
that nothing of this machine's network is touched, and all of it is gone at the end; so are file systems that it mounts.
That needs root, `ip` and `unshare`.
"""

import collections
import multiprocessing
import os
import select
import socket
import subprocess
import sys
import time

from frames import ACK0, CONTACT, Deframer, Text, sign_on

# Where the hub is, and its right peer.
HUB, RIGHT = "198.18.9.1", "198.18.8.1"

# The hub listens there and at loopback.
LISTENS = ("--listen", "0.0.0.0")

IN_OWN = "TRIAL_IN_OWN_NETWORK"


def stranger(number):
    """The address of a stranger, counted from 0."""
    return f"198.18.{number // 250}.{number % 250 + 1}"


def in_own_network(strangers=250):
    """Begins the script anew in a network of its own, or makes the addresses if it has done so."""
    if IN_OWN not in os.environ:
        if os.geteuid():
            sys.exit("needs root, for a network of its own")
        words = ["unshare", "--net", "--mount", "--", sys.executable, *sys.argv]
        os.execvpe(words[0], words, {**os.environ, IN_OWN: "1"})
    addresses = [HUB, RIGHT, *map(stranger, range(strangers))]
    orders = "link set lo up\n" + "".join(f"addr add {address}/32 dev lo\n" for address in addresses)
    subprocess.run(["ip", "-batch", "-"], input=orders, text=True, check=True)


def wrong_sign_on(node, password="WRONG"):
    """A contact and a sign-on with a wrong password."""
    return CONTACT + sign_on(0xC9, node, password=password)


class Strangers:
    """Peers in a process of their own, one from each of these addresses. Each connects, says its words at once, hears
    what comes until the hub ends the connection, and connects again after a pause. Who doesn't stay ends the connection
    at once; who is half open says that it sends no more, and stays."""

    def __init__(self, port, sources, words=b"", pause=0.0, to=HUB, stays=True, is_half_open=False):
        self.pipe, there = multiprocessing.Pipe()
        storm = Storm(port, sources, words, pause, to)
        storm.stays, storm.is_half_open = stays, is_half_open
        self.process = multiprocessing.get_context("fork").Process(target=storm.play, args=(there,), daemon=True)
        self.process.start()
        there.close()

    def stop(self):
        """How many connections there were, how many of them were answered, the answers, how many of these were texts,
        and when each connection was answered first, in seconds of `monotonic`."""
        self.pipe.send("stop")
        if not self.pipe.poll(20):
            raise TimeoutError("the strangers say nothing")
        found = self.pipe.recv()
        self.__exit__()
        return found

    def __enter__(self):
        return self

    def __exit__(self, *_):
        self.process.kill()
        self.process.join()


Heard = collections.namedtuple("Heard", "connections answered answers texts moments")


class Storm:
    """The strangers' process."""

    stays, is_half_open = True, False

    def __init__(self, port, sources, words, pause, to):
        self.port, self.sources, self.words, self.pause, self.to = port, sources, words, pause, to
        self.peers, self.late, self.moments = {}, collections.deque(), []
        self.connections = self.answers = self.texts = 0

    def play(self, pipe, seconds=3600):
        self.poll, end = select.epoll(), time.monotonic() + seconds
        for source in self.sources:
            self.connect(source)
        while time.monotonic() < end and not pipe.poll():
            while self.late and self.late[0][0] <= time.monotonic():
                self.connect(self.late.popleft()[1])
            wait = self.late[0][0] - time.monotonic() if self.late else 0.1
            for place, what in self.poll.poll(max(0.0, min(wait, 0.1)), 64):
                self.ready(place, what)
        if pipe.poll():
            pipe.send(Heard(self.connections, len(self.moments), self.answers, self.texts, self.moments))

    def connect(self, source):
        peer = socket.socket()
        peer.setblocking(False)
        peer.setsockopt(socket.IPPROTO_IP, 24, 1)  # IP_BIND_ADDRESS_NO_PORT
        try:
            peer.bind((source, 0))
            peer.connect_ex((self.to, self.port))
        except OSError:
            peer.close()
            self.late.append((time.monotonic() + 0.1, source))
            return
        self.peers[peer.fileno()] = [peer, source, Deframer(), False]
        self.poll.register(peer.fileno(), select.EPOLLOUT)

    def ready(self, place, what):
        peer, source, deframer, is_answered = self.peers[place]
        try:
            if what & select.EPOLLOUT:
                self.connections += 1
                if self.words:
                    peer.send(self.words)
                if self.is_half_open:
                    peer.shutdown(socket.SHUT_WR)
                self.poll.modify(place, select.EPOLLIN)
                if self.stays:
                    return
            data = peer.recv(65536) if self.stays else b""
        except OSError:
            data = b""
        frames = deframer.feed(data)
        self.answers += sum(frame == ACK0 or isinstance(frame, Text) for frame in frames)
        self.texts += sum(isinstance(frame, Text) for frame in frames)
        if frames and not is_answered:
            self.peers[place][3] = True
            self.moments.append(time.monotonic())
        if not data:
            self.poll.unregister(place)
            del self.peers[place]
            peer.close()
            self.late.append((time.monotonic() + self.pause, source))
