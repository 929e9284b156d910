"""Peers of lines over TCP/IP: what those of peers.py say goes over in TTBs, and each asks for its link, or is asked."""

import contextlib
import select
import socket

from frames import ACK0, CONTACT, Text, sign_on
from hub import connected
from peers import FilePeer
from ttbs import ACK, CALL, HUB, OPEN, RECORD, Ttbs, control, text_of, ttb, words_of


class TcpFilePeer(FilePeer):
    """A peer of files over TCP/IP. It dials, or the hub dials its `listener`.

    Nobody says that a block came, since TCP brings each. So once nothing waits to go out of what it said, the peer goes
    on as if it had been answered ACK0: once for each block of its own, and if none of the hub's came first. While it
    rests it reads nothing, and goes on to send as long as that goes out.
    """

    def __init__(self, loop, port, node, hub=HUB, listener=None, source=None, room=None):
        self.hub, self.listener, self.room = hub, listener, room
        self.answered, self.kept_alive, self.waiting, self.rests, self.owed = None, 0, b"", False, False
        self.ttbs, self.record = Ttbs(), b""
        super().__init__(loop, port, node, source)

    def connect(self, port, source):
        if self.listener:
            self.listener.settimeout(20)
            found = self.listener.accept()[0]
            found.setsockopt(socket.IPPROTO_TCP, socket.TCP_NODELAY, 1)
        else:
            found = connected(port, source=source, **({"SO_RCVBUF": self.room} if self.room else {}))
        found.setblocking(False)
        return found

    def begin(self):
        """Asks for the link, unless the hub does. A session is over with its connection."""
        self.state, self.place, self.coming, self.refused, self.went, self.heard = "idle", 0, {}, 0, 0, None
        self.is_up, self.count, self.goes = False, 0, True
        if not self.listener:
            self.put(control(OPEN, self.node, self.hub))

    # ---- what goes out

    def put(self, data):
        self.waiting += data
        self.push()

    def push(self):
        """Sends on what waits. Once nothing does, a block that was said is answered."""
        while self.waiting and not self.is_closed:
            try:
                self.waiting = self.waiting[self.socket.send(self.waiting) :]
            except BlockingIOError:
                break
            except OSError:
                self.close()
        self.watch()

    def watch(self):
        """What the loop is to tell: a peer that is owed an answer is called as soon as it can send."""
        if not self.is_closed:
            reads = 0 if self.rests else select.EPOLLIN
            self.loop.poll.modify(self.socket.fileno(), reads | (select.EPOLLOUT if self.waiting or self.owed else 0))

    def say(self, frame):
        self.sent = frame
        if isinstance(frame, Text) or frame[:2] == b"\x10\x02":
            self.owed = True
            self.put(ttb(text_of(frame)))
        elif frame == CONTACT:
            self.put(ttb(CALL))

    def go_on(self):
        """Says what there is to say, unasked."""
        if self.is_up and not self.owed:
            self.answer()

    def rest(self, seconds):
        """Reads nothing for so long."""
        self.rests = True
        self.watch()
        self.loop.delay(seconds, self.wake)

    def wake(self):
        self.rests = False
        self.watch()

    # ---- what comes

    def readable(self):
        self.push()
        if not self.rests and not self.is_closed:
            self.take_in()
        if self.owed and not self.waiting and not self.is_closed:
            self.owed = False
            if self.is_up:
                self.answer()
            self.watch()

    def take_in(self):
        try:
            data = self.socket.recv(65536)
        except BlockingIOError:
            return
        except OSError:
            data = b""
        if not data:
            self.close()
            return
        if len(self.record) < RECORD:
            data = self.take_record_of_control(data)
        for ttr in self.ttbs.feed(data):
            if not self.is_closed:
                self.take_ttr(ttr)

    def take_record_of_control(self, data):
        """Takes the OPEN, or its answer, and says what is left."""
        lacks = RECORD - len(self.record)
        self.record, data = self.record + data[:lacks], data[lacks:]
        if len(self.record) == RECORD:
            self.answered = words_of(self.record)
            if self.listener and self.answered == f"OPEN {self.hub} {self.node}":
                self.put(control(ACK, self.node, self.hub))
            elif self.answered == f"ACK {self.hub} {self.node}":
                self.say(CONTACT)
            else:
                self.close()
        return data

    def take_ttr(self, ttr):
        self.answers += 1
        if ttr == CALL and self.listener:
            self.put(ttb(ACK0))
        elif ttr == ACK0 and (self.listener or self.sent != CONTACT):
            self.kept_alive += 1
        elif ttr == ACK0:
            self.hear(ACK0)
        elif ttr[3:] and self.listener and not self.is_up:
            self.is_up = True
            self.say(sign_on(0xD1, self.node))
        else:
            self.owed = False
            self.hear(Text(ttr[2:]))
            self.watch()

    def close(self):
        if not self.is_closed:
            with contextlib.suppress(OSError):
                self.socket.shutdown(socket.SHUT_WR)
        super().close()


def vanish(peer):
    """Has the peer's machine be gone and there again: its connection is forgotten, and nobody is told."""
    peer.socket.setsockopt(socket.IPPROTO_TCP, 19, 1)  # TCP_REPAIR
    peer.loop.drop(peer)
    peer.socket.close()
    peer.is_closed, peer.is_up = True, False
