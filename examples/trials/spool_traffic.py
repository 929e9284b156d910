"""The loop of the peers of a spool's trials, and their streams to the hub."""

import heapq
import time

from frames import CARD, spelled
from peers import Loop


class Traffic(Loop):
    """A loop whose peers can wait. `dead` is set when the hub was killed: what it sent before is still heard."""

    def __init__(self):
        super().__init__()
        self.dead, self.later = False, []

    def after(self, seconds, peer):
        heapq.heappush(self.later, (time.monotonic() + seconds, id(peer), peer))

    def run(self, seconds, until=lambda: False):
        end = time.monotonic() + seconds
        while not until():
            now = time.monotonic()
            while self.later and self.later[0][0] <= now:
                heapq.heappop(self.later)[2].answer()
            if now >= end:
                return False
            wake = self.later[0][0] if self.later else end
            for place, _ in self.poll.poll(max(0.0, min(end, wake) - now)):
                if place in self.peers:
                    self.peers[place].readable()
        return True

    def drain(self):
        """The hub is dead: all that it sent is heard, and nothing is said."""
        self.dead = True
        self.later.clear()
        super().run(2, lambda: not self.peers)


class Sending:
    """A stream to the hub, with the file that goes on it."""

    def __init__(self, rcb):
        self.rcb, self.state, self.entry, self.place = rcb, "idle", None, 0

    def pieces(self, room):
        """Records of the file, as many as have room; after the last its end."""
        found, file = b"", self.entry.records
        while self.place <= len(file):
            srcb, record = file[self.place] if self.place < len(file) else (CARD, b"")
            piece = bytes([self.rcb, srcb]) + spelled(record)
            if len(found) + len(piece) > room:
                return found
            found += piece
            self.place += 1
        self.state = "at its end"
        return found
