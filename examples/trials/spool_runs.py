"""Runs of a program with a spool file, from its start to its SIGKILL, with peers on all lines; and what is asserted of
the spool file between two runs (spool_kills.py says what)."""

import pathlib
import random
import shutil
import tempfile
import time

from hub import connected
from spool_model import Book, Wrong
from spool_peers import SpoolPeer
from spool_served import Served, check_spool, tables_of
from spool_traffic import Traffic


class Runs:
    """The program in a folder of its own, its customers' books, and what has come of it so far."""

    def __init__(self, options, seed, spool=None):
        self.options, self.chance = options, random.Random(seed)
        self.folder = pathlib.Path(tempfile.mkdtemp(prefix="spool_trial."))
        self.books = [Book("ACME"), Book("BOLT")]
        table, self.ports = tables_of(self.books, 6000)
        self.served = Served(options.program, self.folder, table, spool, options.old)
        self.counts = dict.fromkeys(("frames", "whole", "taken", "there"), 0)

    def listens(self):
        """Waits until the program listens, and says whether it does; it may have ended."""
        end = time.monotonic() + 20
        while time.monotonic() < end and self.served.process.poll() is None:
            try:
                connected(self.ports[-1], patience=0).close()
                return True
            except ConnectionRefusedError:
                time.sleep(0.005)
        return False

    def peers(self, loop, **wish):
        """Peers on all lines. Where many files are there, more are taken."""
        found = []
        for at, port in enumerate(self.ports):
            book, node = self.books[at // 2], ("LYON", "METZ")[at % 2]
            is_full = len(book.sure()) > 25
            own = {"send": 0.1 if is_full else 0.5, "take": 0.8 if is_full else 0.2, **wish}
            try:
                found.append(SpoolPeer(loop, connected(port, patience=0), node, book, self.chance, **own))
            except ConnectionRefusedError:
                loop.dead = True
        return found

    def run(self, seconds, until=lambda peers: False, may_end=False, env=None, **wish):
        """One run: so many seconds from the first session on, or None for a kill within 50 ms of the start. Says
        whether it came to what was waited for, and with which status the program had ended by itself, if it had."""
        self.served.start(env=env)
        loop, peers, came = Traffic(), [], False
        try:
            if seconds is None:
                time.sleep(self.chance.uniform(0, 0.05))
            elif self.listens():
                peers = self.peers(loop, **wish)
                loop.run(10, lambda: loop.dead or any(peer.is_up for peer in peers))
                loop.run(seconds, lambda: until(peers) or loop.dead or any(peer.is_closed for peer in peers))
                came = until(peers)
            was_closed = loop.dead or any(peer.is_closed for peer in peers)
            if was_closed:
                self.served.ends(5)
            status = self.served.process.poll()
            self.served.kill()
            loop.drain()
        finally:
            self.served.kill()
            loop.close()
        if not may_end and (status is not None or was_closed):
            raise Wrong(f"the hub ended a line, or itself with status {status}: {self.served.log()[-3:]}")
        for peer in peers:
            self.counts["frames"] += peer.answers
            if peer.problem:
                raise peer.problem
        return came, status

    def check(self):
        """What is asserted between two runs."""
        for book in self.books:
            entries = book.entries.values()
            self.counts["whole"] += sum(entry.whole is not None and entry.shown is None for entry in entries)
            self.counts["taken"] += sum(entry.is_taken for entry in entries)
        if self.options.old:
            for book in self.books:
                book.entries = {}
            return
        self.counts["there"] = check_spool(self.served, self.books, self.folder / "copy", self.chosen)

    def chosen(self, shown):
        """Files to be exported: some of those that are new in this listing, and one of the others."""
        fresh, known = [one for one in shown if one.is_new], [one for one in shown if not one.is_new]
        count = getattr(self.options, "exports", 1)
        return self.chance.sample(fresh, min(count, len(fresh))) + self.chance.sample(known, min(count, 1, len(known)))

    def size(self):
        """Kilobytes of the spool file and its log."""
        return sum(path.stat().st_size for path in self.served.spool.parent.glob(self.served.spool.name + "*")) // 1024

    def empty(self):
        """The run goes on to its end: all is released and taken, and nothing is left."""
        wish = {"send": 0.0, "take": 1.0, "refuse": 0.0, "command": 0.5, "verbs": ("RELEASE",)}
        for _ in range(10):
            came, _ = self.run(20, lambda peers: not any(book.maybe() for book in self.books), **wish)
            self.check()
            if came:
                break
        if any(book.sure() for book in self.books):
            raise Wrong(f"not all could be taken: {[entry.name for book in self.books for entry in book.sure()]}")

    def clear(self):
        shutil.rmtree(self.folder)
