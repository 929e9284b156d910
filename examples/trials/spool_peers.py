"""Peers of the trials of a spool file: they send files on SYSIN 1 and SYSOUT 1, take files, and give commands.

Each keeps the book of its customer (spool_model.py) as exactly as it can be known: before it sends what may change the
hub's files it notes both outcomes, and the one that came when the hub's answer says so. What it does is drawn from a
`random.Random`. A peer that the hub asks again (3D) says nothing more in this run, so that every frame of the hub is
the answer to the last one that was sent.
"""

import re
import time

from frames import (
    CARD,
    COMPLETE,
    DATA_SET_HEADER,
    GENERAL,
    MESSAGE,
    NAK,
    OUT_OF_SEQUENCE,
    PERMISSION,
    REFUSAL,
    REQUEST,
    Deframer,
    Text,
    command,
    ebcdic,
    file_of,
    records_of,
)
from peers import Peer
from spool_model import BOTH, NO, SYSIN_1, SYSOUT_1, YES, Entry, Wrong, name_in
from spool_traffic import Sending, Traffic

ROOM = 1000

# Who uses a peer's node, where their files go, and the nodes behind the other line.
USERS = {"LYON": ("ANNA", ("METZ", "PARIS")), "METZ": ("PAUL", ("LYON", "NICE"))}

VERBS = ("LIST", "HOLD", "HOLD", "RELEASE", "RELEASE", "REROUTE", "CANCEL")

LISTED = re.compile(r"NJH001 (\S+) TO (\S+) (\S+) (IN|OUT) (\d+) RECORDS (\S+)")


class SpoolPeer(Peer):
    """A peer that keeps the book of its customer. `wish` says how it behaves: the shares of what it does."""

    def __init__(self, loop, connection, node, book, chance, **wish):
        self.loop, self.socket, self.node, self.book, self.chance = loop, connection, node, book, chance
        self.deframer, self.problem, self.is_silent, self.is_closed, self.is_up = Deframer(), None, False, False, False
        self.naks, self.answers, self.longest = 0, 0, 0.0
        self.user, self.others = USERS[node]
        self.wish = {"send": 0.5, "command": 0.3, "take": 0.5, "refuse": 0.1, "large": 0.03, "verbs": VERBS, **wish}
        loop.add(self)
        self.begin()

    def begin(self):
        self.streams = {rcb: Sending(rcb) for rcb in (SYSIN_1, SYSOUT_1)}
        self.coming, self.waits, self.completing, self.asked, self.heard = {}, [], [], None, None
        self.listed, self.sure = [], []
        super().begin()

    def say(self, frame):
        if self.loop.dead:
            return
        self.sent, self.at = frame, time.monotonic()
        try:
            self.socket.sendall(frame)
        except OSError:  # the hub has ended, but what it sent is still to be heard
            self.loop.dead = True

    def hear(self, frame):
        if frame == NAK:
            self.naks, self.is_silent = self.naks + 1, True
            return
        super().hear(frame)

    def turn(self, frame):
        if self.is_silent:
            return
        try:
            for entry in self.completing:  # its completion was answered
                self.book.gone(entry)
                entry.is_taken = True
            self.completing = []
            if isinstance(frame, Text) and frame[0] != self.heard:
                self.heard = frame[0]
                for record in records_of(frame):
                    self.take(*record)
        except Wrong as wrong:
            self.problem = self.problem or wrong
        if self.is_up and not self.loop.dead:
            self.loop.after(self.chance.choice((0, 0, 0.001, 0.003)), self)

    def take(self, rcb, srcb, record):
        if rcb in (OUT_OF_SEQUENCE, GENERAL) and not (rcb == GENERAL and srcb == 0xD1):
            raise Wrong(f"{self.book.name} {self.node}: the hub ended the session by {rcb:02X} {srcb:02X}")
        if rcb == REQUEST:
            if self.chance.random() < self.wish["take"]:
                self.coming[srcb] = []
                self.waits.append((PERMISSION, srcb, None))
            elif self.chance.random() < 3 * self.wish["refuse"]:
                self.waits.append((REFUSAL, srcb, None))
        elif rcb in (PERMISSION, REFUSAL, COMPLETE) and srcb in self.streams:
            self.answered(self.streams[srcb], rcb)
        elif rcb == MESSAGE and record:
            self.reply(record[30 : 30 + record[3]].decode("cp037"))
        elif rcb in self.coming:
            self.take_record(rcb, srcb, record)

    def answered(self, stream, rcb):
        if rcb == PERMISSION and stream.state == "requested":
            stream.state, stream.place = "sending", 0
        elif rcb == COMPLETE and stream.state == "at its end":
            self.book.completed(stream.entry)
            stream.state = "idle"
        elif rcb == REFUSAL:  # no room, or it isn't whole
            if stream.state == "at its end":
                self.book.gone(stream.entry)
            stream.state = "idle" if stream.state in ("requested", "at its end") else "refused"

    def take_record(self, rcb, srcb, record):
        if record is None:
            del self.coming[rcb]
        elif record:
            self.coming[rcb].append((srcb, record))
        else:
            records = self.coming.pop(rcb)
            header = records[0][1]
            entry = self.book.came(int.from_bytes(header[8:10], "big"), name_in(header, 68), records)
            draw = self.chance.random()
            if draw >= 1.5 * self.wish["refuse"]:
                self.waits.append((COMPLETE, rcb, entry))
            elif draw < self.wish["refuse"]:
                self.waits.append((REFUSAL, rcb, None))

    def reply(self, text):
        found = LISTED.match(text)
        if found:
            self.listed.append(found)
            return
        if not self.asked or text[:6] in ("NJH020", "NJH021", "NJH022", "NJH023"):
            return
        verb, entry, to = self.asked
        code = text[3:6]
        if code == "002" or (verb != "LIST" and code in ("003", "004", "005", "006", "010", "012")):
            self.asked = None
        if code == "002":
            self.check_list()
        elif code == "003":
            entry.held = YES
        elif code == "004":
            entry.held = NO
        elif code == "005":
            self.book.gone(entry)
        elif code == "006":
            entry.to = frozenset((to,))
        elif code == "010":
            if False not in entry.has:
                raise Wrong(f"{self.book.name}: {entry.name} isn't found, and it can't have gone")
            self.book.gone(entry)
        if code in ("010", "012") and verb != "CANCEL":
            entry.held, entry.to = self.before

    def check_list(self):
        """LIST has what the hub must have all along, and nothing that it can't have."""
        names = [found[1] for found in self.listed]
        for entry in self.sure:
            if entry.has == YES and entry.name not in names:
                raise Wrong(f"{self.book.name}: LIST lacks {entry.name}")
        for found in self.listed:
            entry = self.book.entries.get(found[1])
            if entry is None or found[2] not in entry.to or int(found[5]) != len(entry.records):
                raise Wrong(f"{self.book.name}: LIST has {found[0]}")

    def answer(self):
        """The next block: answers, the streams' records, and a command."""
        if self.is_closed or not self.is_up or self.loop.dead:
            return
        records = self.answers_now()
        for stream in self.chance.sample(list(self.streams.values()), 2):
            records += self.next_of(stream, ROOM - len(records))
        if not self.asked and len(records) < 800 and self.chance.random() < self.wish["command"]:
            records += self.next_command()
        self.say_block(records)

    def answers_now(self):
        records = b""
        for code, rcb, entry in self.waits:
            records += bytes([code, rcb, 0])
            if code == COMPLETE:
                entry.has = entry.has | NO
                self.completing.append(entry)
        self.waits = []
        return records

    def next_of(self, stream, room):
        if stream.state == "idle" and self.chance.random() < self.wish["send"]:
            stream.entry, stream.state = self.new_file(stream.rcb), "requested"
            return bytes([REQUEST, stream.rcb, 0])
        if stream.state == "refused":  # the hub drains up to an abort
            stream.state = "idle"
            return bytes([stream.rcb, CARD, 0x40])
        if stream.state != "sending":
            return b""
        pieces = stream.pieces(room)
        if stream.state == "at its end":
            self.book.ended(stream.entry)
        return pieces

    def new_file(self, rcb):
        draw, book = self.chance.random(), self.book
        count = 500 if draw < self.wish["large"] else self.chance.choice((1, 2, 3, 10, 40))
        number, to, kind = book.next_number(), self.chance.choice(self.others), "IN" if rcb == SYSIN_1 else "OUT"
        texts = [f"{book.name} {self.node}.{number} {at}".ljust(self.chance.randint(20, 200)) for at in range(count)]
        records = file_of(number, self.node, self.user, to, "OTHER", [ebcdic(text) for text in texts])
        if kind == "IN":
            records = [one for one in records if one[0] != DATA_SET_HEADER]
        entry = Entry(number, self.node, self.user, to, kind, records)
        book.add(entry)
        return entry

    def next_command(self):
        mine = [one for one in self.book.entries.values() if one.user == self.user and True in one.has]
        verb = self.chance.choice(self.wish["verbs"])
        if verb == "LIST" or not mine:
            if len(mine) > 60:
                return b""
            self.asked, self.listed, self.sure = ("LIST", None, None), [], self.book.sure(self.user)
            return command("BUREAU", self.node, self.user, "LIST")
        entry, to = self.chance.choice(mine), self.chance.choice(self.others)
        self.before = entry.held, entry.to
        self.asked = verb, entry, to
        if verb == "CANCEL":
            entry.has = BOTH
        elif verb == "REROUTE":
            entry.to = entry.to | {to}
        else:
            entry.held = entry.held | (YES if verb == "HOLD" else NO)
        words = [verb, entry.name] + [to] * (verb == "REROUTE")
        return command("BUREAU", self.node, self.user, " ".join(words))
