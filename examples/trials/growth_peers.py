"""Peers of spool_growth.py: those that make files and give them up, cancel them or have them taken, each on SYSOUT 1 of
its line, and one that gives LIST and rests. Each knows what the hub is to answer, and says if it answers otherwise."""

import random
import time

from frames import (
    ACK0,
    CARD,
    COMPLETE,
    DATA_SET_HEADER,
    GENERAL,
    JOB_HEADER,
    MESSAGE,
    NAK,
    OUT_OF_SEQUENCE,
    PERMISSION,
    REFUSAL,
    REQUEST,
    SYSOUT,
    TRAILER,
    Text,
    command,
    ebcdic,
    file_of,
    records_of,
    spelled,
)
from peers import FilePeer, Peer
from spool_model import Wrong, name_in

# How many bytes the records of a frame may take, so that it has 4,096 at most, also where some are doubled; and how
# many blocks of a quota they cost at most.
ROOM, COST = 4080, 17

# The most frames that a file of cards fills.
CARD_BLOCKS = 3

# How many seconds lie between two LISTs at least.
REST = 0.05

OWNER, RECEIVER, NOBODY = "ANNA", "PAUL", "NZ"


def piece(srcb, record):
    """A record on SYSOUT 1, as it stands in a block."""
    return bytes([SYSOUT, srcb]) + spelled(record)


A_CARD = ebcdic("THE QUICK BROWN FOX JUMPS OVER THE LAZY DOG".ljust(80))

SMALLEST, OF_CARDS = bytes([SYSOUT, CARD, 0x81, 0x00]), piece(CARD, A_CARD)

# What ends a file that is given up, by its fate: nothing if the next request does.
LAST_WORDS = {
    "replaced": b"",
    "aborted": bytes([SYSOUT, CARD, 0x40]),
    "cut off": bytes([SYSOUT, CARD, 0x00]),
}

WHOLE = piece(TRAILER, bytes.fromhex("00040000")) + bytes([SYSOUT, CARD, 0x00])


class Known(Peer):
    """A peer that knows each answer: `act` does what is to be done with a frame, or says that it is Wrong."""

    wrong = None

    def hear(self, frame):
        if frame == NAK:  # the hub didn't wait, and reads the block all the same
            self.naks += 1
        else:
            super().hear(frame)

    def turn(self, frame):
        try:
            if not isinstance(frame, Text) and frame != ACK0:
                raise Wrong(f"is answered {frame.hex()}")
            self.act(frame)
        except Wrong as wrong:
            self.wrong = f"line {self.name} {wrong}"
            self.close()

    def waited(self):
        """The longest answer since the last look, or how long there is none."""
        return max(self.longest, time.monotonic() - self.at)


class Maker(Known, FilePeer):
    """A peer that makes files. The one that goes on has `left` frames to fill and `units` of its records so far; `fate`
    is what becomes of it then. `on_way` has how many cards each file has that the customer's lines are to take."""

    def __init__(self, loop, place, options, on_way):
        self.name, self.on_way, self.cards, self.share = place.name, on_way, options.cards, share_of(options)
        self.other = f"N{(place.line + 1) % options.lines}"
        self.chance = random.Random(f"{options.seed} {place.name}")
        self.number = self.left = self.units = self.given_up = self.cancelled = self.came = 0
        self.due, self.reply, self.fate, self.is_whole = [], None, None, False
        super().__init__(loop, place.port, place.node)

    def act(self, frame):
        FilePeer.turn(self, frame)

    def take(self, rcb, srcb, record):
        if rcb in (PERMISSION, REFUSAL, COMPLETE):
            if not self.due or self.due.pop(0) != rcb or srcb != SYSOUT:
                raise Wrong(f"is answered {rcb:02X} {srcb:02X}; file {self.number} is to be {self.fate}")
        elif rcb == MESSAGE:
            text = (record or b"")[30:].decode("cp037")
            if text != self.reply:
                raise Wrong(f"is told {text}, not {self.reply}")
            self.reply = None
            self.cancelled += 1
        elif rcb == OUT_OF_SEQUENCE or (rcb == GENERAL and srcb != 0xD1):
            raise Wrong(f"is told {rcb:02X} {srcb:02X}")
        else:
            super().take(rcb, srcb, record)

    def take_record(self, rcb, srcb, record):
        if record is None:
            raise Wrong("is sent an abort")
        super().take_record(rcb, srcb, record)
        while self.files:
            self.check(self.files.pop())

    def check(self, records):
        """A file that came whole was sent to this node, and is taken once."""
        header = records[0][1]
        origin, number = name_in(header, 68), int.from_bytes(header[8:10], "big")
        count = self.on_way.pop((origin, number), None)
        if count is None or records != file_of(number, origin, OWNER, self.node, RECEIVER, [A_CARD] * count):
            raise Wrong(f"is sent {origin}.{number} twice, or with other records")
        self.came += 1

    def answer(self):
        """The next frame, after the answers to all of the last one; the turn is never left to the hub."""
        if self.due or self.reply:
            raise Wrong(f"isn't answered {[f'{code:02X}' for code in self.due]} {self.reply}")
        records = b"".join(self.waits)
        self.waits.clear()
        self.say_block(records + self.next_records(ROOM - len(records)))

    def next_records(self, room):
        """What becomes of the file before, and a file's records up to the frame's end."""
        found = b""
        if self.is_whole:
            found = self.cancel()
        elif self.fate and not self.left:
            found = self.end_file()
            if self.is_whole:
                return found
        if not self.left:
            found += self.begin_file()
        count = (room - len(found)) // len(self.unit)
        self.left -= 1
        self.units += count
        return found + count * self.unit

    def begin_file(self):
        """The request and the headers of another file."""
        self.number, self.units = self.number % 60000 + 1, 0
        fates = [*LAST_WORDS, "cancelled", "cancelled"]
        if 100 * self.chance.random() < self.cards:
            self.unit, self.left = OF_CARDS, self.chance.randint(1, CARD_BLOCKS)
            if self.other != self.node and all(origin != self.node for origin, _ in self.on_way):
                fates += ["taken", "taken"]
        else:
            self.unit, self.left = SMALLEST, self.chance.choice((2, self.chance.randint(2, self.share)))
        self.fate = self.chance.choice(fates)
        self.due.append(PERMISSION)
        to = self.other if self.fate == "taken" else NOBODY
        (_, job), (_, data_set), _ = file_of(self.number, self.node, OWNER, to, RECEIVER, [])
        return bytes([REQUEST, SYSOUT, 0]) + piece(JOB_HEADER, job) + piece(DATA_SET_HEADER, data_set)

    def end_file(self):
        """The file's end, as its fate has it."""
        if self.fate in LAST_WORDS:
            self.given_up += 1
            self.due += [REFUSAL] * (self.fate == "cut off")
            return LAST_WORDS[self.fate]
        if self.fate == "taken":
            self.on_way[self.node, self.number] = self.units
        self.is_whole = self.fate == "cancelled"
        self.due.append(COMPLETE)
        return WHOLE

    def cancel(self):
        self.is_whole, name = False, f"{self.node}.{self.number}"
        self.reply = f"NJH005 {name} CANCELLED 1"
        return command("BUREAU", self.node, OWNER, f"CANCEL {name}")


class Lister(Known):
    """The peer of the quiet line: it gives LIST, is told that there are no files, and rests."""

    def __init__(self, loop, place):
        self.name, self.times, self.list = place.name, [], command("BUREAU", place.node, OWNER, "LIST")
        super().__init__(loop, place.port, place.node)

    def act(self, frame):
        records = records_of(frame) if isinstance(frame, Text) else []
        if all(rcb != GENERAL for rcb, _, _ in records):  # else the session begins with it
            self.times.append(time.monotonic() - self.at)
            told = [(rcb, (record or b"")[30:].decode("cp037")) for rcb, _, record in records]
            if told != [(MESSAGE, "NJH002 0 FILES")]:
                raise Wrong(f"is told {told}")
            time.sleep(REST)
        self.say_block(self.list)


def share_of(options):
    """How many frames a file of the smallest records may fill, beside one of cards that waits to be taken."""
    share = (options.quota // options.lines - COST * CARD_BLOCKS) // COST
    return min(share, options.blocks or share)
