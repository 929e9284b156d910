"""Shows that lines over TCP/IP carry what bisync lines do: the same files, record by record, and the same messages.

    python3 examples/trials/tcp_pairs.py PROGRAM [--files 40] [--seed 89]

Two plays:

- four pairs of hubs, HUBA and HUBB of each joined by a line: a bisync one, one over TCP/IP on which HUBA dials, one on
  which HUBB does, and one of a pair whose other lines are over TCP/IP too. ANNA at LYON is on a line of HUBA, PAUL at
  METZ on one of HUBB. Both send the other so many files of the same chance in each pair, all bytes and all lengths of
  records among them, and messages between them. The table has a row for each pair: the files and bytes of records
  that came at each end, the messages, and whether all of it is what was sent, in the records' order and bytes, and the
  sessions of all lines came up once and never went down;
- one hub and `examples/peer.py`: a message, a file and a LIST from each end of a line over TCP/IP, which dials the hub
  or is dialled (`--tcp`, `--tcp --accept`), to METZ on a bisync line, and back. Each row says what the receiver has.

The last line says "right", or the script ends with status 1 and says how many rows are wrong.
"""

import pathlib
import random
import socket
import subprocess
import sys
import tempfile
import time

from frames import ebcdic, file_of, message
from hub import Hub, customer_of, free_ports, line_of, options_of, row
from peers import FilePeer, Loop
from tcp_peers import TcpFilePeer

WIDTHS = (34, 14, 14, 9, 5, 5, 6)
PEER = pathlib.Path(__file__).resolve().parent.parent / "peer.py"

# How long files may take, and a command of a peer, in seconds.
PATIENCE, STEP = 120, 60

# The longest record of a file.
LONGEST = 255


def cards_of(chance):
    """The records of a file: of all lengths and bytes, and of what has a meaning on a line."""
    found = []
    for _ in range(chance.choice((1, 3, 20, 120))):
        length = chance.choice((1, 2, 63, 64, 126, 127, 252, LONGEST, chance.randrange(1, LONGEST)))
        kind = chance.randrange(4)
        if kind == 0:
            found.append(chance.randbytes(length))
        elif kind == 1:
            found.append(bytes([chance.choice((0x10, 0x26, 0x00, 0x40, 0x2D, 0x70))]) * length)
        elif kind == 2:
            found.append(ebcdic("THE QUICK BROWN FOX JUMPS OVER THE LAZY DOG ".ljust(LONGEST))[:length])
        else:
            found.append((b"\x10\x02\x10\x26\x10\x70\x01\x2d" * 32)[:length])
    return found


class Pair:
    """Two hubs that are joined so, with a user of each."""

    def __init__(self, options, loop, what, joined, is_people_by_tcp=False):
        self.what, self.by_tcp = what, {"protocol": "tcp"} if is_people_by_tcp else {}
        first, second, rows, back = self.ways(joined)
        self.hubs = [
            Hub(options, "capacity = 20000\n" + customer_of("ACME", "HUBA", 20000, first, rows)),
            Hub(options, "capacity = 20000\n" + customer_of("ACME", "HUBB", 20000, second, back)),
        ]
        for hub in self.hubs:
            hub.serves()
        self.people = self.sign_on(loop, is_people_by_tcp)

    def ways(self, joined):
        """The lines and the routes of each hub. The one that dials calls."""
        self.lyon, self.metz, port = free_ports(3)
        tcp = {} if joined == "bisync" else {"protocol": "tcp"}
        dials, listens = {"role": "call", "connect": f"127.0.0.1:{port}"}, {"role": "answer", "port": port}
        way = (dials, listens) if joined != "HUBB" else (listens, dials)
        first = [line_of("lyon", "LYON", port=self.lyon, **self.by_tcp), line_of("joined", "HUBB", **way[0], **tcp)]
        second = [self.line_of_metz(), line_of("joined", "HUBA", **way[1], **tcp)]
        rows = [("LYON", "lyon"), ("HUBB", "joined"), ("METZ", "joined")]
        return first, second, rows, [("METZ", "metz"), ("HUBA", "joined"), ("LYON", "joined")]

    def line_of_metz(self):
        """METZ's line: over TCP/IP the hub dials it."""
        if not self.by_tcp:
            return line_of("metz", "METZ", port=self.metz)
        self.listener = socket.create_server(("127.0.0.1", self.metz))
        return line_of("metz", "METZ", "call", connect=f"127.0.0.1:{self.metz}", **self.by_tcp)

    def sign_on(self, loop, is_people_by_tcp):
        if not is_people_by_tcp:
            return [FilePeer(loop, self.lyon, "LYON"), FilePeer(loop, self.metz, "METZ")]
        return [TcpFilePeer(loop, self.lyon, "LYON", "HUBA"),
                TcpFilePeer(loop, self.metz, "METZ", "HUBB", listener=self.listener)]

    def is_up(self):
        joined = all(any("joined: session up" in line for line in hub.log()) for hub in self.hubs)
        return joined and all(person.is_up for person in self.people)

    def send(self, options):
        """Has both send what there is to send."""
        chance, ways = random.Random(options.seed), (("LYON", "ANNA", "METZ", "PAUL"), ("METZ", "PAUL", "LYON", "ANNA"))
        self.sent, self.said = [], []
        for person, (node, user, to, receiver) in zip(self.people, ways):
            files = [file_of(1 + at, node, user, to, receiver, cards_of(chance)) for at in range(options.files)]
            self.sent.append(files)
            self.said.append([f"{node} SAYS {number}" for number in range(30)])
            person.to_send.extend(files)
            person.waits.extend(message(to, receiver, node, text) for text in self.said[-1])
            if isinstance(person, TcpFilePeer):
                person.go_on()

    def came(self):
        """What came at each end: of LYON's at METZ's, and back."""
        return list(zip(self.sent, self.said, reversed(self.people)))

    def has_all(self):
        return all(len(one.files) >= len(sent) and len(one.told) >= len(said) for sent, said, one in self.came())

    def row(self):
        logs = [line for hub in self.hubs for line in hub.log()]
        ups, downs = (sum(f"session {way}" in line for line in logs) for way in ("up", "down"))
        wrong = [why for one in self.came() for why in wrong_in(*one)]
        wrong += [line for line in logs if "session down" in line or "failed" in line]
        cells = [f"{len(one.files)}, {sum(size_of(file) for file in one.files):,}" for _, _, one in self.came()]
        right = ups == 4 and not downs and not wrong
        row(WIDTHS, self.what, *cells, sum(len(one.told) for one in self.people), ups, downs, "right" if right else "WRONG")
        for why in wrong[:10]:
            print(f"    {why}")
        return right

    def close(self):
        for hub in self.hubs:
            hub.__exit__()


def size_of(file):
    return sum(len(record) for _, record in file)


def number_of(file):
    """The job's number, which stands in the job header."""
    return int.from_bytes(file[0][1][8:10], "big")


def wrong_in(sent, said, person):
    """What differs between what was sent to a person and what came."""
    found = {number_of(file): file for file in person.files}
    if len(found) != len(person.files) or len(person.files) != len(sent):
        yield f"{person.node} has {len(person.files)} files, {len(found)} numbers, of {len(sent)}"
    for file in sent:
        if (there := found.get(number_of(file))) != file:
            at = next((at for at, pair in enumerate(zip(file, there or [])) if pair[0] != pair[1]), "its end")
            yield f"file {number_of(file)} to {person.node} differs, at record {at}"
    if person.told != said:
        yield f"{person.node} was told {len(person.told)} messages of {len(said)}, or in another order"


def joined(options):
    row(WIDTHS, "the line between the hubs", "at METZ", "at LYON", "messages", "up", "down", "")
    loop, pairs = Loop(), []
    try:
        pairs.append(Pair(options, loop, "bisync", "bisync"))
        pairs.append(Pair(options, loop, "TCP/IP, HUBA dials", "HUBA"))
        pairs.append(Pair(options, loop, "TCP/IP, HUBB dials", "HUBB"))
        pairs.append(Pair(options, loop, "TCP/IP, and so are the others", "HUBA", is_people_by_tcp=True))
        loop.run(30, lambda: all(pair.is_up() for pair in pairs))
        for pair in pairs:
            pair.send(options)
        loop.run(PATIENCE, lambda: all(pair.has_all() for pair in pairs))
        loop.run(0.5)  # for what comes twice
        right = [pair.row() for pair in pairs]
        alike = [sorted(map(repr, one.files)) for one in pairs[0].people]
        same = all([sorted(map(repr, one.files)) for one in pair.people] == alike for pair in pairs)
        print(f"the records that came are {'the same by all pairs' if same else 'NOT the same by all pairs'}")
        return right + [same]
    finally:
        for pair in pairs:
            pair.close()
        loop.close()


# ---- examples/peer.py


class Desk:
    """A hub with LYON, which dials it over TCP/IP, OSLO, which it dials so, and METZ on a bisync line."""

    def __init__(self, options, folder):
        self.folder = pathlib.Path(folder)
        lyon, oslo, metz = free_ports(3)
        lines = [
            line_of("a1", "LYON", port=lyon, protocol="tcp"),
            line_of("a2", "OSLO", "call", connect=f"127.0.0.1:{oslo}", protocol="tcp"),
            line_of("a3", "METZ", port=metz),
        ]
        routes = [("LYON", "a1"), ("OSLO", "a2"), ("METZ", "a3")]
        self.hub = Hub(options, "capacity = 1000\n" + customer_of("ACME", "BUREAU", 1000, lines, routes))
        self.hub.serves()
        self.ways = {
            "LYON": ["--tcp", "--hub", "BUREAU", "--port", str(lyon)],
            "OSLO": ["--tcp", "--accept", "--hub", "BUREAU", "--port", str(oslo)],
            "METZ": ["--port", str(metz)],
        }

    def begin(self, node, *words):
        line = [sys.executable, "-u", str(PEER), *self.ways[node], "--node", node, "--user", f"OF{node}", *words]
        return subprocess.Popen(line, stdin=subprocess.DEVNULL, stdout=subprocess.PIPE, stderr=subprocess.STDOUT, text=True)

    def run(self, node, *words):
        """What a peer prints, and its status."""
        process = self.begin(node, *words)
        try:
            said = process.communicate(timeout=STEP)[0].strip()
        except subprocess.TimeoutExpired:
            process.kill()
            said = process.communicate()[0].strip() + " (it went on)"
        return said, process.returncode

    def file(self, sender, receiver, number):
        """A file from a node to another, which then takes it."""
        letter = self.folder / f"{sender}.txt"
        letter.write_text("".join(f"{at:04} FROM {sender} TO {receiver}\n" for at in range(300)))
        said, status = self.run(sender, "send", str(letter), f"PAUL@{receiver}", "--number", str(number))
        if status or "was transmitted: 300 lines" not in said:
            return f"send: {said}"
        inbox = self.folder / f"{sender}-{receiver}"
        said, status = self.run(receiver, "receive", str(inbox))
        there = inbox / f"{sender}.{number}"
        if status or not there.is_file():
            return f"receive: {said}"
        return "as it was sent" if there.read_text() == letter.read_text() else "it differs"

    def message(self, sender, receiver):
        """A message to a node that listens."""
        listening = self.begin(receiver, "listen")
        try:
            self.waits_for(f"session up with {receiver}")
            said, status = self.run(sender, "tell", f"PAUL@{receiver}", "HELLO FROM", sender)
            if status:
                return f"tell: {said}"
            heard = listening.stdout.readline().strip()
        finally:
            listening.send_signal(2)
            with_end = listening.wait(timeout=STEP)
        wanted = f"{sender} to PAUL: OF{sender}: HELLO FROM {sender}"
        return "as it was said" if heard == wanted and with_end == 0 else f"{heard}, status {with_end}"

    def waits_for(self, words):
        """Waits until one more line of the log has these words, and the hub is at rest."""
        count, end = self.count(words), time.monotonic() + STEP
        while self.count(words) == count and time.monotonic() < end:
            time.sleep(0.05)
        time.sleep(0.3)

    def count(self, words):
        return sum(words in line for line in self.hub.log())


def by_peers(options):
    print()
    right = []
    with tempfile.TemporaryDirectory(prefix="pairs.") as folder:
        desk = Desk(options, folder)
        with desk.hub:
            number = 0
            for sender, receiver in (("LYON", "METZ"), ("METZ", "LYON"), ("OSLO", "METZ"), ("METZ", "OSLO"), ("LYON", "OSLO")):
                number += 1
                right.append(show(f"a file from {sender} to {receiver}", desk.file(sender, receiver, number), "as it was sent"))
                right.append(show(f"a message from {sender} to {receiver}", desk.message(sender, receiver), "as it was said"))
            for node in ("LYON", "OSLO"):
                said, status = desk.run(node, "command", "LIST")
                right.append(show(f"LIST of {node}", f"{said}, {status}", f"BUREAU to OF{node}: NJH002 0 FILES, 0"))
            failed = [line for line in desk.hub.log() if "failed" in line or "lost" in line]
            right.append(show("lines of the log with `failed` or `lost`", "; ".join(failed) or "none", "none"))
    return right


def show(what, found, wanted):
    right = found == wanted
    row((42, 40, 5), what, found, "right" if right else "WRONG")
    return right


def main():
    options = options_of(
        __doc__,
        (("--files",), {"type": int, "default": 40, "help": "how many files each sends"}),
        (("--seed",), {"type": int, "default": 89, "help": "of what chance they are"}),
    )
    right = joined(options) + by_peers(options)
    print("right" if all(right) else f"{right.count(False)} rows are wrong")
    sys.exit(not all(right))


if __name__ == "__main__":
    main()
