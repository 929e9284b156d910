"""Shows what a spool file costs: files a second, starts, the file's size, and the answers on other lines.

    python3 examples/trials/spool_speed.py PROGRAM [--spool] [--seconds 15] [--files 5000] [PLAY ..]

With `--spool` each hub has a spool file in a temporary folder (TMPDIR says where), and else none. The plays:

- `rates`: 1, 16 and 64 customers with 4 lines each, all busy: each line sends files of 40 cards for the next one of its
  customer and takes what comes for it. A row each: files that came and went a second (those that came whole to
  their receivers), exchanges a second of all lines, the longest answer in milliseconds, and the seconds of processor
  that the program used for each second.
- `starts`: a customer with 1,000 files of 4 records, and one with 60 files of 1,080 blocks, nearly 65,000 in all. A row
  each: the seconds until they were sent, and until the ports listen and contact is answered after SIGKILL and a start.
- `sizes`: files that come and go on 4 lines; a row at each fifth of so many: kilobytes of the spool file and its log.
- `others`: the longest and the median answer in milliseconds on a line of another customer that sends blocks without
  records, and on one that sends and takes small files, each a hundred exchanges a second or so: while the first
  customer is quiet, sends a file of 10 MB, and sends HOLD and RELEASE of a file, 18 in each block.
"""

import pathlib
import statistics
import tempfile
import time

from frames import ACK0, CONTACT, command, ebcdic, file_of
from hub import Hub, connected, options_of, places_of, row, table_of
from many_busy import Sender, of
from peers import Crowd, FilePeer, Loop

PLAYS = ("rates", "starts", "sizes", "others")

BIG = bytes(range(256))


class Spooled(Hub):
    """The program with a table, and a spool file if there is to be one. It can be killed and started again."""

    def __init__(self, options, table):
        self.options, self.text = options, table
        self.place = tempfile.TemporaryDirectory(prefix="spool_speed.")
        self.words = ("--spool", str(pathlib.Path(self.place.name, "spool.db"))) if options.spool else ()
        super().__init__(options, table, *self.words)

    def again(self):
        """SIGKILL, and a start on the same spool file."""
        self.process.kill()
        self.process.wait()
        super().__init__(self.options, self.text, *self.words)

    def size(self):
        """Kilobytes of the spool file and of its log."""
        folder = pathlib.Path(self.place.name)
        return [sum(one.stat().st_size for one in folder.glob(name)) // 1024 for name in ("spool.db", "spool.db-wal")]

    def __exit__(self, *words):
        if not self.runs():
            print(f"the program has ended with status {self.process.returncode}: {self.log()[-2:]}")
        super().__exit__(*words)
        self.place.cleanup()


def table_for(places, quota, files=256):
    return table_of(places, quota).replace("files = 256", f"files = {files}")


class Brisk(Sender):
    """A peer that always has another file to send, and never leaves the turn to the hub: one with nothing to say would
    be silent until its tick."""

    def say(self, frame):
        if frame == ACK0 and self.is_up:
            self.say_block(b"")
        else:
            super().say(frame)


def brisk(loop, place):
    peer = Brisk(loop, place.port, place.node)
    peer.other = f"N{(place.line + 1) % 4}"
    return peer


def crowds_of(places, count):
    """Peers that send and take files on all places, in so many processes."""

    def make(own):
        return lambda loop: [brisk(loop, place) for place in own]

    return [Crowd(make(places[at::count]), of) for at in range(count)]


def looked(crowds):
    """Answers and files of all peers, and the longest answer, which begins anew."""
    peers = [peer for crowd in crowds for peer in crowd.look()[0]]
    return sum(peer[1] for peer in peers), sum(peer[3] for peer in peers), max(peer[2] for peer in peers)


def rates(options):
    widths = (6, 9, 12, 11, 12, 12)
    row(widths, "lines", "files/s", "exchanges/s", "longest ms", "program s/s", "log KB")
    for customers in (1, 16, 64):
        places = places_of([4] * customers)
        with Spooled(options, table_for(places, 1000)) as hub:
            crowds = crowds_of(places, 2)
            time.sleep(1)
            (answers, files, _), begin, used = looked(crowds), time.monotonic(), hub.seconds_used()
            time.sleep(options.seconds)
            (answers_now, files_now, longest), lasted = looked(crowds), time.monotonic() - begin
            share = (hub.seconds_used() - used) / lasted if hub.runs() else 0.0
            for crowd in crowds:
                crowd.__exit__()
            cells = [f"{(files_now - files) / lasted:.0f}", f"{(answers_now - answers) / lasted:.0f}"]
            row(widths, 4 * customers, *cells, f"{1000 * longest:.1f}", f"{share:.2f}", hub.size()[1])


class Filler(FilePeer):
    """A peer that sends files and takes none, so that they stay."""

    def take(self, rcb, srcb, record):
        if rcb != 0x90:
            super().take(rcb, srcb, record)


def starts(options):
    widths = (24, 12, 14, 14, 9, 9)
    row(widths, "what is there", "sent in s", "listens in s", "contact in s", "file KB", "log KB")
    for what, count, cards in (("1,000 files", 1000, [b"\x40" * 80]), ("65,000 blocks", 60, [BIG] * 1050)):
        places = places_of([2])
        with Spooled(options, table_for(places, 65535, 1024)) as hub:
            loop, begin = Loop(), time.monotonic()
            peer = Filler(loop, places[0].port, "N0")
            peer.to_send += [file_of(number + 1, "N0", "ANNA", "N1", "PAUL", cards) for number in range(count)]
            came = loop.run(300, lambda: peer.went == count or peer.is_closed)
            sent, size = time.monotonic() - begin, hub.size()
            loop.close()
            if not came or peer.refused:
                print(f"{what}: {peer.went} were sent, {peer.refused} refused")
            hub.again()
            begin = time.monotonic()
            with connected(places[0].port, patience=120) as line:
                listens = time.monotonic() - begin
                line.settimeout(60)
                line.sendall(CONTACT)
                is_answered = line.recv(2) == ACK0
            contact = f"{time.monotonic() - begin:.2f}" if is_answered else "none"
            row(widths, what, f"{sent:.1f}", f"{listens:.2f}", contact, *size)


def sizes(options):
    widths = (10, 9, 9, 9)
    row(widths, "files", "seconds", "file KB", "log KB")
    places = places_of([4])
    with Spooled(options, table_for(places, 1000)) as hub:
        crowds, begin, next_row = crowds_of(places, 1), time.monotonic(), options.files // 5
        while time.monotonic() < begin + 600 and hub.runs() and next_row <= options.files:
            time.sleep(0.2)
            files = looked(crowds)[1]
            if files >= next_row:
                row(widths, files, f"{time.monotonic() - begin:.0f}", *hub.size())
                next_row += options.files // 5
        for crowd in crowds:
            crowd.__exit__()


class Asking(Brisk):
    """A line of the other customer: a block some hundred times a second, without records or with small files."""

    files_wanted, times = True, None

    def turn(self, frame):
        self.times = self.times or []
        self.times.append(time.monotonic() - self.at)
        time.sleep(0.005)
        if self.files_wanted:
            super().turn(frame)
        else:
            self.say_block(b"")


class Flood(FilePeer):
    """A peer that sends HOLD and RELEASE of its file, many in each block, as fast as they are answered."""

    BLOCK = b"".join(command("BUREAU", "N0", "ANNA", f"{word} N0.1") for word in ("HOLD", "RELEASE")) * 9

    def answer(self):
        if self.to_send or self.state != "idle":
            super().answer()
        else:
            self.waits.clear()
            self.say_block(self.BLOCK)


def asking(port, node, other):
    def made(loop):
        peer = Asking(loop, port, node)
        peer.files_wanted, peer.other = other is not None, other
        return [peer]

    return Crowd(made, lambda peer: peer.times or [])


def measured(options, what, play):
    """The first customer's play, and the answers meanwhile on two lines of the other."""
    places = places_of([2, 4])
    with Spooled(options, table_for(places, 65000)) as hub:
        ends = ((2, "N0", None), (3, "N1", "N2"), (4, "N2", "N1"))
        own = [asking(places[at].port, node, other) for at, node, other in ends]
        before = [len(crowd.look()[0][0]) for crowd in own]
        note, begin = play(places), time.monotonic()
        cells = []
        for at, crowd in enumerate(own[:2]):
            times = crowd.look("stop")[0][0][before[at] :] or (0.0,)
            cells += [f"{1000 * max(times):.1f}", f"{1000 * statistics.median(times):.1f}", len(times)]
        for crowd in own:
            crowd.__exit__()
        row((14, 12, 10, 8, 12, 10, 8), what, *cells)
        print(f"    {note}")


def quiet(places):
    time.sleep(5)
    return "5 s"


def large(places):
    loop, begin = Loop(), time.monotonic()
    peer = Filler(loop, places[0].port, "N0")
    peer.to_send.append(file_of(1, "N0", "ANNA", "N1", "PAUL", [BIG] * 40000))
    loop.run(300, lambda: peer.went or peer.is_closed or peer.refused)
    loop.close()
    return f"{peer.went} file of 10 MB in {time.monotonic() - begin:.1f} s, {peer.answers} exchanges"


def flood(places):
    loop, begin = Loop(), time.monotonic()
    peer = Flood(loop, places[0].port, "N0")
    peer.to_send.append(file_of(1, "N0", "ANNA", "N1", "PAUL", [BIG]))
    loop.run(10, lambda: peer.is_closed)
    loop.close()
    return f"{len(peer.told)} replies in {time.monotonic() - begin:.1f} s"


def others(options):
    row((14, 12, 10, 8, 12, 10, 8), "the first", "blocks: max", "median", "count", "files: max", "median", "count")
    for what, play in (("is quiet", quiet), ("sends 10 MB", large), ("HOLD, RELEASE", flood)):
        measured(options, what, play)


def main():
    options = options_of(
        __doc__,
        (("--spool",), {"action": "store_true", "help": "with a spool file"}),
        (("--seconds",), {"type": int, "default": 15, "help": "how long each rate is measured"}),
        (("--files",), {"type": int, "default": 5000, "help": "how many come and go in `sizes`"}),
        (("plays",), {"nargs": "*", "metavar": "PLAY", "help": ", ".join(PLAYS) + "; all where none is named"}),
    )
    for name in options.plays or PLAYS:
        globals()[name](options)


if __name__ == "__main__":
    main()
