"""Shows that what `njehub ctl` tells of lines, files and the spool file is what is, next to what was done.

    python3 examples/trials/console_tells.py PROGRAM

ACME has lines to LYON, METZ, NICE and PARIS. LYON answers each block of the hub by two NAKs before it takes it, and
NICE sends each block garbled before it sends it right. METZ isn't there at first; then it comes and says nothing in its
turn for two ticks; then it takes its turn. After each step `ctl lines` is to have exactly as many messages that wait,
NAKs and repeats as these peers make: messages that wait now, NAKs that the hub sent and blocks that it sent again since
it was started. Then PARIS sends files for METZ: when each came, also once the hub was started anew, and the line that
METZ goes by, none once its route is gone. FILE's size may differ by two pages from what the file system says.

The table has a row for each step, with what `ctl` says, what it is to say, and whether that is so.
"""

import os
import re
import sys
import tempfile
import time

from console import ConsoleHub
from frames import ACK0, NAK, Text, command, ebcdic, file_of, framed, message
from hub import customer_of, free_ports, line_of, options_of, row
from peers import FilePeer, Loop

WIDTHS = (62, 24, 24, 6)

NODES = ("LYON", "METZ", "NICE", "PARIS")

# So many files of so many cards, which FILE's log alone has no room for, and a quota that has.
FILES, CARDS, QUOTA = 30, 2000, 30000

# By how many bytes FILE's size may differ: two pages.
NEAR = 8192


class Doubter(FilePeer):
    """A peer that answers each block by two NAKs, and takes it when it comes for the third time."""

    came = 0

    def hear(self, frame):
        if self.is_up and isinstance(frame, Text):
            self.came += 1
            if self.came % 3:
                self.socket.sendall(NAK)
                return
        super().hear(frame)


class Garbler(FilePeer):
    """A peer whose blocks come garbled first, with a BCB that is none. It sends each again, as it is, after a NAK."""

    garbled = 0

    def say_block(self, records, fcs=b"\x8f\xcf"):
        self.garbled += 1
        self.sent, self.at = framed(bytes([0x80 + self.count]) + fcs + records + b"\x00"), time.monotonic()
        self.count = (self.count + 1) % 16
        self.socket.sendall(framed(b"\x00" + fcs + records + b"\x00"))


class Sleeper(FilePeer):
    """A peer that says nothing in its turn until it is woken."""

    sleeps = True

    def hear(self, frame):
        if self.sleeps and frame == NAK:
            self.naks += 1
        else:
            super().hear(frame)

    def turn(self, frame):
        if not self.sleeps:
            super().turn(frame)

    def wake(self):
        self.sleeps = False
        self.say(ACK0)


class Rows:
    """The rows of the table."""

    def __init__(self, hub, loop):
        self.hub, self.loop, self.wrong = hub, loop, 0

    def show(self, what, found, wanted, right):
        self.wrong += not right
        row(WIDTHS, what, str(found), str(wanted), "right" if right else "WRONG")

    def counts(self, line, what, wanted):
        """Of a line `ctl` is to say so many messages that wait, NAKs and repeats, to people too."""
        lines = [line for part in self.hub.answers("lines", "ACME") for line in part["lines"]]
        told = next(one for one in lines if one["name"] == line)
        found = told.get("messages"), told["served"].get("naks"), told["served"].get("repeats")
        shown = shown_of(self.hub.prints("lines", "ACME"), line)
        right = found == wanted
        right = right and (not wanted[0] or f"{wanted[0]} messages wait" in shown)
        right = right and (not any(wanted[1:]) or f"naks {wanted[1]}, repeats {wanted[2]}" in shown)
        self.show(f"{line}: {what}", found, wanted, right)
        if not right:
            print(f"    {shown.strip()}")

    def files(self):
        return [file for part in self.hub.answers("files", "ACME") for file in part["files"]]

    def size(self, spool, what):
        """FILE's size is to be what the file system says, nearly."""
        told, size = self.hub.answers("status")[0].get("file_bytes"), os.stat(spool).st_size
        self.show(f"FILE's size {what}", told, size, told is not None and abs(told - size) <= NEAR)


def shown_of(text, line):
    """What `ctl lines` prints of a line: its row, and the rows behind it that belong to it."""
    found = re.search(rf"^ACME +{line} .*\n(?:  .*\n)*", text, re.MULTILINE)
    return found[0] if found else text


def peer_up(loop, make, port, node):
    peer = make(loop, port, node)
    assert loop.run(10, lambda: peer.is_up), f"no session with {node}"
    return peer


def tell(loop, paris, *texts):
    """PARIS sends messages for PAUL at METZ, and the hub has them."""
    paris.waits += [message("METZ", "PAUL", "PARIS", text) for text in texts]
    assert loop.run(5, lambda: not paris.waits), "the messages don't go out"
    loop.run(0.3)


def messages_that_wait(rows, loop, ports, paris):
    """Messages for a line that is down, for a peer that doesn't take its turn, and for one that does."""
    rows.counts("metz", "nothing was sent for it", (0, 0, 0))
    tell(loop, paris, "ONE", "TWO", "THREE")
    rows.counts("metz", "three messages, while it is down", (3, 0, 0))
    metz = peer_up(loop, Sleeper, ports[1], "METZ")
    tell(loop, paris, "FOUR", "FIVE")
    rows.counts("metz", "two more, while its peer says nothing in its turn", (5, metz.naks, 0))
    assert loop.run(10, lambda: metz.naks >= 2), "the hub asks for nothing"
    rows.counts("metz", "its peer was asked twice", (5, metz.naks, 0))
    metz.wake()
    loop.run(5, lambda: len(metz.told) == 5)
    rows.show("metz: its peer has", len(metz.told), 5, metz.told == ["ONE", "TWO", "THREE", "FOUR", "FIVE"])
    rows.counts("metz", "its peer takes its turn", (0, metz.naks, 0))
    metz.close()


def commands(loop, peer, node, count):
    """A peer sends so many LISTs, one after the other, and has each reply."""
    for place in range(count):
        peer.waits.append(command("BUREAU", node, "ANNA", "LIST"))
        assert loop.run(5, lambda: len(peer.told) > place), "LIST isn't answered"
    loop.run(0.3)


def naks_and_repeats(rows, loop, ports, lyon):
    """Blocks that are sent again, and NAKs, also behind the end of a session."""
    commands(loop, lyon, "LYON", 5)
    repeats = lyon.came - lyon.came // 3
    rows.show("lyon: blocks that came, each three times", lyon.came, "15 at least", lyon.came >= 15)
    rows.counts("lyon", "each was sent again twice", (0, 0, repeats))
    nice = peer_up(loop, Garbler, ports[2], "NICE")
    commands(loop, nice, "NICE", 7)
    right = nice.garbled == nice.naks >= 7
    rows.show("nice: blocks that it garbled, and NAKs", (nice.garbled, nice.naks), "7 of each at least", right)
    rows.counts("nice", "each garbled block was answered by NAK", (0, nice.garbled, 0))
    nice.close()
    loop.run(0.3)
    rows.counts("nice", "its session ended", (0, nice.garbled, 0))
    again = peer_up(loop, FilePeer, ports[2], "NICE")
    commands(loop, again, "NICE", 1)
    rows.counts("nice", "it came again, and garbles nothing", (0, nice.garbled, 0))
    again.close()


def file_to(number):
    return file_of(number, "PARIS", "ANNA", "METZ", "PAUL", [ebcdic(f"{place:04}".ljust(80)) for place in range(CARDS)])


def files_that_wait(rows, loop, paris, spool, routes):
    """Files for METZ, whose route goes then."""
    rows.size(spool, "at the start")
    begin = int(time.time())
    paris.to_send += [file_to(number) for number in range(1, FILES + 1)]
    loop.run(60, lambda: paris.went == FILES)
    files, end = rows.files(), time.time()
    came = [file.get("came") or 0 for file in files]
    right = len(files) == FILES and came == sorted(came) and all(begin <= one <= end for one in came)
    found = len(files), sum(map(bool, came))
    rows.show("files: how many, and those with the time when they came", found, (FILES, FILES), right)
    rows.show("files: their lines", lines_of(files), {"metz"}, lines_of(files) == {"metz"})
    shown = rows.hub.prints("files", "ACME", "--node", "METZ").splitlines()
    told = sum("metz" in line for line in shown)
    rows.show("files: rows of ctl files that name the line", told, FILES, told == FILES)
    rows.size(spool, f"with {FILES} files")
    new = rows.hub.table.with_suffix(".new")
    new.write_text(table_of(rows.hub.ports, [route for route in routes if route[0] != "METZ"]))
    new.rename(rows.hub.table)
    loop.run(5, lambda: any("ACME: new routes" in line for line in rows.hub.log()))
    files = rows.files()
    right = lines_of(files) == {None} and all(file["state"] == "HELD" for file in files)
    rows.show("files: their lines, once METZ has no route", lines_of(files), {None}, right)


def lines_of(files):
    return {file.get("line", "-") for file in files}


def started_anew(rows, loop, spool, before):
    """What is told of the files that FILE has, which came at these times, and of one that comes then."""
    files = rows.files()
    right = [file["came"] for file in files] == before
    rows.show("after a start: files, with the times of before", len(files), FILES, right and len(files) == FILES)
    rows.show("after a start: their lines", lines_of(files), {"metz"}, lines_of(files) == {"metz"})
    begin = int(time.time())
    paris = peer_up(loop, FilePeer, rows.hub.ports[3], "PARIS")
    paris.to_send.append(file_to(FILES + 1))
    loop.run(5, lambda: paris.went == 1)
    came = [file.get("came") for file in rows.files()]
    right = came[:-1] == before and came[-1] is not None and begin <= came[-1] <= time.time()
    rows.show("after a start: when the file that comes then came", came[-1] if came else "", f"{begin} or later", right)
    rows.size(spool, "after the start")
    paris.close()


def table_of(ports, routes):
    lines = [line_of(node.lower(), node, port=port) for node, port in zip(NODES, ports)]
    return f"capacity = {QUOTA}\n" + customer_of("ACME", "BUREAU", QUOTA, lines, routes)


def served(options, ports, routes, spool):
    hub = ConsoleHub(options, table_of(ports, routes), "--spool", spool)
    hub.ports = ports
    return hub


def main():
    options, ports = options_of(__doc__), free_ports(len(NODES))
    routes, loop = [(node, node.lower()) for node in NODES], Loop()
    row(WIDTHS, "of", "ctl says", "is to be", "")
    with tempfile.TemporaryDirectory() as folder:
        spool = os.path.join(folder, "spool")
        with served(options, ports, routes, spool) as hub:
            hub.listens()
            rows = Rows(hub, loop)
            lyon, paris = peer_up(loop, Doubter, ports[0], "LYON"), peer_up(loop, FilePeer, ports[3], "PARIS")
            messages_that_wait(rows, loop, ports, paris)
            naks_and_repeats(rows, loop, ports, lyon)
            files_that_wait(rows, loop, paris, spool, routes)
            before = [file["came"] for file in rows.files()]
            lyon.close()
            paris.close()
            hub.prints("shutdown")
            hub.process.wait(10)
            wrong = rows.wrong
        with served(options, ports, routes, spool) as hub:
            hub.listens()
            rows = Rows(hub, loop)
            started_anew(rows, loop, spool, before)
            wrong += rows.wrong
    loop.close()
    sys.exit(wrong > 0)


if __name__ == "__main__":
    main()
