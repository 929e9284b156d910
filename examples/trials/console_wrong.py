"""Shows that `njehub ctl status` says what is wrong as long as it is so, next to what was made wrong and mended.

    python3 examples/trials/console_wrong.py PROGRAM

ACME has lines to LYON, METZ, NICE and OSLO and few files; METZ's port is another program's at first, OSLO is dialled
and isn't there. BOLT has a line to LYON and a small quota. One after the other: OSLO comes and goes; METZ's port
becomes free; METZ connects and says nothing for ten seconds, and leaves; another node signs on at NICE's line, and then
NICE does; LYON's line is stopped and started; LYON sends files until ACME is near its limit of files and BOLT near its
quota, and the operator cancels ACME's; the table file is changed to one with a fault, to one in which BOLT's quota
differs and ACME has another route, and back. Last, the hub is started with a smaller quota for BOLT, so that its file
is set aside.

The table has a row for each step, with what `ctl status` says is wrong, what it is to say, and whether that is so.
"""

import os
import socket
import sys
import tempfile
import time

from console import ConsoleHub
from frames import BLOCK, ebcdic, file_of
from hub import connected, customer_of, free_ports, line_of, options_of, row
from peers import FilePeer, Loop

WIDTHS = (46, 92, 6)

# What is told of a block size of 100.
FAULT = "table file: K3 BadValue: customer 1 (ACME), line 1 (lyon), block: 100 isn't 300 to 4096; nothing changes"


class Wrong:
    """The hub, and the rows of the table."""

    def __init__(self, hub, loop):
        self.hub, self.loop, self.count = hub, loop, 0

    def is_told(self, what, *wanted, patience=15):
        """So much is to be wrong, word for word, and nothing else, within so many seconds; people are told the same."""
        end = time.monotonic() + patience
        while (found := self.hub.answers("status")[0]["faults"]) != list(wanted) and time.monotonic() < end:
            self.loop.run(0.1)
        told = self.hub.answers("status")[0]["wrong"]
        grave = all(one["severity"] in ("error", "warning") for one in told)
        shown = self.shown("wrong")
        right = found == list(wanted) == shown == [one["text"] for one in told] and grave
        self.end_row(what, found, wanted, shown, right)

    def is_intended(self, what, *wanted):
        """So much isn't as the table file has it, since the operator wants it so: for two seconds at most."""
        told = self.hub.answers("status")[0]
        found, shown = [one["text"] for one in told["intended"]], self.shown("intended")
        lately = all(told["now"] - one["since"] <= 2 for one in told["intended"])
        self.end_row(what, found, wanted, shown, found == list(wanted) == shown and lately)

    def shown(self, word):
        """What `ctl status` prints behind a word."""
        lines = self.hub.prints("status").splitlines()
        return [line.removeprefix(f"{word}: ") for line in lines if line.startswith(f"{word}: ")]

    def end_row(self, what, found, wanted, shown, right):
        self.count += not right
        row(WIDTHS, what, "; ".join(found) or "nothing", "right" if right else "WRONG")
        if not right:
            print(f"    is to be: {'; '.join(wanted) or 'nothing'}; ctl prints {shown}")


def lines_are_wrong(wrong, loop, ports, taken):
    """Ports, dials, silent peers, sign-ons, and lines that are stopped."""
    lyon, metz, nice, oslo = ports[:4]
    in_use, gone = f"ACME metz: can't listen on 127.0.0.1:{metz}: in use", f"ACME oslo: no connection to 127.0.0.1:{oslo}"
    wrong.is_told("METZ's port is taken, OSLO isn't there", in_use, gone)
    with socket.create_server(("127.0.0.1", oslo)) as server:
        server.settimeout(15)
        peer, _ = server.accept()
    wrong.is_told("OSLO is there", in_use)
    peer.close()
    wrong.is_told("OSLO is gone", in_use, gone)
    taken.close()
    wrong.is_told("METZ's port is free", gone, patience=25)
    with connected(metz):
        loop.run(8)
        wrong.is_told("METZ has been silent for eight seconds", gone, patience=0)
        wrong.is_told("and for ten", "ACME metz: the peer makes no contact", gone, patience=5)
    wrong.is_told("METZ left", gone)
    other = FilePeer(loop, nice, "NIZZA")
    assert loop.run(5, lambda: other.is_closed), "NIZZA isn't refused"
    wrong.is_told("NIZZA signed on at NICE's line", "ACME nice: sign-on refused: it is of node NIZZA", gone)
    own = FilePeer(loop, nice, "NICE")
    assert loop.run(10, lambda: own.is_up), "no session with NICE"
    wrong.is_told("NICE is there", gone)
    own.close()
    wrong.is_told("NICE left", gone)
    wrong.hub.prints("stop", "lyon")
    wrong.is_intended("LYON's line is stopped", "ACME lyon: stopped")
    wrong.is_told("and nothing is wrong with it", gone)
    wrong.hub.prints("start", "lyon")
    wrong.is_intended("it is started")
    return gone


def file_for(node, number, cards):
    return file_of(number, "LYON", "ANNA", node, "PAUL", [ebcdic(f"{place:04}".ljust(80)) for place in range(cards)])


def customers_are_wrong(wrong, loop, ports, gone):
    """A customer that has nearly all the files, and one that has nearly all the blocks, that it may have."""
    lyon, bolt = FilePeer(loop, ports[0], "LYON"), FilePeer(loop, ports[4], "LYON")
    assert loop.run(10, lambda: lyon.is_up and bolt.is_up), "no session with LYON"
    lyon.to_send += [file_for("METZ", number, 2) for number in range(1, 10)]
    assert loop.run(10, lambda: lyon.went == 9), "the files of ACME don't come"
    wrong.is_told("ACME has nine of ten files", "ACME: 9 of 10 files are there", gone)
    bolt.to_send.append(file_for("LYON2", 1, 107))
    assert loop.run(10, lambda: bolt.went == 1), "the file of BOLT doesn't come"
    used = next(one["blocks"] for part in wrong.hub.answers("customers") for one in part["customers"] if one["name"] == "BOLT")
    near = f"BOLT: {used} of 40 blocks are used"
    wrong.is_told("BOLT's file takes nine tenths of its quota", "ACME: 9 of 10 files are there", near, gone)
    for number in range(1, 10):
        wrong.hub.prints("cancel", "ACME", f"LYON.{number}")
    wrong.is_told("the operator cancelled ACME's files", near, gone)
    lyon.close()
    bolt.close()
    return near


def tables_are_wrong(wrong, ports, near, gone):
    """A table file that can't be taken, and one of which a part can't."""
    bad = table_of(ports).replace(f"block = {BLOCK}", "block = 100", 1)
    renew(wrong.hub, bad)
    wrong.is_told("the table file has a fault", FAULT, near, gone)
    renew(wrong.hub, table_of(ports, quota=50, more=(("RIGA", "nice"),)))
    stays = "BOLT: more than its routes differs in the table file; its routes stay"
    wrong.is_told("BOLT's quota differs, ACME has another route", near, stays, gone)
    renew(wrong.hub, table_of(ports))
    wrong.is_told("the table file is as it was", near, gone)


def renew(hub, text):
    new = hub.table.with_suffix(".new")
    new.write_text(text)
    new.rename(hub.table)


def table_of(ports, quota=40, more=()):
    """ACME's and BOLT's entries; BOLT has this quota, and ACME these routes more."""
    lines = [line_of("lyon", "LYON", port=ports[0]), line_of("metz", "METZ", port=ports[1])]
    lines += [line_of("nice", "NICE", port=ports[2]), line_of("oslo", "OSLO", connect=f"127.0.0.1:{ports[3]}")]
    routes = [("METZ", "metz"), ("NICE", "nice"), *more]
    acme = customer_of("ACME", "BUREAU", 400, lines, routes, files=10)
    bolt = [line_of("bolt", "LYON", port=ports[4]), line_of("bolt2", "LYON2", port=ports[5])]
    return "capacity = 500\n" + acme + customer_of("BOLT", "BUREAU", quota, bolt, [("LYON", "bolt"), ("LYON2", "bolt2")])


def served(options, ports, spool, **given):
    return ConsoleHub(options, table_of(ports, **given), "--spool", spool)


def main():
    options, ports, loop = options_of(__doc__), free_ports(6), Loop()
    row(WIDTHS, "once", "ctl says is wrong", "")
    with tempfile.TemporaryDirectory() as folder:
        spool = os.path.join(folder, "spool")
        taken = socket.create_server(("127.0.0.1", ports[1]))
        with served(options, ports, spool) as hub:
            hub.listens()
            wrong = Wrong(hub, loop)
            gone = lines_are_wrong(wrong, loop, ports, taken)
            near = customers_are_wrong(wrong, loop, ports, gone)
            tables_are_wrong(wrong, ports, near, gone)
            hub.prints("shutdown")
            hub.process.wait(10)
            count = wrong.count
        with served(options, ports, spool, quota=20) as hub:
            hub.listens()
            wrong = Wrong(hub, loop)
            wrong.is_told("BOLT has no room for its file at a start", "spool file: 1 files are set aside", gone)
            count += wrong.count
    loop.close()
    sys.exit(count > 0)


if __name__ == "__main__":
    main()
