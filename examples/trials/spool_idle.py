"""Shows that what a customer left dead in a spool file goes while nobody is connected to the hub.

    python3 examples/trials/spool_idle.py PROGRAM [--records 300000] [--seconds 60]

A peer signs on, sends a file of so many of the smallest records, a blank each, gives it up, and closes its connection;
with `--stays` it stays connected and says nothing more. Nobody else is there. The table has a row for each five seconds:
of a copy of the spool file and its log how many rows of records they have, and the seconds of processor that the hub
used for each second. At most eight rows are to be left, since what was dropped at fewer than 4,096 places waits for the
next commit; the last line says after how long it was so.
"""

import contextlib
import pathlib
import sqlite3
import sys
import tempfile
import time

from frames import BLOCK, CARD, PERMISSION, REQUEST, SYSOUT, file_of, spelled
from hub import customer_of, line_of, options_of, places_of, row, seconds_used
from spool_long import ROOM, Asker
from spool_rate import LARGE
from spool_served import Served

WIDTHS = (8, 8, 10)

# How many blocks the customer's quota has: room for a million of the smallest records.
QUOTA = 16000

WINDOW, FEW = 5, 8


def rows_in(served):
    with contextlib.closing(sqlite3.connect(served.copy(served.folder / "copy"))) as copy:
        return copy.execute("select count(*) from records").fetchone()[0]


def give_up(asker, records):
    """Sends so many of the smallest records of a file, and gives it up. Says how long it took."""
    piece = bytes([SYSOUT, CARD, 0x81, 0x00])
    many, headers = ROOM // len(piece), file_of(1, "N0", "ANNA", "N1", "PAUL", [])[:2]
    first = b"".join(bytes([SYSOUT, srcb]) + spelled(record) for srcb, record in headers)
    begin = time.monotonic()
    asker.expect(PERMISSION, bytes([REQUEST, SYSOUT, 0]) + first)
    for _ in range(-(-records // many)):
        asker.exchange(piece * many)
    asker.exchange(bytes([SYSOUT, CARD, 0x40]))
    return time.monotonic() - begin


def watch(options, served):
    """Says how many rows there are every few seconds, until few are left. Answers when that was."""
    row(WIDTHS, "seconds", "rows", "processor")
    begin, used = time.monotonic(), seconds_used(served.process.pid)
    for window in range(options.seconds // WINDOW + 1):
        time.sleep(max(0.0, begin + window * WINDOW - time.monotonic()))
        left, now = rows_in(served), seconds_used(served.process.pid)
        row(WIDTHS, f"{time.monotonic() - begin:.0f}", left, f"{(now - used) / WINDOW:.3f}")
        used = now
        if left <= FEW:
            return time.monotonic() - begin
    return None


def main():
    options = options_of(
        __doc__,
        (("--records",), {"type": int, "default": 300000, "help": "how many records the file has"}),
        (("--seconds",), {"type": int, "default": 60, "help": "how long it is watched at most"}),
        (("--stays",), {"action": "store_true", "help": "the peer stays connected"}),
    )
    (place,) = places_of([1])
    line = line_of(place.name, place.node, port=place.port).replace(f"block = {BLOCK}", f"block = {LARGE}")
    lines, routes = [line, line_of("c0z", "N1")], [(place.node, place.name), ("N1", "c0z")]
    table = f"capacity = {QUOTA}\n" + customer_of("C0", "BUREAU", QUOTA, lines, routes)
    with tempfile.TemporaryDirectory() as folder:
        served = Served(options.program, pathlib.Path(folder), table)
        served.start()
        asker = Asker(place.port, place.node)
        print(f"{options.records} records came in {give_up(asker, options.records):.1f} s, and were given up")
        if not options.stays:
            asker.socket.close()
        done = watch(options, served)
        served.kill()
    if done is None:
        sys.exit(f"more than {FEW} rows are left after {options.seconds} seconds")
    print(f"right: few were left after {done:.0f} s")


if __name__ == "__main__":
    main()
