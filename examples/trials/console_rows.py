"""Shows each command of `njehub ctl` on a hub with 64 customers, 256 lines under traffic and a spool file.

    python3 examples/trials/console_rows.py PROGRAM [--customers 64] [--lines 4] [--clients 2] [--pause 0.05]

All lines but one send and take files, from so many processes; each peer waits 50 ms before its next block. The last
customer has a # in its name, and nobody is connected on its last line, so files for that line's node wait. The operator
asks for each list, of all and of one; holds all such files and makes them ready, name by name; holds such a file, makes
it ready, sends it by another line and takes one away; tells a user something; stops a line at once and one that drains,
and starts both; asks for what isn't there; and, once all peers are gone, ends the service when it is idle.

The table has a row for each: the command's status, how long it took in milliseconds, what it is to show, and whether it
did.
"""

import os
import sys
import tempfile
import time

from console import ConsoleHub
from console_load import make
from hub import options_of, places_of, row, table_of
from peers import Crowd

WIDTHS = (44, 6, 7, 56, 6)

QUOTA = 2000


class Rows:
    """The hub, and the rows of the table."""

    def __init__(self, hub):
        self.hub, self.wrong = hub, 0

    def is_right(self, wanted, is_so, *words, status=0):
        """Runs `ctl` by these words: it is to end with this status, and what it prints is to be so."""
        begin = time.monotonic()
        found, out, err = self.hub.ctl(*words)
        took = time.monotonic() - begin
        right = found == status and is_so(out + err)
        self.wrong += not right
        row(WIDTHS, " ".join(words), found, f"{1000 * took:.0f}", wanted, "right" if right else "WRONG")
        if not right:
            print(f"    {(out + err)[:400]!r}")
        return out

    def becomes(self, wanted, is_so, *words, patience=10):
        """Asks again and again until what is printed is so."""
        end = time.monotonic() + patience
        while not is_so(self.hub.prints(*words)) and time.monotonic() < end:
            time.sleep(0.1)
        self.is_right(wanted, is_so, *words)


def counted(word, least):
    """Whether so many lines at least have a word."""
    return lambda text: sum(word in line.split() for line in text.splitlines()) >= least


def lists(rows, options, last):
    lines = options.customers * options.lines
    up, all_up = f"lines up {lines - 1} of {lines}", lines - 1
    rows.is_right(up, lambda text: up in text and f"customers {options.customers}," in text, "status")
    rows.is_right("a row for each customer", lambda text: len(text.splitlines()) == options.customers + 1, "customers")
    rows.is_right("all sessions are up", counted("up", all_up), "lines")
    rows.is_right("those of one customer", counted("up", options.lines), "lines", "C0")
    rows.is_right("the one of this name", lambda text: len([r for r in text.splitlines() if r[:1] == "C"]) == 2, "lines", "c0l1")
    rows.is_right("no head, since there is none", lambda text: text.startswith("njehub: no "), "lines", "none", status=1)
    rows.is_right("no head, since there is none", lambda text: text.startswith("njehub: no "), "files", "NONE", status=1)
    rows.is_right("how that command is written", lambda text: "njehub ctl hold CUSTOMER FILE" in text, "hold", status=1)
    rows.is_right("files of most customers", counted("OUT", options.customers), "files")
    rows.is_right("those of one customer", lambda text: "C1 " not in text, "files", "C0")
    node = f"N{options.lines - 1}"
    rows.is_right("files that wait for its last line", counted("READY", 4), "files", last, "--node", node)
    rows.is_right("none is held", lambda text: text == "", "files", last, "--state", "held")
    rows.is_right("none is held", lambda text: text == "", "--json", "files", last, "--state", "held")


def orders(rows, options, last):
    node = f"N{options.lines - 1}"
    names = [line.split()[1] for line in rows.hub.prints("files", last, "--node", node).splitlines()[1:]]
    first, second = names[0], names[1]
    held = ("files", last, "--state", "held")
    rows.is_right("the reply that its owner would get", lambda text: f"{first} HELD" in text, "hold", last, first)
    rows.is_right("it is held", lambda text: f" {first} " in text, *held)
    rows.is_right("the reply", lambda text: f"{first} RELEASED" in text, "release", last, first)
    rows.is_right("none is held", lambda text: text == "", *held)
    many(rows, last, node)
    rows.is_right("the reply", lambda text: f"{first} REROUTED TO N1" in text, "reroute", last, first, "N1")
    rows.becomes("it went out by the other line", lambda text: f" {first} " not in text, "files", last)
    rows.is_right("the reply", lambda text: f"{second} CANCELLED" in text, "cancel", last, second)
    rows.is_right("it is gone", lambda text: f" {second} " not in text, "files", last)
    rows.is_right("there is no such file", lambda text: "has no file" in text, "hold", last, second, status=1)
    rows.is_right("done", lambda text: text == "done\n", "tell", "C0", "N1", "PAUL", "THE HUB STOPS AT SIX")
    rows.is_right("no line leads there", lambda text: "no line" in text, "tell", "C0", "NONE", "PAUL", "SIX", status=1)


def many(rows, last, node):
    """The files for a node are held and made ready, name by name, as each is an order of its owner."""
    chosen = (last, "--node", node)
    rows.is_right("what would be ordered", lambda text: "nothing was ordered: " in text, "hold", *chosen, "--dry-run")
    rows.is_right("none is held", lambda text: text == "", "files", *chosen, "--state", "held")
    said = rows.is_right("how many of each outcome", lambda text: ", refused 0, passed over 0" in text, "hold", *chosen)
    held = {line.split()[1] for line in said.splitlines() if line.startswith("HOLD ")}
    others = lambda text: not held & {row.split()[1] for row in text.splitlines()}  # which came since then
    rows.is_right("none of these is ready", others, "files", *chosen, "--state", "ready")
    rows.is_right("how many of each outcome", lambda text: ", refused 0, passed over 0" in text, "release", *chosen)
    rows.is_right("none is held", lambda text: text == "", "files", *chosen, "--state", "held")
    rows.is_right("none came so long ago", lambda text: text.startswith("done 0,"), "cancel", *chosen, "--older", "1d")


def states(rows):
    def is_in(state, line):
        return lambda text: any(state in row.split() and line in row.split() for row in text.splitlines())

    rows.is_right("done", lambda text: text == "done\n", "stop", "c0l0")
    rows.becomes("it is stopped", is_in("stopped", "c0l0"), "lines", "C0")
    rows.is_right("nothing, as a stop is no trouble", lambda text: text == "", "status", "--quiet")
    rows.is_right("done", lambda text: text == "done\n", "start", "c0l0")
    rows.becomes("it is started", is_in("started", "c0l0"), "lines", "C0")
    rows.is_right("done", lambda text: text == "done\n", "stop", "c1l0", "--when-idle")
    rows.becomes(
        "it drains, or is stopped",
        lambda text: is_in("draining", "c1l0")(text) or is_in("stopped", "c1l0")(text),
        "lines",
        "C1",
    )
    rows.is_right("done", lambda text: text == "done\n", "start", "c1l0")
    rows.becomes("it is started", is_in("started", "c1l0"), "lines", "C1")
    rows.is_right("there is no such line", lambda text: "no line is called none" in text, "stop", "none", status=1)


def main():
    options = options_of(
        __doc__,
        (("--customers",), {"type": int, "default": 64}),
        (("--lines",), {"type": int, "default": 4, "help": "lines of a customer"}),
        (("--clients",), {"type": int, "default": 2, "help": "processes of peers"}),
        (("--pause",), {"type": float, "default": 0.05, "help": "seconds before a peer's next block"}),
    )
    places = places_of([options.lines] * options.customers)
    busy, last = places[:-1], f"C{options.customers - 1}#"
    table = table_of(places, QUOTA).replace(f'name = "{last[:-1]}"', f'name = "{last}"')
    with tempfile.TemporaryDirectory() as folder, ConsoleHub(
        options, table, "--spool", os.path.join(folder, "spool")
    ) as hub:
        hub.listens()
        crowds = [Crowd(make(busy[at :: options.clients], options)) for at in range(options.clients)]
        print(f"{sum(crowd.up for crowd in crowds)} of {len(busy)} sessions are up, {os.cpu_count()} processors")
        time.sleep(10)
        row(WIDTHS, "ctl ..", "status", "ms", "it is to show", "")
        rows = Rows(hub)
        lists(rows, options, last)
        orders(rows, options, last)
        states(rows)
        for crowd in crowds:
            crowd.__exit__()
        rows.is_right("done", lambda text: text == "done\n", "shutdown", "--when-idle")
        status = hub.process.wait(20)
        print(f"the service ended with status {status}")
    sys.exit(rows.wrong > 0 or status != 0)


if __name__ == "__main__":
    main()
