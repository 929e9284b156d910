"""Shows what an operator has from `ctl reload` and `ctl diff NEW`.

    python3 examples/trials/reloads.py PROGRAM

A hub has ACME with two lines and BOLT with one. Its table file is changed so that neither its time nor its length
tells it, and read by a reload; it is compared with others, of which each differs in one thing; it has faults; it is a
folder, and a pipe to which nobody writes. What is told is compared with what is to be told, and with the log, and that
a comparison leaves all as it was is seen by a further one. Each step says how long the answer took, and whether it came
out as it should.
"""

import json
import os
import socket
import subprocess
import sys
import time

from console import ConsoleHub
from hub import customer_of, free_ports, line_of, options_of, row

WIDTHS = (66, 9, 6)


def table_of(ports, metz="a1", quota=100, capacity=300, block=None, password="SECRET", come="10.0.0.0/8", bolt=True):
    """The table file, in which one thing may be another."""
    lines = [line_of("a1", "LYON", port=ports[0], password=password, **{"from": [come]}), line_of("a2", "METZ", port=ports[1])]
    if block:
        lines[1] = lines[1].replace("block = 1024", f"block = {block}")
    text = f"capacity = {capacity}\n" + customer_of("ACME", "BUREAU", quota, lines, [("LYON", "a1"), ("METZ", metz)])
    own = [line_of("b1", "ROME", port=ports[2])]
    return text + (customer_of("BOLT", "BUREAU", 100, own, [("ROME", "b1")]) if bolt else "")


class Steps:
    """A hub with a console, and the rows of the table."""

    def __init__(self, options, hub):
        self.program, self.hub, self.wrong = options.program, hub, 0
        self.console = str(hub.console)
        row(WIDTHS, "step", "seconds", "")

    def asks(self, *words):
        """What `ctl` printed, its status, and how long it took."""
        begin = time.monotonic()
        ran = subprocess.run([self.program, "ctl", "--console", self.console, *words], capture_output=True, text=True, timeout=20,
                             cwd=self.hub.folder.name)
        return ran.stdout.splitlines(), ran.stderr.strip(), ran.returncode, time.monotonic() - begin

    def says(self, what, right, took=None, seen=None):
        self.wrong += not right
        row(WIDTHS, what, f"{took:.3f}" if took is not None else "", "right" if right else "WRONG")
        if not right and seen is not None:
            print(f"    {seen}")

    def step(self, what, words, lines, within=4.0):
        """A command that succeeds and prints these lines, and that it is done."""
        told, fault, status, took = self.asks(*words)
        self.says(what, told == [*lines, "done"] and status == 0 and took < within, took, (told, fault, status))

    def fails(self, what, words, part, within=4.0):
        """A command that ends with status 1, and says this, and not that it is done."""
        told, fault, status, took = self.asks(*words)
        right = status == 1 and part in " ".join([*told, fault]) and "done" not in told and took < within
        self.says(what, right, took, (told, fault, status))

    def write(self, text, still=False):
        """Writes the table file; if it is to be still, its time stays, and its length is the same."""
        before = os.stat(self.hub.table)
        other = self.hub.table.with_suffix(".next")
        other.write_text(text)
        if still:
            assert len(text) == before.st_size
            os.utime(other, ns=(before.st_atime_ns, before.st_mtime_ns))
        os.replace(other, self.hub.table)

    def new(self, text):
        """Writes a file beside the table file."""
        path = os.path.join(self.hub.folder.name, "tables.toml.new")
        with open(path, "w") as file:
            file.write(text)
        return path

    def post(self, path, body):
        """A request by hand: the status and the answer."""
        text = json.dumps(body)
        with socket.socket(socket.AF_UNIX) as peer:
            peer.settimeout(5)
            peer.connect(self.console)
            peer.sendall(f"POST {path} HTTP/1.1\r\nhost: hub\r\nconnection: close\r\ncontent-length: {len(text)}\r\n\r\n{text}".encode())
            answer = b""
            while part := peer.recv(65536):
                answer += part
        head, _, rest = answer.partition(b"\r\n\r\n")
        return int(head.split()[1]), json.loads(rest)


def play(ports, hub, steps):
    plain = table_of(ports)
    steps.step("reload, as it was", ["reload"], [])
    steps.write(table_of(ports, metz="a2"), still=True)
    time.sleep(2.2)
    steps.says("of the same time and length: no look sees it", not any("route METZ" in line for line in hub.log()))
    steps.step("reload sees it", ["reload"], ["ACME: new routes"])
    time.sleep(0.3)
    steps.says("the log tells it", any("ACME: route METZ: a2" in line for line in hub.log()))
    steps.step("reload again", ["reload"], [])
    log = len(hub.log())
    for what, text, lines in (
        ("diff: what the hub has", table_of(ports, metz="a2"), []),
        ("diff: a route", plain, ["ACME: new routes"]),
        ("diff: a quota", table_of(ports, metz="a2", quota=101),
         ["ACME: its entry waits for a restart", "customer ACME: its quota differs"]),
        ("diff: a line's block", table_of(ports, metz="a2", block=512),
         ["ACME: its entry waits for a restart", "customer ACME: the block of line a2 differs"]),
        ("diff: a password, which nobody tells", table_of(ports, metz="a2", password="OTHER"),
         ["ACME: its entry waits for a restart", "customer ACME: the password of line a1 differs"]),
        ("diff: from where a peer connects", table_of(ports, metz="a2", come="10.1.0.0/16"), ["ACME a1: its from changes"]),
        ("diff: the capacity", table_of(ports, metz="a2", capacity=301), ["the capacity differs; the file waits for a restart"]),
        ("diff: a customer less", table_of(ports, metz="a2", bolt=False),
         ["the number of customers differs; the file waits for a restart"]),
    ):
        steps.step(what, ["diff", steps.new(text)], lines)
    steps.fails("diff: a name that isn't from / on", ["diff", "tables.toml.new"], "file is the name of a file from / on")
    steps.fails("diff: a fault", ["diff", steps.new(table_of(ports, block=100))], "K3 BadValue: customer 1 (ACME), line 2 (a2), block")
    steps.fails("diff: nothing there", ["diff", os.path.join(hub.folder.name, "nothing")], "not found; nothing changes")
    pipe = os.path.join(hub.folder.name, "pipe")
    os.mkfifo(pipe)
    steps.fails("diff: a pipe to which nobody writes", ["diff", pipe], "no regular file; nothing changes")
    time.sleep(1.2)
    told = [line for line in hub.log()[log:] if "table file" in line or "route" in line]
    steps.says("none of them changed anything, or was told in the log", not told, seen=told)
    steps.step("and the hub has what it had", ["diff", str(hub.table)], [])
    steps.write(table_of(ports, block=100))
    steps.fails("reload: a fault, with its place", ["reload"], "K3 BadValue: customer 1 (ACME), line 2 (a2), block")
    steps.write(table_of(ports, quota=101, come="10.1.0.0/16"))
    lines = ["ACME: its entry waits for a restart", "customer ACME: its quota differs", "ACME a1: its from changes"]
    steps.step("reload: what holds at once, and what waits", ["reload"], lines)
    steps.step("reload: the same again", ["reload"], lines[:2])
    steps.write(plain)
    first, again = (steps.post("/v1/reload", {"name": "once"}) for _ in range(2))
    steps.says("an order under a name is done once", first[0] == again[0] == 202 and first[1]["order"] == again[1]["order"],
               seen=(first, again))
    past = steps.post("/v1/diff", {"file": str(hub.table), "until": 1})
    steps.says("and not after its time", past[0] == 410, seen=past)
    wrong = steps.post("/v1/diff", {"file": "tables.toml"}), steps.post("/v1/reload", {"file": str(hub.table)})
    steps.says("what is wrong is refused by its name",
               [one[0] for one in wrong] == [400, 400] and "file is" in wrong[0][1]["error"] and "file" in wrong[1][1]["error"],
               seen=wrong)
    steps.says("no password was told", not any("SECRET" in line or "OTHER" in line for line in hub.log()))
    return steps.wrong


def main():
    options = options_of(__doc__)
    ports = free_ports(3)
    with ConsoleHub(options, table_of(ports)) as hub:
        hub.serves()
        wrong = play(ports, hub, Steps(options, hub))
    sys.exit(wrong > 0)


if __name__ == "__main__":
    main()
