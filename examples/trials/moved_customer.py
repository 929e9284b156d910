#!/usr/bin/env python3
"""A customer that moves from one hub to another: stopped, copied, started, and LIST is the same.

    python3 examples/trials/moved_customer.py crates/njehub/out/njehub [--files 200]

Hub A serves ACME and BOLT, hub B serves CARL, each with a spool file of its own. Users send files for a node whose line
is down, hold some, and LIST. Then both hubs end, `njehub files --spool A --customer ACME --compact NEW` copies ACME's
files, NEW goes to another folder without its log, `njehub files --spool NEW --customer ACME --into B` copies them on, A
starts without ACME and B with it. Each row of the table says what was compared and whether it is the same: the replies
to LIST, what `files` prints, and what `files --export --raw` gives of each file, by its line in its customer's list and
in that of all. A second copy is refused, and of B without its log, and of it all in a new file, the same is listed.
"""

import pathlib
import shutil
import subprocess
import sys
import tempfile

from hub import Hub, connected, customer_of, free_ports, line_of, options_of

PEER = pathlib.Path(__file__).resolve().parent.parent / "peer.py"


def entry_of(name, port):
    """A customer with a line to LYON, and one to METZ where nobody connects."""
    lines = [line_of(f"{name.lower()}1", "LYON", port=port), line_of(f"{name.lower()}2", "METZ")]
    routes = [("LYON", f"{name.lower()}1"), ("METZ", f"{name.lower()}2")]
    return customer_of(name, "BUREAU", 2000, lines, routes, files=1000)


def table_of(entries):
    return f"capacity = {2000 * len(entries)}\n" + "".join(entries)


def said(words, status=0):
    """What a command prints; it ends the trial where it ends otherwise."""
    done = subprocess.run(words, capture_output=True, timeout=120)
    if done.returncode != status:
        sys.exit(f"{' '.join(map(str, words))}: status {done.returncode}: {done.stderr.decode(errors='replace')}")
    return done.stdout if status == 0 else done.stderr


def peer(port, *words):
    return said([sys.executable, str(PEER), "--port", str(port), "--node", "LYON", "--user", "ANNA", *words])


def fill(port, folder, first, count):
    """So many files of a few lines for PAUL at METZ, each third of which is held."""
    for number in range(first, first + count):
        letter = pathlib.Path(folder, "letter.txt")
        letter.write_text("".join(f"LETTER {number} LINE {line}\n" for line in range(1 + number % 40)))
        peer(port, "send", str(letter), "PAUL@METZ", "--number", str(number))
        if number % 3 == 0:
            peer(port, "command", f"HOLD LYON.{number}")


class Trial:
    def __init__(self, options, folder):
        self.options, self.folder, self.is_right = options, folder, True
        self.a, self.b = str(pathlib.Path(folder, "a.spool")), str(pathlib.Path(folder, "b.spool"))
        self.ports = dict(zip(("ACME", "BOLT", "CARL"), free_ports(3)))

    def hub(self, spool, *names):
        hub = Hub(self.options, table_of([entry_of(name, self.ports[name]) for name in names]), "--spool", spool)
        for name in names:
            connected(self.ports[name]).close()
        return hub

    def files(self, spool, *words, status=0):
        return said([self.options.program, "files", "--spool", spool, *words], status)

    def listed(self, name):
        return peer(self.ports[name], "command", "LIST")

    def exported(self, spool, *whose):
        """Each file's bytes, in the order of the listing."""
        names = [line.split()[1].decode() for line in self.files(spool, *whose).splitlines()]
        return [
            self.files(spool, *whose, "--export", name, "--number", str(number), "--raw")
            for number, name in enumerate(names, 1)
        ]

    def alone(self, path):
        """Where a spool file is once it is moved into another folder without its log."""
        elsewhere = pathlib.Path(self.folder, "elsewhere")
        elsewhere.mkdir(exist_ok=True)
        return str(shutil.move(path, elsewhere))

    def say(self, what, before, after):
        same = before == after
        self.is_right = self.is_right and same
        print(f"| {what} | {len(before)} | {'same' if same else 'OTHER'} |")

    def play(self):
        count = self.options.files
        with self.hub(self.a, "ACME", "BOLT"):
            fill(self.ports["ACME"], self.folder, 1, count - count // 3)
            fill(self.ports["BOLT"], self.folder, 1, 5)
            fill(self.ports["ACME"], self.folder, 1 + count - count // 3, count // 3)
            acme, bolt = self.listed("ACME"), self.listed("BOLT")
        with self.hub(self.b, "CARL"):
            fill(self.ports["CARL"], self.folder, 1, 5)
            carl = self.listed("CARL")
        rows, data = self.files(self.a, "--customer", "ACME"), self.exported(self.a, "--customer", "ACME")
        others, each = self.files(self.b), data + self.exported(self.a, "--customer", "BOLT")
        print("| compared | lines, bytes or files | |\n|---|---|---|")
        self.say("each file's records in A, by both lists", each, self.exported(self.a))
        new = str(pathlib.Path(self.folder, "acme.spool"))
        copied = self.files(self.a, "--customer", "ACME", "--compact", new)
        self.say("what --compact prints, and ACME's list in A", rows, copied)
        copied = self.files(self.alone(new), "--customer", "ACME", "--into", self.b)
        self.say("what --into prints of that without its log", rows, copied)
        again = self.files(self.a, "--customer", "ACME", "--into", self.b, status=1)
        self.say("a second copy", b"njehub: ACME has files in the other spool\n", again)
        self.say("ACME's list in B", rows, self.files(self.b, "--customer", "ACME"))
        self.say("CARL's list in B", others, self.files(self.b, "--customer", "CARL"))
        self.say("each file's records, A and B", data, self.exported(self.b, "--customer", "ACME"))
        copy = self.alone(shutil.copy(self.b, pathlib.Path(self.folder, "copy.spool")))
        self.say("all of B, and of a copy without its log", self.files(self.b), self.files(copy))
        small = str(pathlib.Path(self.folder, "small.spool"))
        self.say("all of B and what --compact prints", self.files(self.b), self.files(self.b, "--compact", small))
        small = self.alone(small)
        with self.hub(self.a, "BOLT"):
            self.say("LIST of BOLT on A without ACME", bolt, self.listed("BOLT"))
        with self.hub(self.b, "CARL", "ACME"):
            self.say("LIST of ACME on B", acme, self.listed("ACME"))
            self.say("LIST of CARL on B", carl, self.listed("CARL"))
        with self.hub(small, "CARL", "ACME"):
            self.say("LIST of ACME on the compacted file", acme, self.listed("ACME"))


def main():
    options = options_of(__doc__, (("--files",), {"type": int, "default": 60, "help": "files that ACME has"}))
    with tempfile.TemporaryDirectory() as folder:
        trial = Trial(options, folder)
        trial.play()
    print("right" if trial.is_right else "WRONG")
    sys.exit(0 if trial.is_right else 1)


main()
