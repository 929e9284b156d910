"""Plays ten incidents of a bureau, and shows what the log and `njehub ctl` say of each, and that the operator's step
mends it.

    python3 examples/trials/incidents.py PROGRAM [PLAY ..]

Each play serves two customers with a spool file and a console: ACME has lines to LYON, METZ and NICE, BOLT one to LYON.
It prints the play's name, then what was done, the lines of the log and of `ctl` that tell of the incident, the
operator's step, and whether that mended it. `full_disk` needs root, for a disk of its own.
"""

import contextlib
import os
import pathlib
import re
import shutil
import signal
import socket
import subprocess
import sys
import tempfile
import time

from console import Console
from frames import REFUSAL, ebcdic, file_of
from hub import connected, customer_of, free_ports, line_of, options_of
from peers import FilePeer, Loop


class Wrong(Exception):
    """Something isn't as it is to be."""


class Bureau(Console):
    """The program in a folder of its own, started and ended by a play."""

    def __init__(self, options, spool=None):
        self.program, self.process = options.program, None
        self.place = tempfile.TemporaryDirectory(prefix="incident.")
        self.folder = pathlib.Path(self.place.name)
        os.chmod(self.folder, 0o700)
        self.console, self.table = self.folder / "console", self.folder / "tables.toml"
        self.spool, self.told_in = pathlib.Path(spool or self.folder / "spool"), self.folder / "log"
        self.ports = free_ports(4)
        self.write()

    def __enter__(self):
        return self

    def __exit__(self, *_):
        self.kill()
        self.place.cleanup()

    def write(self, quota=100, password=None, route="PARIS", text=""):
        """The table file. A file beside it takes its place, as an operator does it."""
        more = {"password": password} if password else {}
        lines = [
            line_of("lyon", "LYON", port=self.ports[0], **more),
            line_of("metz", "METZ", port=self.ports[1]),
            line_of("nice", "NICE", port=self.ports[2]),
        ]
        routes = [("LYON", "lyon"), ("METZ", "metz"), ("NICE", "nice"), (route, "metz")]
        table = f"capacity = {2 * quota}\n" + customer_of("ACME", "BUREAU", quota, lines, routes, files=8)
        bolt = [line_of("b1", "LYON", port=self.ports[3])]
        new = self.folder / "new.toml"
        new.write_text(table + customer_of("BOLT", "BUREAU", quota, bolt, [("LYON", "b1")], files=8) + text)
        new.rename(self.table)

    def start(self, *words):
        line = [self.program, "serve", "--tables", str(self.table), "--spool", str(self.spool)]
        line += ["--console", str(self.console), *words]
        with self.told_in.open("wb") as log:
            self.process = subprocess.Popen(line, stdin=subprocess.DEVNULL, stdout=log, stderr=log)
        return self

    def starts(self, *words):
        """Starts, and waits until the console answers."""
        self.start(*words)
        self.listens()
        return self

    def runs(self):
        return self.process is not None and self.process.poll() is None

    def kill(self):
        if self.runs():
            self.process.kill()
            self.process.wait()

    def ends(self, seconds=10):
        """Waits for the program's end, and says its status."""
        return self.process.wait(seconds)

    def log(self):
        return self.told_in.read_text(errors="replace").splitlines()

    def says(self, wanted, patience=10, loop=None):
        """Waits until the log has a line with this in it, and prints that."""
        end = time.monotonic() + patience
        while True:
            found = [line for line in self.log() if re.search(wanted, line)]
            if found:
                print(f"    log: {found[-1]}")
                return
            if time.monotonic() > end:
                raise Wrong(f"the log doesn't say: {wanted}\n" + "\n".join(self.log()))
            loop.run(0.05) if loop else time.sleep(0.05)

    def shows(self, wanted, *words):
        """What `ctl` prints is to have a line with this in it, which is printed."""
        out = self.prints(*words)
        found = [line for line in out.splitlines() if re.search(wanted, line)]
        if not found:
            raise Wrong(f"ctl {' '.join(words)} doesn't say: {wanted}\n{out}")
        print(f"    ctl {' '.join(words)}: {found[0].strip()}")

    def step(self, *words):
        """The operator's step, which is to succeed."""
        out = self.prints(*words)
        print(f"    step: ctl {' '.join(words)}" + (f" -> {out.strip()}" if out.strip() else ""))


class Taker(FilePeer):
    """A peer whose files that are refused aren't sent again."""

    def take(self, rcb, srcb, record):
        super().take(rcb, srcb, record)
        if rcb == REFUSAL and self.to_send:
            self.to_send.pop(0)


def letter(number, to, cards=3):
    return file_of(number, "LYON", "ANNA", to, "PAUL", [ebcdic(f"{place:04}".ljust(80)) for place in range(cards)])


def is_so(what, loop, condition, seconds=10):
    if not loop.run(seconds, condition):
        raise Wrong(f"not so after {seconds} s: {what}")
    print(f"    {what}")


def peer_up(loop, port, node):
    peer = Taker(loop, port, node)
    if not loop.run(10, lambda: peer.is_up):
        raise Wrong(f"no session with {node}")
    return peer


def done(what):
    print(f"    {what}")


def peer_that_hangs(options, loop):
    """LYON's program stands still in a session, and its second one can't get the line."""
    with Bureau(options).starts() as hub:
        hung = peer_up(loop, hub.ports[0], "LYON")
        loop.drop(hung)  # from now on it says nothing, and its connection stays
        with contextlib.closing(connected(hub.ports[0])) as second:
            second.settimeout(0.5)
            second.sendall(bytes.fromhex("012d"))
            with contextlib.suppress(socket.timeout):
                raise Wrong(f"the second is answered by {second.recv(2).hex()}")
        done("LYON's program hangs in its session, and the one that is started anew gets no answer")
        hub.shows(r"lyon.*up", "lines", "ACME")
        hub.step("stop", "lyon")
        hub.says("lyon: stopped")
        hub.shows(r"lyon.*stopped", "lines", "ACME")
        hub.step("start", "lyon")
        peer = peer_up(loop, hub.ports[0], "LYON")
        done("mended: the new program has its session")
        peer.close()


def stuck_file(options, loop):
    """A file waits for METZ, whose line is down for the day."""
    with Bureau(options).starts() as hub:
        anna = peer_up(loop, hub.ports[0], "LYON")
        anna.to_send.append(letter(42, "METZ"))
        is_so("a file for METZ waits, and METZ doesn't come", loop, lambda: anna.went == 1)
        hub.says("file in: LYON.42")
        hub.shows(r"LYON\.42", "files", "ACME", "--node", "METZ")
        nice = peer_up(loop, hub.ports[2], "NICE")
        hub.step("reroute", "ACME", "LYON.42", "NICE")
        is_so("mended: it goes out by NICE's line", loop, lambda: len(nice.files) == 1)
        hub.says("file out: LYON.42", loop=loop)


def full_quota(options, loop):
    """ACME's files fill its quota, and the next one is refused."""
    with Bureau(options).starts() as hub:
        anna = peer_up(loop, hub.ports[0], "LYON")
        anna.to_send.append(letter(42, "METZ", 280))
        is_so("a file fills the quota", loop, lambda: anna.went == 1)
        hub.says("blocks are used", loop=loop)
        anna.to_send.append(letter(43, "METZ", 280))
        loop.run(2)
        hub.says("file in refused|SPOOL FULL|request", loop=loop)
        hub.shows(r"ACME", "customers")
        hub.shows(r"LYON\.42", "files", "ACME")
        hub.step("cancel", "ACME", "LYON.42")
        anna.to_send[:] = [letter(44, "METZ", 3)]
        anna.state = "idle"
        is_so("mended: the next file is taken", loop, lambda: anna.went == 2)


def wrong_route(options, loop):
    """A file for PARIS is refused, since the customer's route names a node that is misspelt."""
    with Bureau(options) as hub:
        hub.write(route="PARSI")
        hub.starts()
        anna = peer_up(loop, hub.ports[0], "LYON")
        anna.to_send.append(letter(42, "PARIS"))
        hub.says("NJH020 NODE PARIS UNKNOWN", loop=loop)
        hub.write(route="PARIS")
        done("step: the route in the table file is written right")
        hub.says("route PARIS: metz", loop=loop)
        hub.says("ACME: new routes", loop=loop)
        anna.to_send[:] = [letter(43, "PARIS")]
        is_so("mended: the file is taken", loop, lambda: anna.went == 1)
        hub.shows(r"LYON\.43.*PARIS", "files", "ACME")


def full_disk(options, loop):
    """FILE's disk has no room: the hub ends, and goes on with more room."""
    if os.geteuid():
        done("not played: it needs root")
        return
    disk = tempfile.mkdtemp(prefix="disk.")
    subprocess.run(["mount", "-t", "tmpfs", "-o", "size=400k,mode=700", "none", disk], check=True)
    try:
        with Bureau(options, f"{disk}/spool") as hub:
            hub.write(quota=4000)
            hub.starts()
            anna = peer_up(loop, hub.ports[0], "LYON")
            anna.to_send += [letter(number, "METZ", 500) for number in range(1, 9)]
            loop.run(20, lambda: not hub.runs())
            if hub.runs():
                raise Wrong("the hub goes on")
            kept = anna.went
            done(f"the disk is full after {kept} files; the hub has ended with status {hub.ends()}")
            hub.says("spool file .*full")
            subprocess.run(["mount", "-o", "remount,size=64m", disk], check=True)
            done("step: the disk gets room, and the hub is started")
            hub.starts()
            found = len(re.findall(r"LYON\.\d", hub.prints("files", "ACME")))
            if found < kept:
                raise Wrong(f"{found} files are there, and LYON was told of {kept}")
            hub.shows(r"LYON\.1\b", "files", "ACME")
            done(f"mended: {found} files are there")
    finally:
        subprocess.run(["umount", "-l", disk], check=False)
        os.rmdir(disk)


def damaged_spool(options, loop):
    """FILE is damaged: the start is refused, and a backup mends it."""
    with Bureau(options).starts() as hub:
        anna = peer_up(loop, hub.ports[0], "LYON")
        anna.to_send.append(letter(42, "METZ"))
        is_so("a file is kept", loop, lambda: anna.went == 1)
        hub.step("shutdown")
        if hub.ends():
            raise Wrong(f"status {hub.process.returncode}")
        backup = [(path, pathlib.Path(f"{path}.backup")) for path in (hub.spool, pathlib.Path(f"{hub.spool}-wal"))]
        backup = [pair for pair in backup if pair[0].exists()]
        for path, copy in backup:
            shutil.copy2(path, copy)
        data = bytearray(hub.spool.read_bytes())
        data[5000:5100] = b"\xff" * 100
        hub.spool.write_bytes(data)
        hub.start()
        done(f"FILE is damaged; the start is refused with status {hub.ends()}")
        hub.says("spool file .*(damaged|malformed)")
        for path, copy in backup:
            shutil.copy2(copy, path)
        done("step: the backup's files take their place")
        hub.starts()
        hub.shows(r"LYON\.42", "files", "ACME")
        done("mended: the file is there")


def wrong_password(options, loop):
    """LYON sends no password where one is wanted."""
    with Bureau(options) as hub:
        hub.write(password="SECRET")
        hub.starts()
        peer = Taker(loop, hub.ports[0], "LYON")
        hub.says("sign-on refused: its password doesn't fit", loop=loop)
        hub.shows(r"lyon.*down", "lines", "ACME")
        if "SECRET" in "".join(hub.log()) + hub.prints("lines") + hub.prints("--json", "lines"):
            raise Wrong("the password is told")
        peer.close()
        hub.write()
        hub.step("shutdown")
        done(f"step: the table file's password is what LYON sends; the hub has ended with status {hub.ends()}")
        hub.starts()
        peer_up(loop, hub.ports[0], "LYON").close()
        done("mended: the session is up")


def typo_in_the_table(options, loop):
    """A table file with a typo takes the place of the one that is served."""
    with Bureau(options).starts() as hub:
        peer = peer_up(loop, hub.ports[0], "LYON")
        hub.write(route="ROME", text="[[customer\n")
        hub.says("table file: K1 BadToml.*nothing changes", loop=loop)
        hub.write(route="ROME")
        done("step: the typo is taken out")
        hub.says("route ROME: metz", loop=loop)
        hub.says("ACME: new routes", loop=loop)
        if not peer.is_up:
            raise Wrong("the session was lost by it")
        peer.to_send.append(letter(42, "ROME"))
        is_so("mended: a file for the new route is taken, by the session that was up all the time", loop,
              lambda: peer.went == 1)


def port_in_use(options, loop):
    """Another program has the port of METZ."""
    with Bureau(options) as hub:
        other = socket.create_server(("127.0.0.1", hub.ports[1]))
        hub.starts()
        hub.says(f"metz: can't listen on 127.0.0.1:{hub.ports[1]}")
        hub.shows("wrong: ACME metz: can't listen", "status")
        peer_up(loop, hub.ports[0], "LYON").close()
        other.close()
        done("step: the other program is ended")
        hub.says(f"metz: listens on 127.0.0.1:{hub.ports[1]}", patience=15)
        peer_up(loop, hub.ports[1], "METZ").close()
        done("mended: METZ has its session")


def reboot(options, loop):
    """The machine is shut down and comes again, once in order and once not."""
    with Bureau(options).starts() as hub:
        ends = (
            (42, lambda: hub.step("shutdown"), "the operator ends the service"),
            (43, lambda: hub.process.send_signal(signal.SIGKILL), "file in: LYON.43"),
        )
        for number, end, told in ends:
            anna = peer_up(loop, hub.ports[0], "LYON")
            anna.to_send.append(letter(number, "METZ"))
            is_so(f"LYON.{number} is kept", loop, lambda: anna.went == 1)
            end()
            done(f"the hub has ended with status {hub.ends()}")
            hub.says(told)
            anna.close()
            hub.starts()
            hub.shows(rf"LYON\.{number}", "files", "ACME")
        hub.shows("files", "status")
        metz = peer_up(loop, hub.ports[1], "METZ")
        is_so("mended: METZ gets both files", loop, lambda: len(metz.files) == 2)


PLAYS = (
    peer_that_hangs,
    stuck_file,
    full_quota,
    wrong_route,
    full_disk,
    damaged_spool,
    wrong_password,
    typo_in_the_table,
    port_in_use,
    reboot,
)


def main():
    options = options_of(__doc__, (("plays",), {"nargs": "*", "help": "which to play"}))
    wrong = 0
    for play in PLAYS:
        if options.plays and play.__name__ not in options.plays:
            continue
        print(f"{play.__name__}: {play.__doc__}")
        loop = Loop()
        try:
            play(options, loop)
        except (Wrong, AssertionError, OSError, subprocess.SubprocessError) as error:
            wrong += 1
            print(f"    WRONG: {error}")
        loop.close()
    print("right" if not wrong else f"{wrong} plays are wrong")
    sys.exit(wrong > 0)


if __name__ == "__main__":
    main()
