"""Shows that the units of systemd do what they say, by their own commands: nothing here needs systemd to run.

    python3 examples/trials/unit.py PROGRAM

The commands of `examples/njehub.service` are run with a table file, a spool file and a console of their own: its
SIGHUP, its reload with a right and with a wrong table file, and its stop, which is timed twenty times from the order to
the end of the last command of the unit, with nobody connected. Then both units are read by `systemd-analyze`, where the
machine has it: `verify` is to find nothing, and `security` an exposure of 2.0 at most; and what `strace` sees of the
hub, its console and its stop is among the calls that `SystemCallFilter` leaves. Last, the two units are compared: they
are to have the same rows but for the names, and to start again whatever has no status 0. Each line says what was tried,
and what came.
"""

import os
import pathlib
import re
import shutil
import signal
import socket
import statistics
import subprocess
import sys
import tempfile
import time

from hub import customer_of, free_ports, line_of, options_of

UNITS = pathlib.Path(__file__).resolve().parent.parent


def rows_of(unit):
    """The rows of a unit without comments, with what a row goes on with."""
    text = re.sub(r"\\\n\s*", " ", unit.read_text())
    return [row for row in text.splitlines() if row and row[0] not in "#["]


def commands(unit, key):
    return [row.split("=", 1)[1] for row in rows_of(unit) if row.startswith(f"{key}=")]


class Place:
    """A folder that has what the unit names, and its commands for it."""

    def __init__(self, program, unit, folder):
        self.folder, self.unit = pathlib.Path(folder), unit
        self.table = self.folder / "tables.toml"
        self.names = {"/usr/local/bin/njehub": str(program), "/etc/njehub/tables.toml": str(self.table),
                      "/var/lib/njehub/": f"{folder}/", "/run/njehub/": f"{folder}/"}

    def line(self, row, process=None):
        """A command of the unit as words of a shell, without what systemd alone reads in it."""
        row = row.lstrip("-")
        for name, there in self.names.items():
            row = row.replace(name, there)
        return row.replace("${MAINPID}", str(process.pid)) if process else row

    def start(self, before=""):
        # as systemd removes the folder of the console when the hub has ended
        (self.folder / "console").unlink(missing_ok=True)
        row = self.line(commands(self.unit, "ExecStart")[0])
        process = subprocess.Popen(["/bin/sh", "-c", f"exec {before} {row}"], stdin=subprocess.DEVNULL,
                                   stdout=subprocess.DEVNULL, stderr=open(self.folder / "log", "ab"))
        end = time.monotonic() + 60
        while not self.answers():
            assert process.poll() is None and time.monotonic() < end, (self.folder / "log").read_text()
            time.sleep(0.01)
        return process

    def answers(self):
        with socket.socket(socket.AF_UNIX) as visitor:
            return visitor.connect_ex(str(self.folder / "console")) == 0

    def reloads(self):
        return subprocess.run(self.line(commands(self.unit, "ExecReload")[0]), shell=True, capture_output=True)

    def stop(self, process):
        """Runs the unit's own commands, and says how long they took and how the hub ended."""
        begin = time.monotonic()
        for row in commands(self.unit, "ExecStop"):
            # the hub is this script's child, so it stays for `tail` until it is waited for: as systemd does that when
            # it comes to it, here after 0.05 s
            running = subprocess.Popen(self.line(row, process), shell=True, stdout=subprocess.DEVNULL)
            while running.poll() is None:
                if time.monotonic() > begin + 0.05:
                    process.poll()
                time.sleep(0.002)
        took = time.monotonic() - begin
        return took, process.wait(timeout=10)


def say(what, came, right):
    print(f"{what:<58} {came:<24} {'right' if right else 'WRONG'}", flush=True)
    return right


def plays(program, folder):
    place = Place(program, UNITS / "njehub.service", folder)
    ports = free_ports(1)
    table = "capacity = 64\n" + customer_of("ACME", "BUREAU", 64, [line_of("a1", "LYON", port=ports[0])], [("LYON", "a1")])
    place.table.write_text(table)
    process = place.start()
    try:
        process.send_signal(signal.SIGHUP)
        time.sleep(0.5)
        yield say("after a SIGHUP", "runs" if process.poll() is None else "ended", process.poll() is None)
        yield say("reload, the table file is right", f"status {place.reloads().returncode}", place.reloads().returncode == 0)
        place.table.write_text(table + "no key\n")
        yield say("reload, it has a fault", f"status {place.reloads().returncode}", place.reloads().returncode == 1)
        place.table.write_text(table)
        took = [place.stop(process)]
        for _ in range(19):
            process = place.start()
            took.append(place.stop(process))
    finally:
        if process.poll() is None:
            process.kill()
            process.wait()
    times = sorted(one for one, _ in took)
    yield say("stopped, status of each", str({status for _, status in took}), {status for _, status in took} == {0})
    said = f"{1000 * statistics.median(times):.0f} ms, {1000 * times[-1]:.0f} at most"
    yield say("stopped, from the order to the end", said, times[-1] <= 0.2)


def reads(folder):
    if not shutil.which("systemd-analyze"):
        print("systemd-analyze isn't on this machine: the units weren't read by it")
        return
    for name, instance in (("njehub.service", "njehub.service"), ("njehub@.service", "njehub@BUREAU.service")):
        there = pathlib.Path(folder, name)
        there.write_text((UNITS / name).read_text().replace("/usr/local/bin/njehub", "/bin/true"))
        read = subprocess.run(["systemd-analyze", "verify", "--man=no", str(there.with_name(instance))], capture_output=True)
        yield say(f"verify {instance}", read.stderr.decode().strip() or "nothing", read.returncode == 0 and not read.stderr)
        read = subprocess.run(["systemd-analyze", "security", "--offline=true", str(there)], capture_output=True)
        found = re.search(r"exposure level for \S+ ([0-9.]+)", read.stdout.decode())
        yield say(f"security {name}", found.group(1) if found else "not told", bool(found) and float(found.group(1)) <= 2.0)


def named(words):
    """The calls that words of a `SystemCallFilter` name, with those of the sets among them."""
    calls, left = set(), list(words)
    while left:
        word = left.pop()
        if not word.startswith("@"):
            calls.add(word)
            continue
        told = subprocess.run(["systemd-analyze", "syscall-filter", word], capture_output=True, text=True, check=True).stdout
        left += [row.strip() for row in told.splitlines() if row.startswith("    ") and not row.strip().startswith("#")]
    return calls


def calls(program, folder):
    """What the hub calls from its start to its stop, beside what the filter leaves."""
    if not (shutil.which("strace") and shutil.which("systemd-analyze")):
        print("strace or systemd-analyze isn't on this machine: the hub's calls weren't compared with the filter")
        return
    place = Place(program, UNITS / "njehub.service", folder)
    traced = pathlib.Path(folder, "calls")
    process = place.start(f"strace -f -qq -o {traced}")
    place.reloads()
    place.stop(process)
    seen = set(re.findall(r"^\d+ +(\w+)\(", traced.read_text(errors="replace"), re.M))
    left = set()
    for row in commands(place.unit, "SystemCallFilter"):
        left = left - named(row[1:].split()) if row.startswith("~") else left | named(row.split())
    over = sorted(seen - left - named(["@default"]))
    yield say("calls of the hub that the filter refuses", " ".join(over) or f"none of {len(seen)}", not over and bool(seen))


def compare():
    restart = [row for row in rows_of(UNITS / "njehub.service") if row.startswith("Restart")]
    yield say("started again after", ", ".join(restart), restart == ["Restart=always", "RestartSec=5", "RestartPreventExitStatus=0"])
    one, many = (rows_of(UNITS / name) for name in ("njehub.service", "njehub@.service"))
    plain = [row.replace("njehub-%i", "njehub").replace("%i.toml", "tables.toml").replace("njehub %i,", "njehub,") for row in many]
    yield say("both units have the same rows", f"{len(one)} rows", one == plain)


def main():
    options = options_of(__doc__)
    program = pathlib.Path(options.program).resolve()
    with tempfile.TemporaryDirectory(prefix="unit.") as folder:
        os.chmod(folder, 0o700)
        right = [*plays(program, folder), *reads(folder), *calls(program, folder), *compare()]
    sys.exit(0 if all(right) else 1)


if __name__ == "__main__":
    main()
