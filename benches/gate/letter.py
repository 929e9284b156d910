"""README's letter, as try.py tries it: the hub of README's commands serves, and its peers give their commands.

The ports are free ones in place of README's, and what README has in /tmp is in a folder of its own.
"""

import contextlib
import os
import pathlib
import random
import re
import shlex
import signal
import socket
import subprocess
import sys
import threading
import time

STEP_LIMIT = 120  # seconds for a command of a peer


class Wrong(Exception):
    """What came out otherwise than it should."""


def code_blocks(text):
    """The blocks of lines that are indented by four spaces, each with the lines without these."""
    blocks = re.findall(r"(?:^    .*\n(?:[ \t]*\n(?=    ))*)+", text + "\n", re.M)
    return [[line[4:] for line in block.splitlines()] for block in blocks]


def letter_of(root):
    """README's letter: the program, its words, the folder, and the commands of its peers."""
    readme = (root / "README.md").read_text(encoding="utf-8")
    commands = re.findall(r"^    (\S.*?) +# \d.*$", readme, re.M)
    folder = re.search(r"in each\s+`cd ([\w/]+)`", readme)
    serve = re.fullmatch(r"\S*crates/(\w+)/out/\1 (.*)", commands[0]) if commands else None
    if not folder or not serve or len(commands) < 2:
        raise Wrong("README.md has no `cd FOLDER`, or no commands with `# TERMINAL`, a crate's program first")
    return serve[1], shlex.split(serve[2]), root / folder[1], [shlex.split(it) for it in commands[1:]]


def processes_below(pid):
    """The processes that stand below this one, with their command lines."""
    children = {}
    for name in filter(str.isdigit, os.listdir("/proc")):
        try:
            stat = pathlib.Path(f"/proc/{name}/stat").read_text(errors="replace")
        except OSError:
            continue
        children.setdefault(int(stat.rsplit(")", 1)[1].split()[1]), []).append(int(name))
    rest = [pid]
    while rest:
        found = children.get(rest.pop(), [])
        rest += found
        for one in found:
            try:
                yield one, pathlib.Path(f"/proc/{one}/cmdline").read_bytes().decode(errors="replace").split("\0")[:-1]
            except OSError:
                pass


def listens(port):
    """Whether anyone listens on a port of this machine."""
    rows = pathlib.Path("/proc/net/tcp").read_text().splitlines()[1:]
    return any(row.split()[1].endswith(f":{port:04X}") and row.split()[3] == "0A" for row in rows)


def free_ports(number):
    """Ports that nobody has, and that the system gives to nobody who doesn't name them."""
    found = []
    while len(found) < number:
        port = random.randrange(29000, 32000)
        with socket.socket() as tried:
            try:
                tried.bind(("127.0.0.1", port))
            except OSError:
                continue
        found += [port] * (port not in found)
    return found


class Letter:
    """README's letter, on other ports and in another folder than README's."""

    def __init__(self, room, root, words, folder, commands):
        self.room, self.words, self.folder = room, words, folder
        self.readme = (root / "README.md").read_text(encoding="utf-8")
        named = sorted({command[command.index("--port") + 1] for command in commands})
        self.ports = dict(zip(named, free_ports(len(named))))
        self.commands = [[self.here(word) for word in command] for command in commands]
        page = (self.folder / "README.md").read_text(encoding="utf-8")
        self.page = [line for block in code_blocks(page) for line in block]
        self.data = [(word, self.table(word)) for word in self.words if (self.folder / word).is_file()]

    def here(self, word):
        """A word of a command as it is typed here."""
        if word.startswith("/tmp/"):
            return f"{self.room}/{word[5:]}"
        return sys.executable if word == "python3" else str(self.ports.get(word, word))

    def table(self, name):
        """A copy of a table file with the ports that are used here."""
        text = (self.folder / name).read_text(encoding="utf-8")
        for port, other in self.ports.items():
            if not re.search(rf"^port = {port}$", text, re.M):
                raise Wrong(f"{name} has no port {port}, which README.md has")
            text = re.sub(rf"^port = {port}$", f"port = {other}", text, flags=re.M)
        path = self.room / name
        path.write_text(text, encoding="utf-8")
        return path

    def play(self, serving):
        """Waits until the hub listens, gives the peers' commands and ends the hub as Ctrl-C does."""
        while not all(map(listens, self.ports.values())):
            if os.waitid(os.P_PID, serving.pid, os.WEXITED | os.WNOHANG | os.WNOWAIT):
                raise Wrong("the hub never listened")
            time.sleep(0.2)
        hub = [pid for pid, words in processes_below(serving.pid) if words[-len(self.words):] == self.words]
        try:
            self.give_all()
        finally:
            with contextlib.suppress(ProcessLookupError):
                for pid in hub:
                    os.kill(pid, signal.SIGINT)

    def give_all(self):
        """Gives the commands in turn. The one that README says to end by Ctrl-C is ended once it has told something."""
        told, listening = [], None
        lasting = re.search(r"end\s+`(\w+)`\s+there\s+by\s+Ctrl-C", self.readme)
        try:
            for command in self.commands:
                if lasting and lasting[1] in command:
                    listening = self.start(command)
                    continue
                told += self.ended(self.start(command), command)
                if listening:
                    told += self.told_to(listening)
                    listening = None
        finally:
            if listening:
                listening.kill()
                listening.wait()
        self.compare(told)

    def told_to(self, listening):
        """What is told to the peer that listens, until it is ended by Ctrl-C."""
        first = self.line_of(listening)
        listening.send_signal(signal.SIGINT)
        return [first, *self.ended(listening, listening.args)]

    def start(self, command):
        how = {"stdin": subprocess.DEVNULL, "stdout": subprocess.PIPE, "stderr": subprocess.STDOUT}
        how.update(text=True, errors="replace", env={**os.environ, "PYTHONDONTWRITEBYTECODE": "1"})
        return subprocess.Popen(command, cwd=self.folder, **how)

    def line_of(self, process):
        """The first line that a process prints."""
        ended = threading.Timer(STEP_LIMIT, process.kill)
        ended.start()
        line = process.stdout.readline()
        ended.cancel()
        if not line:
            raise Wrong("nothing was told to the one who listens")
        return line.rstrip("\n")

    def ended(self, process, command):
        """What a command prints."""
        try:
            text = process.communicate(timeout=STEP_LIMIT)[0]
        except subprocess.TimeoutExpired:
            process.kill()
            said = process.communicate()[0]
            raise Wrong(f"{shlex.join(command)} had not ended after {STEP_LIMIT} s, and said: {said}") from None
        if process.returncode:
            raise Wrong(f"{shlex.join(command)} ended with status {process.returncode}, and said: {text}")
        return text.splitlines()

    def compare(self, told):
        """Compares what was printed with the example's page and with README.md, and what came with what was sent."""
        told = [line.replace(f"{self.room}/", "/tmp/") for line in told]
        rest = iter(self.page)
        for line in told:
            if line not in rest:
                raise Wrong(f"`{line}` isn't where {self.folder.name}/README.md has it; all that was printed: {told}")
        promised = re.findall(r"`(/tmp/[^`]*: [^`]*)`", self.readme)
        if not promised or not {*promised} <= {*told}:
            raise Wrong(f"README.md has {promised}, and that wasn't printed: {told}")
        sent = next(self.folder / command[command.index("send") + 1] for command in self.commands if "send" in command)
        for path in (pathlib.Path(self.here(line.partition(":")[0])) for line in promised):
            if path.read_bytes() != sent.read_bytes():
                raise Wrong(f"what came is {path.read_text(errors='replace')!r}, and not {sent.name}")
