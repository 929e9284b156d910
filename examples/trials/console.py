"""The operator's console of a served hub, as the trials ask it: by `njehub ctl`, and by a socket of their own."""

import contextlib
import json
import os
import pathlib
import socket
import subprocess
import tempfile
import time

from hub import Hub


class Console:
    """The console of a `program` that runs, on the socket `console`."""

    def ctl(self, *words):
        """Runs `njehub ctl`, and says its status, standard output and standard error."""
        line = [self.program, "ctl", "--console", str(self.console), *words]
        done = subprocess.run(line, stdin=subprocess.DEVNULL, capture_output=True, timeout=30)
        return done.returncode, done.stdout.decode(errors="replace"), done.stderr.decode(errors="replace")

    def prints(self, *words):
        """What `ctl` prints, which is to succeed."""
        status, out, err = self.ctl(*words)
        assert status == 0, f"ctl {' '.join(words)}: status {status}: {err}{out}"
        return out

    def answers(self, *words):
        """The bodies that came, as `--json` prints them."""
        return [json.loads(line) for line in self.prints("--json", *words).splitlines() if line]

    def listens(self, patience=20):
        """Waits until the console answers."""
        end = time.monotonic() + patience
        while True:
            with contextlib.suppress(OSError), self.visit():
                return
            assert self.runs() and time.monotonic() < end, self.log()
            time.sleep(0.02)

    def visit(self, timeout=20):
        """A connection to the console."""
        visitor = socket.socket(socket.AF_UNIX)
        visitor.settimeout(timeout)
        try:
            visitor.connect(str(self.console))
        except OSError:
            visitor.close()
            raise
        return visitor


class ConsoleHub(Console, Hub):
    """The program, serving a table with a console in a folder of its own."""

    def __init__(self, options, table, *words, **given):
        self.program, self.place = options.program, tempfile.TemporaryDirectory(prefix="console.")
        os.chmod(self.place.name, 0o700)
        self.console = pathlib.Path(self.place.name, "console")
        super().__init__(options, table, "--console", str(self.console), *words, **given)

    def __exit__(self, *words):
        super().__exit__(*words)
        self.place.cleanup()


def get(visitor, path):
    """Asks for a resource on a connection, and says its status and body."""
    visitor.sendall(f"GET {path} HTTP/1.1\r\nHost: hub\r\n\r\n".encode())
    return response(visitor)


def response(visitor):
    """The next response on a connection: its status and its body."""
    data = b""
    while b"\r\n\r\n" not in data:
        data += more_of(visitor)
    head, body = data.split(b"\r\n\r\n", 1)
    fields = dict(line.lower().split(b":", 1) for line in head.split(b"\r\n")[1:])
    length = int(fields[b"content-length"])
    while len(body) < length:
        body += more_of(visitor)
    return int(head.split()[1]), body


def more_of(visitor):
    more = visitor.recv(65536)
    if not more:
        raise ConnectionError("closed")
    return more
