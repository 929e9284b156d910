"""A hub on a core of its own, with a spool file or without, and when it synced; for spool_rate.py and spool_long.py."""

import mmap
import os
import pathlib
import subprocess
import tempfile

from hub import connected, seconds_used
from spool_served import Served

HERE = pathlib.Path(__file__).parent

# How many bytes the syncs are noted in: for half a million of them. Pages that nothing is written to take no room.
NOTES = 1 << 23


def built(folder, name, *words):
    """Builds a program or a library of this folder, and says where it is."""
    path = f"{folder}/{name.partition('.')[0]}"
    subprocess.run(["cc", "-O2", "-o", path, HERE / name, *words], check=True)
    return path


def on_core(core):
    """What a process does before it begins, so that it stays on this core."""
    return lambda: os.sched_setaffinity(0, {core})


class PinnedHub(Served):
    """The program on a core of its own. Its spool file is in a new folder, where TMPDIR says, and what is noted of its
    syncs in memory, where there is /dev/shm."""

    def __init__(self, program, table, core, library, is_kept=True):
        self.place, self.core, self.library = tempfile.TemporaryDirectory(prefix="spool_hub."), core, library
        memory = "/dev/shm" if os.path.isdir("/dev/shm") else self.place.name
        self.noted = tempfile.NamedTemporaryFile(prefix="spool_syncs.", dir=memory)
        self.noted.truncate(NOTES)
        self.notes = memoryview(mmap.mmap(self.noted.fileno(), NOTES)).cast("q")
        super().__init__(program, self.place.name, table, is_old=not is_kept)
        given = {"LD_PRELOAD": library, "SPOOL_SYNCS": self.noted.name}
        self.start(env={**os.environ, **given}, preexec_fn=on_core(core))

    def wait_for(self, port):
        """Waits until it listens there."""
        connected(port).close()

    def counts(self):
        """How many rounds and syncs there were so far, and the seconds of processor that it used."""
        return self.notes[0], self.notes[1], seconds_used(self.process.pid)

    def most(self):
        """The most syncs that a round had, once the hub was open."""
        return self.notes[2]

    def syncs(self, begin=0.0):
        """Of each sync that ended after this moment when it began and when it ended, in seconds of `monotonic`."""
        times = [moment / 1e9 for moment in self.notes[4 : 4 + 2 * self.notes[1]]]
        return [pair for pair in zip(times[0::2], times[1::2]) if pair[1] > begin]

    def runs(self):
        return self.process.poll() is None

    def __enter__(self):
        return self

    def __exit__(self, *_):
        if not self.runs():
            print(f"the program has ended with status {self.process.returncode}: {self.log()[-2:]}")
        self.kill()
        self.noted.close()
        self.place.cleanup()
