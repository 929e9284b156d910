"""Shows that honest peers go on beside a storm, and that a clock that is set and a disk that fails lose nothing.

    python3 examples/trials/drivers.py PROGRAM [PLAY ..] [--seconds 10] [--quick]

On two pairs of lines, one of the customer that misbehaves and one of another, a peer sends files, one after the other,
and the other one takes them. For so many seconds each of these plays goes on beside them, on another line of the first
customer, by strangers of 20 addresses who connect again as soon as their connection ends:

- `connects`: they connect and end the connection at once;
- `sign_ons`: they sign on as they should, and end the connection at once;
- `wrong_sign_ons`: they sign on with a wrong password, and stay;
- `half_open`: they sign on, say that they send no more, and stay, without reading;
- `begun`: they begin a frame and stay;
- `slow`: they say a contact, a sign-on and blocks, a byte a second;
- `clock`: nobody misbehaves. Ten times the clock is set by an hour, on and back in turn, each time when the first
  customer's other line has just refused a sign-on; then the next peer is to be answered there within three seconds. It
  is the hub's own clock of the time of day (shifted_clock.c, which is loaded before the program and which cc builds),
  since the machine's is others' too. What the log says of the time shows that it was.
- `clock_kept`: the same with a spool file.

The table has a row for each: how many connections the strangers made, how many files were sent on each pair and came,
the longest answer on each in milliseconds, and whether all is right: all files came, whole, once and in their order, no
session of theirs ended, and none was asked again or waited for a second. Then come

- `full`: the spool file's disk is full while LYON sends files (a tmpfs of 400 KB);
- `read_only`: it is read-only as the hub starts;
- `remounted`: it is made read-only while LYON sends files (ext4 on a loop device, by the option `abort`).

There the hub is to end by itself with status 2, with a line about the spool file and `njehub: device` as the last one;
and once the disk is mended a start is to have each file of which LYON was told that it came. The last line says
"right", or the script ends with status 1 and says how many plays are wrong. Needs root, `ip` and `unshare`, for a
network and mounts of its own; `remounted` a loop device and mkfs.ext4.
"""

import calendar
import contextlib
import mmap
import multiprocessing
import os
import pathlib
import re
import struct
import subprocess
import sys
import tempfile
import time

from addresses import HUB, LISTENS, Strangers, in_own_network, stranger, wrong_sign_on
from frames import CONTACT, ebcdic, file_of, framed, sign_on
from hub import Hub, connected, options_of, places_of, row, table_of
from incidents import Bureau, Wrong, letter, peer_up
from peers import Crowd, FilePeer, Loop
from spool_hub import built

WIDTHS = (15, 11, 13, 13, 13, 6)

HOUR = 3600

# The most that an answer may take, in milliseconds: less than what makes a line quiet.
LONGEST = 1000.0

CARDS = [ebcdic(f"{number:04} THE QUICK BROWN FOX JUMPS OVER THE LAZY DOG".ljust(80)) for number in range(10)]


class Sender(FilePeer):
    """A peer that sends numbered files until it is told to stop."""

    stop, other = None, None

    def turn(self, frame):
        if not self.to_send and not self.stop.is_set():
            self.to_send.append(file_of(self.went % 60000 + 1, self.node, "ANNA", self.other, "PAUL", CARDS))
        super().turn(frame)

    def said(self):
        return self.is_up and not self.is_closed, self.went, self.longest, self.naks


class Taker(FilePeer):
    """A peer that takes files, and notes whether they are whole and in their order."""

    came, wrong = 0, 0

    def turn(self, frame):
        super().turn(frame)
        for records in self.files:
            number = struct.unpack(">H", records[0][1][8:10])[0]
            cards = [record for srcb, record in records[2:-1]]
            self.wrong += number != self.came % 60000 + 1 or cards != CARDS
            self.came += 1
        self.files.clear()

    def said(self):
        return self.is_up and not self.is_closed, self.came if not self.wrong else -self.wrong, self.longest, self.naks


class Honest:
    """The honest peers of both pairs, in a process of their own."""

    def __init__(self, places):
        pairs, stop = [places[1:3], places[3:5]], multiprocessing.Event()

        def make(loop):
            peers = []
            for one, other in pairs:
                sender, taker = Sender(loop, one.port, one.node), Taker(loop, other.port, other.node)
                sender.stop, sender.other = stop, other.node
                peers += [sender, taker]
            return peers

        self.stop, self.crowd = stop, Crowd(make, lambda peer: peer.said())
        self.is_up = self.crowd.up == 2 * len(pairs)
        self.crowd.look()

    def look(self):
        """Of each pair how many files were sent and came, and the longest answer; and whether all is as it is to be. A
        file that is on its way has ten seconds to come."""
        self.stop.set()
        end, most = time.monotonic() + 10, {}
        while time.monotonic() < end:
            time.sleep(1.5)
            said, _, _ = self.crowd.look()
            most = {at: max(most.get(at, 0.0), peer[2]) for at, peer in enumerate(said)}
            if all(sender[1] == taker[1] for sender, taker in zip(said[0::2], said[1::2])):
                break
        found, right = [], self.is_up
        for at, (sender, taker) in enumerate(zip(said[0::2], said[1::2])):
            longest = 1000 * max(most[2 * at], most[2 * at + 1])
            found.append((sender[1], taker[1], longest))
            right = right and sender[0] and taker[0] and sender[1] == taker[1] > 0
            right = right and longest < LONGEST and not sender[3] and not taker[3]
        return found, right

    def __enter__(self):
        return self

    def __exit__(self, *_):
        self.crowd.__exit__()


class Slow:
    """Peers that say a byte a second."""

    def __init__(self, port, node, count=8):
        self.peers = [connected(port, source=stranger(at), to=HUB) for at in range(count)]
        self.words = CONTACT + sign_on(0xC9, node) + framed(b"\x80\x8f\xcf\x00") * 100

    def go_on(self, seconds):
        begin = time.monotonic()
        for at in range(int(seconds) + 1):
            for peer in self.peers:
                try:
                    peer.send(self.words[at : at + 1])
                except OSError:
                    pass
            time.sleep(max(0.0, min(begin + at + 1, begin + seconds) - time.monotonic()))

    def close(self):
        for peer in self.peers:
            peer.close()


SOURCES = [stranger(at) for at in range(20)]

STORMS = {
    "connects": lambda place: {"stays": False},
    "sign_ons": lambda place: {"words": CONTACT + sign_on(0xC9, place.node), "stays": False},
    "wrong_sign_ons": lambda place: {"words": wrong_sign_on("WRONG")},
    "half_open": lambda place: {"words": CONTACT + sign_on(0xC9, place.node), "is_half_open": True},
    "begun": lambda place: {"words": bytes.fromhex("012d1002808fcf9a")},
}


def storm(options, name, places):
    """Misbehaves for so long, and says by how many connections."""
    if name == "slow":
        slow = Slow(places[0].port, places[0].node)
        slow.go_on(options.seconds)
        slow.close()
        return len(slow.peers)
    with Strangers(places[0].port, SOURCES, **STORMS[name](places[0])) as strangers:
        time.sleep(options.seconds)
        return strangers.stop().connections


def show(name, connections, found, right):
    cells = [f"{sent}/{came}" for sent, came, _ in found]
    longest = " ".join(f"{longest:.0f}" for _, _, longest in found)
    row(WIDTHS, name, connections, *cells, longest, "" if right else "WRONG")


def downs(hub, places):
    """The lines of the log about sessions of the honest peers that ended."""
    names = [place.name for place in places[1:]]
    return [line for line in hub.log() if "session down" in line and any(f" {name}: " in line for name in names)]


def beside(options, name):
    """A play beside honest peers."""
    places = places_of([3, 2])
    with Hub(options, table_of(places, 2000), *LISTENS) as hub, Honest(places) as honest:
        connections = storm(options, name, places)
        found, right = honest.look()
        ended = downs(hub, places)
        right = right and hub.runs() and not ended
        show(name, connections, found, right)
        print("".join(f"    {line}\n" for line in ended[:4]), end="")
    return right


class ShiftedClock:
    """The clock of the time of day of a hub that is started with `env`."""

    def __init__(self, folder):
        self.path = pathlib.Path(folder, "shift")
        self.path.write_bytes(bytes(4096))
        with self.path.open("r+b") as file:
            self.numbers = memoryview(mmap.mmap(file.fileno(), 4096)).cast("q")
        library = built(folder, "shifted_clock.c", "-shared", "-fPIC")
        self.env = {**os.environ, "LD_PRELOAD": library, "SHIFTED_CLOCK": str(self.path)}

    def shift(self, seconds):
        self.numbers[0] = seconds

    def asked(self):
        return self.numbers[1]


def jumps_in(log):
    """How often the time of a line of the log is half an hour from that of the line before it, or more."""
    found = (re.match(r"(\d{4}-\d\d-\d\dT\d\d:\d\d:\d\d)", line) for line in log)
    times = [calendar.timegm(time.strptime(one[1], "%Y-%m-%dT%H:%M:%S")) for one in found if one]
    return sum(abs(after - at) > HOUR / 2 for at, after in zip(times, times[1:]))


def refused(place):
    """A peer's sign-on is refused, and its connection ended."""
    with connected(place.port, timeout=5) as peer, contextlib.suppress(OSError):
        peer.sendall(CONTACT + sign_on(0xC9, "NOBODY"))
        while peer.recv(4096):
            pass


def waited(place):
    """How many seconds the next peer on its line waits for its answer, five at most."""
    begin = time.monotonic()
    with connected(place.port, timeout=5) as peer, contextlib.suppress(OSError):
        peer.sendall(CONTACT)
        peer.recv(2)
    return time.monotonic() - begin


def clock(options, name):
    """The hub's clock is set while lines are busy, and one has just refused a sign-on."""
    places = places_of([3, 2])
    with tempfile.TemporaryDirectory(prefix="clock.") as folder:
        shifted, spool = ShiftedClock(folder), ("--spool", str(pathlib.Path(folder, "spool.db")))
        kept = spool if name == "clock_kept" else ()
        with Hub(options, table_of(places, 2000), *kept, env=shifted.env) as hub, Honest(places) as honest:
            longest = 0.0
            for at in range(10):
                refused(places[0])
                shifted.shift((HOUR, 0, -HOUR, 0)[at % 4])
                longest = max(longest, waited(places[0]))
                time.sleep(options.seconds / 50)
            found, right = honest.look()
            ended, jumps = downs(hub, places), jumps_in(hub.log())
            right = right and hub.runs() and not ended and jumps == 10 and longest < 3
            show(name, 0, found, right)
            print(f"    the time of the log jumped {jumps} times, of {shifted.asked()} looks at the clock;", end="")
            print(f" the next peer behind a refused sign-on waited {longest:.1f} s at most")
            print("".join(f"    {line}\n" for line in ended[:4]), end="")
    return right


class Disk:
    """A file system of its own."""

    def __init__(self, kind, size):
        self.place = tempfile.TemporaryDirectory(prefix="disk.")
        self.at = pathlib.Path(self.place.name, "disk")
        self.at.mkdir(mode=0o700)
        self.image = pathlib.Path(self.place.name, "image")
        if kind == "tmpfs":
            self.words = ["-t", "tmpfs", "-o", f"size={size},mode=700", "none"]
        else:
            with self.image.open("wb") as image:
                image.truncate(size)
            subprocess.run(["mkfs.ext4", "-q", self.image], check=True)
            self.words = ["-o", "loop", self.image]
        self.mount(*self.words)

    def mount(self, *words):
        subprocess.run(["mount", *words, self.at], check=True, capture_output=True)

    def remount(self, how):
        self.mount("-o", f"remount,{how}")

    def mend(self):
        """Mounts a file system that was cut off anew."""
        subprocess.run(["umount", self.at], check=True)
        subprocess.run(["e2fsck", "-p", self.image], capture_output=True)
        self.mount(*self.words)

    def __enter__(self):
        return self

    def __exit__(self, *_):
        subprocess.run(["umount", "-l", self.at], check=False)
        self.place.cleanup()


def sent_until(hub, loop, cards, until):
    """LYON's peer, who sent files until something was so, for 20 seconds at most."""
    peer = peer_up(loop, hub.ports[0], "LYON")
    peer.to_send += [letter(number, "METZ", cards) for number in range(1, 200)]
    loop.run(20, lambda: until(peer))
    return peer


def ends_so(hub, wanted):
    """The hub ends by itself, and says why."""
    status, log = hub.ends(), hub.log()
    print(f"    status {status}; the log: {' | '.join(log[-2:])}")
    if status != 2 or log[-1] != "njehub: device" or not re.search(wanted, "\n".join(log[-3:-1])):
        raise Wrong(f"status 2 is wanted, {wanted!r} and njehub: device")


def has_all(hub, told):
    """A start has all files of which LYON was told."""
    hub.starts()
    there = set(map(int, re.findall(r"LYON\.(\d+)", hub.prints("files", "ACME"))))
    print(f"    {told} files were told as complete, {len(there)} are there after the next start")
    if not set(range(1, told + 1)) <= there:
        raise Wrong(f"missing: {sorted(set(range(1, told + 1)) - there)}")


def full(options, loop):
    with Disk("tmpfs", "400k") as disk, Bureau(options, disk.at / "spool") as hub:
        hub.write(quota=4000)
        hub.starts()
        told = sent_until(hub, loop, 100, lambda peer: not hub.runs()).went
        ends_so(hub, "spool file .*full")
        disk.remount("size=64m")
        has_all(hub, told)


def read_only(options, loop):
    with Disk("tmpfs", "8m") as disk, Bureau(options, disk.at / "spool") as hub:
        hub.write(quota=4000)
        hub.starts()
        told = sent_until(hub, loop, 3, lambda peer: peer.went >= 5).went
        hub.step("shutdown")
        hub.ends()
        disk.remount("ro")
        hub.start()
        ends_so(hub, "spool file .*not permitted")
        disk.remount("rw")
        has_all(hub, told)


def remounted(options, loop):
    with Disk("ext4", 32 << 20) as disk, Bureau(options, disk.at / "spool") as hub:
        hub.write(quota=4000)
        hub.starts()
        peer = sent_until(hub, loop, 3, lambda peer: peer.went >= 5)
        disk.remount("abort")
        loop.run(10, lambda: not hub.runs())
        told = peer.went
        ends_so(hub, "spool file ")
        hub.start()
        ends_so(hub, "spool file .*not permitted")
        disk.mend()
        has_all(hub, told)


CLOCKS = ("clock", "clock_kept")

DISKS = (full, read_only, remounted)


def on_disk(options, play):
    """A play with a disk."""
    print(f"{play.__name__}:")
    loop = Loop()
    try:
        play(options, loop)
        return True
    except (Wrong, AssertionError, OSError, subprocess.SubprocessError) as error:
        print(f"    WRONG: {error}")
        return False
    finally:
        loop.close()


def main():
    names = [*STORMS, "slow", *CLOCKS, *(play.__name__ for play in DISKS)]
    options = options_of(
        __doc__,
        (("--seconds",), {"type": float, "default": 10, "help": "how long each play goes on"}),
        (("--quick",), {"action": "store_true", "help": "three seconds"}),
        (("plays",), {"nargs": "*", "metavar": "PLAY", "help": ", ".join(names) + "; all where none is named"}),
    )
    in_own_network(len(SOURCES))
    if options.quick:
        options.seconds = 3
    disks, right = {play.__name__: play for play in DISKS}, []
    row(WIDTHS, "play", "connections", "own: files", "other: files", "longest ms", "")
    for name in names:
        if options.plays and name not in options.plays:
            continue
        if name in disks:
            right.append(on_disk(options, disks[name]))
        else:
            right.append((clock if name in CLOCKS else beside)(options, name))
    print("right" if all(right) else f"{right.count(False)} plays are wrong")
    sys.exit(not all(right))


if __name__ == "__main__":
    main()
