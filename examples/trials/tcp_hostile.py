"""Shows what hostile bytes on lines over TCP/IP do to a hub: nothing but to who sends them.

    python3 examples/trials/tcp_hostile.py PROGRAM [--minutes 10] [--seed 89] [--attackers 6]

A hub has two customers. Eight lines of the first are attacked, six that listen and two that dial, from addresses of
127.0.0.0/8, by as many attackers as are wanted, each in a process of its own. An attack is one of these, by chance:
random bytes; a control record with changed bytes, cut, or twice; behind an OPEN or an ACK that is right, and then also
behind a sign-on that is right, TTBs whose lengths lie, whose bytes are changed, cut, doubled or in pieces, tiny ones and
such of 65,535 bytes, thousands of empty TTBs and keep-alives, texts of random bytes, blocks whose records are random, a
NAK, an EOT; and ends: a reset, an end of one side, silence, and a peer that reads nothing.

Meanwhile two pairs of peers of the second customer, one on bisync lines and one on lines over TCP/IP, send each other a
message every 50 milliseconds and a file every second. The table says how many attacks there were, how many of their
connections the hub ended, and how many it gave a session; then for each pair how many messages and files came, how long
a message took, in milliseconds, half of them, 99 % and the longest, and whether all came in their order, by sessions
that never ended; then how much memory the hub had after a tenth of the time and at the end, how many lines its log has,
and how many it has a second at most; and at last how soon the right peer of each attacked line has a session.

The hub is to run on, each message is to come within a second, the memory is to grow by less than 16 MB, and each right
peer is to have a session within 25 seconds, or where the hub dials within 65, since it dials once a minute whose
connections ended without a session again and again. The last line says "right", or the script ends with status 1.
"""

import collections
import contextlib
import math
import multiprocessing
import pathlib
import random
import socket
import statistics
import struct
import sys
import time

from frames import MESSAGE, file_of, message, sign_on
from hub import Hub, connected, customer_of, free_ports, line_of, options_of, row
from peers import FilePeer, Loop
from tcp_peers import TcpFilePeer
from ttbs import ACK, ACK0, CALL, HUB, NAK, NODE, OPEN, RECORD, block, control, text_of, ttb

WIDTHS = (14, 9, 7, 8, 8, 8, 9, 5, 6)

LISTENING, DIALLING = 6, 2

# How soon a message is to come, how much the memory may grow, and how soon a right peer has a session.
SOON, GROWTH, BACK, DIALLED_BACK = 1.0, 16e6, 25.0, 65.0


class Attacker:
    """Attacks lines, one after the other."""

    def __init__(self, ports, listeners, seed, number):
        self.ports, self.listeners, self.chance = ports, listeners, random.Random(1000 * seed + number)
        self.counts = collections.Counter()

    def play(self, seconds, pipe):
        end = time.monotonic() + seconds
        while time.monotonic() < end:
            with contextlib.suppress(OSError):
                self.attack(min(end, time.monotonic() + 20))
        pipe.send(self.counts)

    def attack(self, end):
        is_dialled = self.listeners and self.chance.random() < 0.3
        peer = self.accepted() if is_dialled else self.dialled()
        if peer is None:
            return
        self.counts["attacks"] += 1
        with peer:
            peer.settimeout(self.chance.choice((0.02, 0.1, 0.4)))
            if is_dialled:
                self.hear(peer, RECORD)
            self.begin(peer, is_dialled)
            while time.monotonic() < end and self.chance.random() < 0.9:
                self.say(peer, self.bytes_of_any())
                if self.chance.random() < 0.3:
                    self.hear(peer, 65536)
            self.leave(peer)

    def dialled(self):
        source = f"127.{self.chance.randrange(1, 9)}.{self.chance.randrange(256)}.{self.chance.randrange(1, 255)}"
        return connected(self.chance.choice(self.ports), timeout=2, source=source, patience=1)

    def accepted(self):
        listener = self.chance.choice(self.listeners)
        listener.settimeout(2)
        try:
            return listener.accept()[0]
        except OSError:
            return None

    def hear(self, peer, count):
        try:
            if not peer.recv(count):
                self.counts["ended"] += 1
                raise ConnectionError("an end")
        except socket.timeout:
            pass

    def say(self, peer, data):
        try:
            if self.chance.random() < 0.2 and len(data) < 400:
                for at in range(len(data)):
                    peer.sendall(data[at : at + 1])
            else:
                peer.sendall(data)
        except socket.timeout:
            pass
        except OSError:
            self.counts["ended"] += 1
            raise

    def begin(self, peer, is_dialled):
        """How far the attacker does what is right: not at all, to a link, or to a session."""
        depth = self.chance.choice((0, 1, 1, 2, 2, 2))
        if depth == 0:
            return
        kind = ACK if is_dialled else OPEN
        self.say(peer, control(kind, NODE, HUB))
        if not is_dialled:
            self.hear(peer, RECORD)
        if depth == 1:
            return
        self.say(peer, ttb(ACK0 if is_dialled else CALL))
        self.hear(peer, 65536)
        self.say(peer, ttb(text_of(sign_on(0xD1 if is_dialled else 0xC9, NODE))))
        self.hear(peer, 65536)
        self.counts["sessions"] += 1

    def bytes_of_any(self):
        chance = self.chance
        kind = chance.randrange(12)
        if kind == 0:
            return chance.randbytes(chance.choice((1, 5, 12, 33, 500, 70000)))
        if kind == 1:
            return self.changed(control(chance.choice((OPEN, ACK, NAK)), NODE, HUB, chance.randrange(256)))
        if kind == 2:
            return self.lying()
        if kind == 3:
            return self.changed(self.ttbs())
        if kind == 4:
            return ttb() * chance.choice((1, 100, 3000))
        if kind == 5:
            return ttb(ACK0) * chance.choice((1, 100, 3000))
        if kind == 6:
            return ttb(*[ACK0] * 10920)  # 65,532 bytes
        if kind == 7:
            return ttb(b"\x10\x02" + chance.randbytes(chance.choice((1, 3, 300, 4096))))
        if kind == 8:
            return ttb(*(block(count, chance.randbytes(chance.randrange(60))) for count in range(chance.randrange(1, 200))))
        if kind == 9:
            return ttb(chance.choice((b"\x3d", b"\x37", CALL, b"\x10\x02", b"\x10", b"\x00")))
        if kind == 10:
            return ttb(*(block(count) for count in range(chance.randrange(1, 500))))
        return self.ttbs() * chance.randrange(1, 4)

    def ttbs(self):
        """TTBs that are right, of blocks that may be."""
        chance = self.chance
        texts = [message("N1", "PAUL", NODE, f"HELLO {at}") for at in range(chance.randrange(1, 20))]
        return b"".join(ttb(block(at, text)) for at, text in enumerate(texts))

    def lying(self):
        """A TTB whose lengths are others."""
        data = bytearray(self.ttbs())
        at = self.chance.choice((2, 10))
        data[at : at + 2] = struct.pack(">H", self.chance.choice((0, 1, 7, 11, 12, 13, 4098, 4099, 65535, self.chance.randrange(65536))))
        return bytes(data)

    def changed(self, data):
        """Some bytes of it changed, or cut out, or doubled."""
        data = bytearray(data)
        for _ in range(self.chance.choice((1, 1, 3, 20))):
            at = self.chance.randrange(max(1, len(data)))
            kind = self.chance.randrange(3)
            if kind == 0:
                data[at : at + 1] = self.chance.randbytes(1)
            elif kind == 1:
                del data[at : at + self.chance.randrange(1, 9)]
            else:
                data[at:at] = data[at : at + self.chance.randrange(1, 99)]
        return bytes(data)

    def leave(self, peer):
        kind = self.chance.randrange(5)
        if kind == 0:
            peer.setsockopt(socket.SOL_SOCKET, socket.SO_LINGER, struct.pack("ii", 1, 0))
        elif kind == 1:
            peer.shutdown(socket.SHUT_WR)
            self.hear(peer, 65536)
        elif kind == 2:
            time.sleep(self.chance.uniform(0, 3))


class Attackers:
    """So many of them, each in a process of its own."""

    def __init__(self, count, ports, listeners, seed, seconds):
        self.processes, self.pipes = [], []
        for number in range(count):
            here, there = multiprocessing.Pipe()
            attacker = Attacker(ports, listeners, seed, number)
            process = multiprocessing.get_context("fork").Process(target=attacker.play, args=(seconds, there), daemon=True)
            process.start()
            there.close()
            self.processes.append(process)
            self.pipes.append(here)

    def stop(self):
        found = collections.Counter()
        for pipe in self.pipes:
            with contextlib.suppress(EOFError):
                found += pipe.recv() if pipe.poll(30) else collections.Counter(lost=1)
        for process in self.processes:
            process.kill()
            process.join()
        return found


class Timed:
    """Notes when each message came."""

    def take(self, rcb, srcb, record):
        super().take(rcb, srcb, record)
        if rcb == MESSAGE and record:
            self.moments.append(time.monotonic())

    def speak(self, *records):
        self.waits.extend(records)
        self.go_on()


class Bisync(Timed, FilePeer):
    def go_on(self):
        self.answer()


class Tcp(Timed, TcpFilePeer):
    pass


class Pair:
    """Two peers that send each other messages and files."""

    def __init__(self, kind, loop, what, ports):
        self.what = what
        self.people = [kind(loop, port, node) for port, node in zip(ports, ("N0", "N1"))]
        for one in self.people:
            one.moments, one.said = [], []
        self.files = [[], []]
        self.next_message, self.next_file, self.number = 0.0, 0.0, 0

    def go_on(self, now, loop):
        """Says and sends what is due. What a peer said before is to have come."""
        if now >= self.next_message:
            self.next_message = now + 0.05
            self.number += 1
            for one, other, to in ((self.people[0], self.people[1], "N1"), (self.people[1], self.people[0], "N0")):
                one.said.append(time.monotonic())
                one.speak(message(to, "PAUL", one.node, f"NUMBER {self.number}"))
        if now >= self.next_file:
            self.next_file = now + 1.0
            for at, one in enumerate(self.people):
                to = self.people[1 - at].node
                file = file_of(len(self.files[at]) % 60000 + 1, one.node, "ANNA", to, "PAUL", [b"\x10\x26" * 40] * 20)
                self.files[at].append(file)
                one.to_send.append(file)
                one.go_on()

    def lasted(self):
        """How long each message took, in milliseconds, each way, and whether all came in their order."""
        times, right = [], True
        for at, one in enumerate(self.people):
            other = self.people[1 - at]
            right = right and other.told == [f"NUMBER {number + 1}" for number in range(len(one.said))]
            times += [1000 * (came - said) for said, came in zip(one.said, other.moments)]
            right = right and sorted(map(repr, other.files)) == sorted(map(repr, self.files[at]))
        return times, right

    def is_done(self):
        return all(len(self.people[1 - at].files) == len(self.files[at])
                   and len(self.people[1 - at].told) == len(one.said) for at, one in enumerate(self.people))

    def row(self, log, lines):
        times, came = self.lasted()
        times = sorted(times) or [math.inf]
        downs = [line for line in log if any(f" {name}: " in line for name in lines) and "session up" not in line
                 and ("session down" in line or "failed" in line)]
        right = came and not downs and times[-1] <= 1000 * SOON
        cells = (statistics.median(times), times[99 * len(times) // 100 - 1], times[-1])
        row(WIDTHS, self.what, sum(len(one.told) for one in self.people), sum(len(one.files) for one in self.people),
            *(f"{cell:.1f}" for cell in cells), "in order" if came else "NOT ALL", len(downs), "right" if right else "WRONG")
        for line in downs[:5]:
            print(f"    {line}")
        return right


def memory(hub):
    status = pathlib.Path(f"/proc/{hub.process.pid}/status").read_text()
    return 1024 * int(status.split("VmRSS:")[1].split()[0])


def table(ports, dialled, others):
    lines = [line_of(f"a{at}", NODE, port=port, protocol="tcp") for at, port in enumerate(ports)]
    lines += [line_of(f"d{at}", NODE, "call", connect=f"127.0.0.1:{port}", protocol="tcp") for at, port in enumerate(dialled)]
    first = customer_of("ACME", HUB, 1000, lines, [(NODE, "a0"), ("N1", "a1")])
    names = ("b0", "b1"), ("t0", "t1")
    text = f"capacity = {1000 + 2000 * 2}\n" + first
    for number, (pair, places) in enumerate(zip(names, (others[:2], others[2:]))):
        more = {"protocol": "tcp"} if number else {}
        own = [line_of(name, f"N{at}", port=port, **more) for at, (name, port) in enumerate(zip(pair, places))]
        text += customer_of(f"OTHER{number}", HUB, 2000, own, [(f"N{at}", name) for at, name in enumerate(pair)])
    return text, names


def most_a_second(log):
    """How many lines of the log fall into one of its seconds at most, without those of files."""
    seconds = collections.Counter(line[:19] for line in log if ": file " not in line)
    return max(seconds.values(), default=0)


def come_back(ports, listeners):
    """How soon the right peer of each line has a session, in seconds: of those that listen, and of those that dial."""
    loop, found, peers, begin = Loop(), {}, {}, time.monotonic()
    while time.monotonic() < begin + DIALLED_BACK + 5 and len(found) < len(ports) + len(listeners):
        for at, port in enumerate(ports):
            if at not in found and (at not in peers or peers[at].is_closed):
                peers[at] = TcpFilePeer(loop, port, NODE)
        for listener in listeners:
            if listener not in found and (listener not in peers or peers[listener].is_closed):
                listener.settimeout(0.05)
                with contextlib.suppress(OSError):
                    peers[listener] = Accepted(loop, listener.accept()[0])
        loop.run(0.25)
        for at, peer in peers.items():
            if peer.is_up and at not in found:
                found[at] = time.monotonic() - begin
    loop.close()
    return [[found.get(at, math.inf) for at in those] for those in (range(len(ports)), listeners)]


class Accepted(TcpFilePeer):
    """A peer on a connection that the hub dialled."""

    def __init__(self, loop, accepted):
        self.accepted = accepted
        super().__init__(loop, None, NODE, listener=True)

    def connect(self, port, source):
        self.accepted.setblocking(False)
        return self.accepted


def main():
    options = options_of(
        __doc__,
        (("--minutes",), {"type": float, "default": 10, "help": "how long it goes on"}),
        (("--seed",), {"type": int, "default": 89, "help": "of what chance the attacks are"}),
        (("--attackers",), {"type": int, "default": 6, "help": "how many there are at once"}),
    )
    ports, others, dialled = free_ports(LISTENING), free_ports(4), free_ports(DIALLING)
    listeners = [socket.create_server(("127.0.0.1", port)) for port in dialled]
    text, names = table(ports, dialled, others)
    loop = Loop()
    with Hub(options, text) as hub:
        hub.serves()
        pairs = [Pair(Bisync, loop, "bisync", others[:2]), Pair(Tcp, loop, "over TCP/IP", others[2:])]
        loop.run(20, lambda: all(one.is_up for pair in pairs for one in pair.people))
        seconds = 60 * options.minutes
        attackers = Attackers(options.attackers, ports, listeners, options.seed, seconds)
        begin, early = time.monotonic(), None
        while (now := time.monotonic()) < begin + seconds and hub.runs():
            for pair in pairs:
                pair.go_on(now, loop)
            loop.run(0.005)
            if early is None and now > begin + seconds / 10:
                early = memory(hub)
        loop.run(10, lambda: all(pair.is_done() for pair in pairs))
        counts = attackers.stop()
        row(WIDTHS, "", "messages", "files", "median", "99 %", "longest", "", "ends", "")
        log = hub.log()
        right = [pair.row(log, lines) for pair, lines in zip(pairs, names)]
        if hub.runs():
            late = memory(hub)
            soon, dialled_soon = come_back(ports, listeners)
            right.append(late - early < GROWTH and max(soon) <= BACK and max(dialled_soon) <= DIALLED_BACK)
            print(f"memory: {early / 1e6:.1f} MB after a tenth of the time, {late / 1e6:.1f} MB at the end")
            print(f"the right peers of the lines have a session, the last after {max(soon):.1f} s; "
                  f"of those that the hub dials after {max(dialled_soon):.1f} s")
        else:
            print(f"the program has ended with status {hub.process.returncode}:", *log[-20:], sep="\n    ")
            right.append(False)
        print(f"{counts['attacks']} attacks, {counts['sessions']} of them in a session, {counts['ended']} ended by the hub")
        print(f"the log has {len(log)} lines, of a second {most_a_second(log)} at most without those of files")
        tell_kinds(log)
    loop.close()
    print("right" if all(right) else f"{right.count(False)} rows are wrong")
    sys.exit(not all(right))


def tell_kinds(log):
    """What the log says of the attacked lines, by kinds."""
    kinds = collections.Counter()
    for line in log:
        head, _, what = line.partition(": ")
        if " a" in head or " d" in head:
            kinds["".join("N" if letter.isdigit() else letter for letter in what)[:60]] += 1
    for what, count in kinds.most_common(25):
        print(f"    {count:6} {what}")


if __name__ == "__main__":
    main()
