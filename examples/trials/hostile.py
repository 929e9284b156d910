"""Shows what peers that misbehave cost another line, and what becomes of them.

    python3 examples/trials/hostile.py PROGRAM [--old] [PLAY ..]

Without a PLAY all are played, which takes some five minutes; `--help` lists them. Each play starts the program on
eight lines of two customers and misbehaves on lines of the first. The table says what became of that, and how long
the answers on a line of the second customer took meanwhile, which makes contact a hundred times a second: how many
there were, the median and the longest, in milliseconds. The plays on starts (`refusals`, `port_in_use`, `few_handles`,
`unreachable`) print what the program says as well.

`machine_gone` needs root and `ip`: it runs in a network namespace of its own, where from one moment on nothing comes
from the peer's address nor gets there, so the peer's end comes without FIN and the hub's frames are never
acknowledged.
"""

import contextlib
import multiprocessing
import os
import pathlib
import random
import resource
import select
import signal
import socket
import statistics
import subprocess
import sys
import time

from frames import ACK0, CONTACT, EOT, NAK, Deframer, Text, framed, sign_on
from hub import Hub, connected, customer_of, free_ports, line_of, options_of, places_of, row, table_of
from peers import Crowd, Peer

WIDTHS = (22, 8, 10, 10)

GONE = "127.0.0.9"
TEXT_END = b"\x10\x26"

# A frame that is begun and not ended.
BEGUN = bytes.fromhex("1002808fcf9a")


def answered(peer, sent, wanted=2):
    """Sends, and waits for so many bytes, those of 3D aside."""
    peer.sendall(sent)
    got = b""
    while len(got) - got.count(NAK) < wanted:
        more = peer.recv(4096)
        if not more:
            raise ConnectionError("closed")
        got += more
    return got


def asked(peer):
    """Makes contact, and says how long the answer took, and how many 3D came before it."""
    begin = time.monotonic()
    got = answered(peer, CONTACT)
    assert got.replace(NAK, b"") == ACK0, got.hex()
    return time.monotonic() - begin, got.count(NAK)


def signed_on(port, node, **given):
    peer = connected(port, **given)
    asked(peer)
    peer.sendall(sign_on(0xC9, node))
    got = b""
    while not got.endswith(TEXT_END):
        more = peer.recv(4096)
        if not more:
            raise ConnectionError("closed")
        got += more
    return peer


class Other:
    """A peer that asks on its own line all the time, in a process of its own."""

    def __init__(self, port):
        self.pipe, there = multiprocessing.Pipe()
        self.process = multiprocessing.get_context("fork").Process(target=self.play, args=(port, there), daemon=True)
        self.process.start()
        assert self.pipe.poll(20), "nobody answers on the other line"
        self.pipe.recv()

    @staticmethod
    def play(port, pipe):
        times, naks, end = [], 0, time.monotonic() + 300
        with connected(port) as peer:
            asked(peer)
            pipe.send("ready")
            try:
                while time.monotonic() < end and not pipe.poll():
                    lasted, early = asked(peer)
                    times.append(lasted)
                    naks += early
                    time.sleep(0.01)
                pipe.send((times, f" The other line was sent {naks} 3D." if naks else ""))
            except (OSError, AssertionError) as error:
                pipe.send((times, f" The other line: {type(error).__name__} {error}."))

    def stop(self):
        """The times, and what went wrong."""
        try:
            self.pipe.send("stop")
        except OSError:
            pass
        found = self.pipe.recv() if self.pipe.poll(30) else ([], " The other line says nothing for 30 s.")
        self.process.kill()
        self.process.join()
        return found


def show(name, what, times, wrong=""):
    """A row, and below it what became of the play."""
    cells = (f"{1000 * statistics.median(times):.1f}", f"{1000 * max(times):.1f}") if times else ("-", "-")
    row(WIDTHS, name, len(times), *cells)
    print(f"    {what}{wrong}")


def next_peer(port, within=3.0):
    """Whether the line takes a new connection and answers, and after how long."""
    begin = time.monotonic()
    with connected(port) as peer:
        peer.settimeout(within)
        try:
            asked(peer)
        except socket.timeout:
            return f"the next peer isn't answered within {within:.0f} s"
        except (OSError, AssertionError) as error:
            return f"the next peer: {type(error).__name__} {error}"
    return f"the next peer is answered after {time.monotonic() - begin:.2f} s"


def stops_reading(hub, places):
    with connected(places[0].port, SO_RCVBUF=1) as peer:
        peer.setblocking(False)
        begin, count = time.monotonic(), 0
        what = "kept"
        while time.monotonic() < begin + 20:
            try:
                count += peer.send(CONTACT * 2000)
            except BlockingIOError:
                time.sleep(0.005)
            except OSError as error:
                what = f"dropped ({type(error).__name__})"
                break
        what += f" after {time.monotonic() - begin:.1f} s and {count} bytes"
    return f"{what}; {next_peer(places[0].port)}"


def reads_a_byte_at_a_time(hub, places):
    with connected(places[0].port, SO_RCVBUF=1) as peer:
        peer.setblocking(False)
        begin, count, got, what = time.monotonic(), 0, 0, "kept"
        while time.monotonic() < begin + 10:
            try:
                got += len(peer.recv(1))
            except BlockingIOError:
                pass
            except OSError as error:
                what = f"dropped ({type(error).__name__})"
                break
            try:
                count += peer.send(CONTACT * 2000)
            except BlockingIOError:
                pass
            except OSError as error:
                what = f"dropped ({type(error).__name__})"
                break
            time.sleep(0.001)
        what += f" after {time.monotonic() - begin:.1f} s, {count} bytes sent and {got} read"
    return f"{what}; {next_peer(places[0].port)}"


def sends_a_byte_at_a_time(hub, places):
    with connected(places[0].port) as peer:
        begin, got, deframer = time.monotonic(), [], Deframer()
        for byte in CONTACT + sign_on(0xC9, places[0].node) + framed(b"\x80\x8f\xcf\x00"):
            peer.sendall(bytes([byte]))
            time.sleep(0.01)
            if select.select([peer], [], [], 0)[0]:
                got += deframer.feed(peer.recv(4096))
        peer.settimeout(3)
        while len(got) < 3:
            got += deframer.feed(peer.recv(4096))
        right = got[0] == ACK0 and isinstance(got[1], Text) and got[2] == ACK0
        return f"contact, sign-on and a block in {time.monotonic() - begin:.1f} s, answered {'right' if right else got}"


def random_bytes(hub, places):
    with connected(places[0].port) as peer:
        data, begin, at = bytes(random.Random(1).choices(range(256), k=1 << 20)), time.monotonic(), 0
        peer.setblocking(False)
        while time.monotonic() < begin + 30:
            reads, writes, _ = select.select([peer], [peer] if at < len(data) else [], [], 1)
            if reads and not peer.recv(65536):
                break
            if writes:
                at += peer.send(data[at : at + 65536])
                if at == len(data):
                    peer.shutdown(socket.SHUT_WR)
        what = f"{at} bytes in {time.monotonic() - begin:.1f} s"
    return f"{what}; {next_peer(places[0].port)}"


def shuts_down_sending(hub, places):
    """Half-open: everything that is sent before the end is answered."""
    with connected(places[0].port) as peer:
        peer.settimeout(3)
        peer.sendall(CONTACT + sign_on(0xC9, places[0].node) + framed(b"\x80\x8f\xcf\x00"))
        peer.shutdown(socket.SHUT_WR)
        got, deframer, end = [], Deframer(), "closed then"
        try:
            while more := peer.recv(4096):
                got += deframer.feed(more)
        except OSError as error:
            end = type(error).__name__
        return f"{len(got)} of 3 frames are answered, {end}; {next_peer(places[0].port)}"


def closes_in_mid_frame(hub, places):
    for _ in range(20):
        with connected(places[0].port) as peer:
            asked(peer)
            peer.sendall(BEGUN)
    return f"20 times; {next_peer(places[0].port)}"


def resets_in_mid_frame(hub, places):
    for _ in range(20):
        with connected(places[0].port) as peer:
            asked(peer)
            peer.sendall(BEGUN)
            peer.setsockopt(socket.SOL_SOCKET, socket.SO_LINGER, bytes([1, 0, 0, 0, 0, 0, 0, 0]))
    return f"20 times; {next_peer(places[0].port)}"


def connects_twice(hub, places):
    with connected(places[0].port) as first:
        with connected(places[0].port) as second:
            second.sendall(CONTACT)
            for _ in range(20):
                asked(first)
                time.sleep(0.05)
            early = bool(select.select([second], [], [], 0)[0])
            first.close()
            begin = time.monotonic()
            second.settimeout(3)
            late = second.recv(2)
    if early or late != ACK0:
        return f"the second is answered beside the first: {early}; then {late.hex()}"
    return f"the second waits until the first is gone, and is answered {time.monotonic() - begin:.2f} s after"


def holds_the_line(hub, places):
    """A peer without a session sends a byte each two seconds, and another one waits."""
    with connected(places[0].port) as first:
        begin = time.monotonic()
        with connected(places[0].port) as second:
            second.sendall(CONTACT)
            second.settimeout(2)
            while time.monotonic() < begin + 20:
                with contextlib.suppress(OSError):
                    first.sendall(b"\x01")
                with contextlib.suppress(socket.timeout):
                    if second.recv(2) == ACK0:
                        return f"the one that waits is answered after {time.monotonic() - begin:.1f} s"
    return "the one that waits isn't answered in 20 s"


def guesses_passwords(hub, places):
    """A peer signs on as another node again and again for five seconds, and then the right one does."""
    begin, tries, wrong = time.monotonic(), 0, sign_on(0xC9, "NOBODY")
    while time.monotonic() < begin + 5:
        with contextlib.suppress(OSError), connected(places[0].port, timeout=2) as peer:
            peer.sendall(CONTACT)
            if peer.recv(2) == ACK0:
                peer.sendall(wrong)
                tries += 1
                peer.recv(2)
    told = sum("sign-on refused" in line for line in hub.log())
    begin = time.monotonic()
    with connected(places[0].port, timeout=5) as peer:
        peer.sendall(CONTACT)
        answer = "answered" if peer.recv(2) == ACK0 else "not answered"
    waited = time.monotonic() - begin
    return f"{tries} sign-ons in 5 s, {told} told; then the right one is {answer} after {waited:.1f} s"


def sessions_in_a_loop(hub, places):
    """A peer signs on and ends its session again and again for five seconds: how often the log tells of it."""
    rounds, signed_on = 0, sign_on(0xC9, places[0].node)
    with connected(places[0].port, timeout=2) as peer:
        begin = time.monotonic()
        while time.monotonic() < begin + 5:
            peer.sendall(CONTACT)
            peer.recv(2)
            peer.sendall(signed_on)
            peer.recv(65536)
            peer.sendall(EOT)
            rounds += 1
        time.sleep(1.2)
    told = sum("session" in line for line in hub.log())
    return f"{rounds} sign-ons in 5 s, {told} lines of the log"


def frozen(hub, places):
    """A peer's process stands still in a session, with its connection open: when does the next peer get in?"""
    child = multiprocessing.get_context("fork").Process(target=sign_on_and_sleep, args=(places[0],), daemon=True)
    child.start()
    time.sleep(1)
    os.kill(child.pid, signal.SIGSTOP)
    what = "in a session, its process stopped; " + next_peer(places[0].port, 30)
    child.kill()
    child.join()
    return what


def sign_on_and_sleep(place):
    with signed_on(place.port, place.node):
        time.sleep(120)


def machine_gone(hub, places):
    """From one moment on nothing comes from the peer's machine: when does the next peer get in?"""
    gone = signed_on(places[0].port, places[0].node, source=GONE)
    for way in ("from", "to"):
        subprocess.run(["ip", "rule", "add", way, GONE, "blackhole", "priority", "1"], check=True)
    gone.close()
    return "in a session, cut off without FIN; " + next_peer(places[0].port, 40)


def flood(hub, places, data, begins=b""):
    """Seven lines send without pause for ten seconds, and read what comes."""
    child = multiprocessing.get_context("fork").Process(target=pour, args=(places[:7], data, begins), daemon=True)
    child.start()
    time.sleep(10)
    child.kill()
    child.join()
    return "seven lines for 10 s"


def pour(places, data, begins):
    peers = [connected(place.port) for place in places]
    for peer in peers:
        peer.sendall(begins)
        peer.setblocking(False)
    while True:
        reads, writes, _ = select.select(peers, peers, [], 1)
        try:
            for peer in reads:
                peer.recv(65536)
            for peer in writes:
                peer.send(data)
        except BlockingIOError:
            pass
        except OSError:
            time.sleep(0.1)


def floods_contacts(hub, places):
    return flood(hub, places, CONTACT * 32768)


def floods_text(hub, places):
    return flood(hub, places, b"\xc1" * 65536, b"\x10\x02")


def connects_and_closes(hub, places):
    """Ten thousand times, without a pause; the first line's backlog may fill, so a connect waits a second at most."""
    memory = lambda: int(pathlib.Path(f"/proc/{hub.process.pid}/statm").read_text().split()[1]) * 4
    handles = lambda: len(os.listdir(f"/proc/{hub.process.pid}/fd"))
    before, begin, waited, count = (memory(), handles()), time.monotonic(), 0, 0
    while count < 10000 and time.monotonic() < begin + 60:
        peer = socket.socket()
        peer.settimeout(1)
        try:
            peer.connect(("127.0.0.1", places[0].port))
            count += 1
        except socket.timeout:
            waited += 1
        peer.close()
    lasted = time.monotonic() - begin
    nexts = next_peer(places[0].port, 20)
    costs = f"handles {before[1]} before and {handles()} after, memory {before[0]} kB and {memory()} kB"
    return f"{count} times in {lasted:.1f} s, {waited} connects waited a second; {nexts}; {costs}"


def hub_stands_still(hub, places):
    """SIGSTOP, three seconds, SIGCONT: the sessions of six lines go on."""
    make = lambda loop: [Peer(loop, place.port, place.node) for place in places[:6]]
    with Crowd(make, lambda peer: (peer.is_up, peer.naks)) as crowd:
        hub.process.send_signal(signal.SIGSTOP)
        time.sleep(3)
        hub.process.send_signal(signal.SIGCONT)
        time.sleep(4)
        peers, _, _ = crowd.look("stop")
        up, naks = (sum(column) for column in zip(*peers))
        return f"3 s: {up} of {crowd.up} sessions are up 4 s after, {naks} frames 3D came"


PLAYS = (
    stops_reading,
    reads_a_byte_at_a_time,
    sends_a_byte_at_a_time,
    random_bytes,
    shuts_down_sending,
    closes_in_mid_frame,
    resets_in_mid_frame,
    connects_twice,
    holds_the_line,
    guesses_passwords,
    sessions_in_a_loop,
    frozen,
    machine_gone,
    floods_contacts,
    floods_text,
    connects_and_closes,
    hub_stands_still,
)


def play(options, one):
    """One play, beside a line of another customer."""
    places = places_of([7, 1])
    with Hub(options, table_of(places, 64)) as hub:
        other = Other(places[7].port)
        try:
            what = one(hub, places)
            time.sleep(0.2)
        except (OSError, AssertionError, RuntimeError) as error:
            what = f"{type(error).__name__} {error}"
        times, wrong = other.stop()
        if not hub.runs():
            what += f"; the program has ended with status {hub.process.returncode}"
        show(one.__name__, what, times, wrong)


def start(options, what, table, *words, **given):
    """Starts the program where it should be refused: its status, and all that it says."""
    with Hub(options, table, *words, **given) as hub:
        try:
            status = f"status {hub.process.wait(timeout=8)}"
        except subprocess.TimeoutExpired:
            status = "it goes on for 8 s"
        print(f"{what}: {status}")
        for line in hub.log()[:6]:
            print(f"    {line.replace(hub.folder.name + '/', '')}")


def refusals(options):
    places = places_of([1, 1])
    with socket.create_server(("127.0.0.1", places[1].port)):
        start(options, "a port in use", table_of(places, 16), "--strict")
    places[1].port = places[0].port
    start(options, "two lines on a port", table_of(places, 16))
    places[0].port, places[1].port = 7, 0
    nobody = {"user": 65534, "group": 65534, "extra_groups": []} if os.geteuid() == 0 else {}
    start(options, "port 7 as nobody", table_of(places, 16), "--strict", **nobody)
    places[0].port = 0
    start(options, "no line has a port", table_of(places, 16))
    start(options, "a table file that is no TOML", "capacity = \n")
    for name in ("nowhere/tables.toml", "/proc/self/mem"):
        words = [options.program, "serve", "--tables", name, *(["--turns", "1000000"] if options.old else [])]
        try:
            done = subprocess.run(words, capture_output=True, text=True, timeout=8)
            print(f"table file {name}: status {done.returncode}")
            print("".join(f"    {line}\n" for line in done.stderr.splitlines()), end="")
        except subprocess.TimeoutExpired:
            print(f"table file {name}: it goes on for 8 s")


def port_in_use(options):
    """A port that another program has at the start, and gives back after a second: the other line is served meanwhile."""
    places = places_of([1, 1])
    taken = socket.create_server(("127.0.0.1", places[0].port))
    with Hub(options, table_of(places, 16)) as hub:
        time.sleep(1)
        # A process that is forked before this has the socket too.
        taken.close()
        begin, other = time.monotonic(), Other(places[1].port)
        told = f"listens on 127.0.0.1:{places[0].port}"
        while time.monotonic() < begin + 15 and not any(told in line for line in hub.log()):
            time.sleep(0.1)
        waited = time.monotonic() - begin
        with connected(places[0].port, timeout=2) as peer:
            peer.sendall(CONTACT)
            answer = peer.recv(2)
        times, wrong = other.stop()
        show("port_in_use", f"listens {waited:.1f} s after it was free; then {answer.hex()}", times, wrong)
        for line in hub.log():
            print(f"    {line}")


def few_handles(options):
    """`ulimit -n` under the number of lines, one under what 64 lines need, and just that."""
    places = places_of([4] * 16)
    limit = lambda count: {"preexec_fn": lambda: resource.setrlimit(resource.RLIMIT_NOFILE, (count, count))}
    for count in (40, 137):
        start(options, f"64 lines, {count} handles", table_of(places, 16), **limit(count))
    with Hub(options, table_of(places, 16), **limit(138)) as hub:
        peers = [connected(place.port, timeout=2) for place in places]
        for peer in peers:
            peer.sendall(CONTACT)
        time.sleep(3)
        served = sum(bool(select.select([peer], [], [], 0)[0]) for peer in peers)
        held = len(os.listdir(f"/proc/{hub.process.pid}/fd"))
        print(f"64 lines, 138 handles, 64 peers: {served} are answered, {held} handles are held")
        for line in hub.log()[-4:]:
            print(f"    {line}")
        for peer in peers:
            peer.close()


def unreachable(options):
    """Lines that dial: a port where nobody listens, and one whose queue is full, so that a connect waits for ever."""
    if options.old:
        print("unreachable: only a program whose lines dial")
        return
    port, closed = free_ports(2)
    with socket.create_server(("127.0.0.1", 0), backlog=0) as full:
        fillers = [socket.socket() for _ in range(4)]
        for filler in fillers:
            filler.setblocking(False)
            filler.connect_ex(full.getsockname())
        lines = [
            line_of("d1", "N1", "call", connect=f"127.0.0.1:{closed}"),
            line_of("d2", "N2", "call", connect=f"127.0.0.1:{full.getsockname()[1]}"),
        ]
        table = "capacity = 64\n" + customer_of("C0", "BUREAU", 16, lines, [])
        table += customer_of("C1", "BUREAU", 16, [line_of("l1", "N1", port=port)], [])
        with Hub(options, table) as hub:
            other = Other(port)
            before = hub.seconds_used()
            time.sleep(25)
            used = hub.seconds_used() - before if hub.runs() else 0.0
            times, wrong = other.stop()
            show("unreachable", f"25 s, {100 * used / 25:.1f} % of a core with the other line's contacts", times, wrong)
            for line in hub.log():
                print(f"    {line}")
        for filler in fillers:
            filler.close()


STARTS = (refusals, port_in_use, few_handles, unreachable)


def apart(options, name):
    """The same play in a network namespace of its own."""
    if os.geteuid() != 0:
        print(f"{name}: needs root")
        return
    words = [sys.executable, __file__, options.program, *(["--old"] if options.old else []), "--apart", name]
    done = subprocess.run(["unshare", "--net", "--", *words], capture_output=True, text=True, timeout=180)
    print(done.stdout if done.returncode == 0 else f"{name}: could not be played: {done.stderr.strip()[-300:]}", end="")


def main():
    names = [one.__name__ for one in PLAYS + STARTS]
    options = options_of(
        __doc__,
        (("play",), {"nargs": "*", "metavar": "PLAY", "help": ", ".join(names)}),
        (("--apart",), {"action": "store_true", "help": "the network is one of its own"}),
    )
    if unknown := set(options.play) - set(names):
        sys.exit(f"no such play: {', '.join(unknown)}")
    if options.apart:
        # The rule for addresses of this machine comes after those that cut the peer's address off.
        for words in ("link set lo up", "rule add priority 100 lookup local", "rule del priority 0"):
            subprocess.run(["ip", *words.split()], check=True)
        play(options, machine_gone)
        return
    row(WIDTHS, "play", "answers", "median ms", "longest ms")
    for one in PLAYS + STARTS:
        if options.play and one.__name__ not in options.play:
            continue
        if one is machine_gone:
            apart(options, one.__name__)
        elif one in STARTS:
            one(options)
        else:
            play(options, one)


if __name__ == "__main__":
    main()
