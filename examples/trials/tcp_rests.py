"""Shows that a line over TCP/IP loses nothing while an end of it rests, and that who is slow or was gone gets its line.

    python3 examples/trials/tcp_rests.py PROGRAM [PLAY ..] [--seconds 20]

The plays, each a row or more with what came:

- `peer_rests`: LYON, over TCP/IP, and METZ send each other a file of 6 MB and messages, more than sockets have room
  for. In the middle of both LYON reads nothing for twenty seconds, and goes on to send: that file comes meanwhile;
- `hub_rests`: two hubs that are joined over TCP/IP, with such files both ways; the one that was dialled stands still for
  twenty seconds, as a machine does that is moved; and again at rest, with messages and a file behind it;
- `nobody_reads`: LYON reads nothing any more in the middle of such a file: the hub ends the connection 30 seconds after
  the last byte went out;
- `slow_sign_on`: a sign-on that comes ten seconds behind the contact, and one that takes ten seconds itself; and so
  where the hub dials;
- `gone`: the machine of LYON is gone with a session up, and is there again three seconds later, and nobody told the
  hub. It sends an OPEN each half a second until it is answered ACK: at rest its second one, since the first has the
  hub find out; with files under way the kernel's next try of these does, or that nothing goes out for 30 seconds. Then
  files go on. It needs root, `ip` and `unshare`.

The last line says "right", or the script ends with status 1 and says how many rows are wrong.
"""

import contextlib
import os
import pathlib
import random
import signal
import socket
import subprocess
import sys
import time

from addresses import IN_OWN, in_own_network
from frames import file_of, message, sign_on
from hub import Hub, customer_of, free_ports, line_of, options_of, row
from peers import FilePeer, Loop
from tcp_peers import TcpFilePeer, vanish
from ttbs import ACK, ACK0, CALL, HUB, NODE, Link, control, opened, text_of, ttb

WIDTHS = (46, 64, 6)

# How long files may take once nobody rests, in seconds.
PATIENCE = 120

# For how long nothing may go out of what waits, in seconds.
STALL = 30

# How many records a file has that has no room in sockets: they are 145 bytes long, half of them.
LARGE = 42000

# How much room LYON's socket has where it rests, in bytes; and its address where its machine will be gone.
ROOM = 4096
GONE = "127.0.0.9"


def show(what, found, wanted):
    right = found == wanted
    row(WIDTHS, what, found, "right" if right else "WRONG")
    if not right:
        print(f"    wanted: {wanted}")
    return right


def cards(chance, count):
    return [chance.randbytes(chance.randrange(40, 250)) for _ in range(count)]


def files_of(chance, way, count, records):
    return [file_of(1 + at, *way, cards(chance, records)) for at in range(count)]


def loads(people, chance, count, records):
    """Gives two people files and messages for each other. Answers what is to come to each of them."""
    ways = (("LYON", "ANNA", "METZ", "PAUL"), ("METZ", "PAUL", "LYON", "ANNA"))
    said = []
    for person, (node, user, to, receiver) in zip(people, ways):
        files = files_of(chance, (node, user, to, receiver), count, records)
        texts = [f"{node} SAYS {number}" for number in range(20)]
        person.to_send.extend(files)
        person.waits.extend(message(to, receiver, node, text) for text in texts)
        said.append((files, texts))
        if isinstance(person, TcpFilePeer):
            person.go_on()
    return said[::-1]


def has_all(people, wanted):
    return all(len(one.files) >= len(files) and len(one.told) >= len(texts) for one, (files, texts) in zip(people, wanted))


def what_came(people, wanted):
    """Whether it is what was sent, in words."""
    right = all(sorted(map(repr, one.files)) == sorted(map(repr, files)) and one.told == texts
                for one, (files, texts) in zip(people, wanted))
    if right:
        return "all came"
    counts = ", ".join(f"{one.node} has {len(one.files)} of {len(files)} files, {len(one.told)} of {len(texts)} messages"
                       for one, (files, texts) in zip(people, wanted))
    return f"NOT all came: {counts}"


def ends_in(log):
    """What the log says of ends."""
    found = [line.split(" ", 1)[1] for line in log if "session down" in line or "failed" in line or "closed" in line]
    return "no end" if not found else f"{len(found)} ends: {found[0]}"


def lyon_and_metz(options, **more):
    """A hub with LYON's line over TCP/IP and METZ's bisync one, and their ports."""
    lyon, metz = free_ports(2)
    lines = [line_of("a1", "LYON", port=lyon, protocol="tcp", **more), line_of("a2", "METZ", port=metz)]
    table = "capacity = 60000\n" + customer_of("ACME", HUB, 60000, lines, [("LYON", "a1"), ("METZ", "a2")])
    hub = Hub(options, table)
    hub.serves()
    return hub, lyon, metz


# ---- who rests


def is_coming(person):
    """Whether a file comes to a person, some of whose records are there."""
    return any(len(records) > 100 for records in person.coming.values())


def peer_rests(options):
    hub, lyon, metz = lyon_and_metz(options)
    loop = Loop()
    with hub:
        people = [TcpFilePeer(loop, lyon, "LYON", room=ROOM), FilePeer(loop, metz, "METZ")]
        loop.run(20, lambda: all(one.is_up for one in people))
        wanted = loads(people, random.Random(1), 1, LARGE)
        loop.run(60, lambda: is_coming(people[0]) and people[0].place > 100)
        before = people[0].place
        people[0].rest(options.seconds)
        loop.run(options.seconds)
        meanwhile, waits = len(people[1].files), queued(lyon)
        begin = time.monotonic()
        loop.run(PATIENCE, lambda: has_all(people, wanted))
        took = time.monotonic() - begin
        loop.run(1)
        size = sum(len(record) for files, _ in wanted for file in files for _, record in file)
        print(f"    {size:,} bytes of records; LYON had sent {before} of {LARGE}; {waits:,} bytes waited in the hub's socket;")
        print(f"    what was left took {took:.1f} s")
        shown = f"{'its own file came meanwhile' if meanwhile else 'not its own file'}, {what_came(people, wanted)}, {ends_in(hub.log())}"
        loop.close()
        return [show(f"LYON reads nothing for {options.seconds:g} s", shown, "its own file came meanwhile, all came, no end")]


def queued(port):
    """How many bytes wait in the socket of who listens on this port, for who is connected."""
    rows = [row.split() for row in pathlib.Path("/proc/net/tcp").read_text().splitlines()[1:]]
    return max((int(row[4].split(":")[0], 16) for row in rows if row[1].endswith(f":{port:04X}") and row[3] == "01"), default=0)


def hub_rests(options):
    """Two joined hubs, of which one stands still."""
    lyon, metz, port = free_ports(3)
    first = [line_of("lyon", "LYON", port=lyon), line_of("joined", "HUBB", "call", connect=f"127.0.0.1:{port}", protocol="tcp")]
    second = [line_of("metz", "METZ", port=metz), line_of("joined", "HUBA", port=port, protocol="tcp")]
    rows = [("LYON", "lyon"), ("HUBB", "joined"), ("METZ", "joined")]
    back = [("METZ", "metz"), ("HUBA", "joined"), ("LYON", "joined")]
    loop, found = Loop(), []
    with Hub(options, "capacity = 60000\n" + customer_of("ACME", "HUBA", 60000, first, rows)) as one, \
         Hub(options, "capacity = 60000\n" + customer_of("ACME", "HUBB", 60000, second, back)) as other:
        one.serves(), other.serves()
        people = [FilePeer(loop, lyon, "LYON"), FilePeer(loop, metz, "METZ")]
        up = lambda hub: any("joined: session up" in line for line in hub.log())
        loop.run(20, lambda: up(one) and up(other) and all(each.is_up for each in people))
        for what, count in (("with files under way", 1), ("at rest", 0)):
            for each in people:
                each.files.clear(), each.told.clear()
            wanted = loads(people, random.Random(2), count, LARGE) if count else [([], []), ([], [])]
            loop.run(60 if count else 0, lambda: not count or (is_coming(people[0]) and is_coming(people[1])))
            loop.run(0.5)
            other.process.send_signal(signal.SIGSTOP)
            loop.run(options.seconds)
            other.process.send_signal(signal.SIGCONT)
            if not count:
                loop.run(1)
                wanted = loads(people, random.Random(3), 1, 20)
            loop.run(PATIENCE, lambda: has_all(people, wanted))
            loop.run(0.5)
            told = [line for hub in (one, other) for line in hub.log() if " joined: " in line]
            found.append(show(f"HUBB stands still for {options.seconds:g} s, {what}",
                              f"{what_came(people, wanted)}, {ends_in(told)}", "all came, no end"))
    loop.close()
    return found


def nobody_reads(options):
    hub, lyon, metz = lyon_and_metz(options)
    loop = Loop()
    with hub:
        people = [TcpFilePeer(loop, lyon, "LYON", room=ROOM), FilePeer(loop, metz, "METZ")]
        loop.run(20, lambda: all(one.is_up for one in people))
        people[1].to_send.extend(files_of(random.Random(4), ("METZ", "PAUL", "LYON", "ANNA"), 1, LARGE))
        loop.run(20, lambda: is_coming(people[0]))
        people[0].rest(10 * STALL)
        end = lambda: any("a1: failed: the peer did not take its bytes in time" in line for line in hub.log())
        begin = time.monotonic()
        loop.run(2 * STALL, end)
        took = time.monotonic() - begin
        downs = [line for line in hub.log() if "session down" in line]
        shown = f"{'told' if end() else 'not told'}, {len(downs)} session down, {'30 to 45 s' if 30 <= took <= 45 else f'{took:.1f} s'}"
        loop.close()
        return [show("LYON reads nothing for good", shown, "told, 1 session down, 30 to 45 s")]


# ---- who is slow


def slow_sign_on(options):
    return [
        called(options, "a sign-on 10 s behind the contact", lambda link, data: (time.sleep(10), link.sends(data))),
        called(options, "a sign-on that takes 10 s", slowly),
        calling(options, "the answer 10 s behind the hub's sign-on", lambda link, data: (time.sleep(10), link.sends(data))),
        calling(options, "an answer that takes 10 s", slowly),
    ]


def slowly(link, data):
    """Sends the bytes one by one, over ten seconds."""
    for at in range(len(data)):
        link.sends(data[at : at + 1])
        time.sleep(10 / len(data))


def is_told(hub, words, seconds=2.0):
    end = time.monotonic() + seconds
    while time.monotonic() < end:
        if any(words in line for line in hub.log()):
            return True
        time.sleep(0.05)
    return False


def called(options, what, says):
    hub, lyon, _ = lyon_and_metz(options)
    with hub:
        link, answer = opened(lyon)
        with link:
            link.sends(ttb(CALL))
            contact = link.ttr()
            says(link, ttb(text_of(sign_on(0xC9, NODE))))
            signed = (link.ttr() or b"")[:7]
            up = "session" if is_told(hub, "session up with LYON") else "no session"
            shown = f"{answer[:3]}, {contact and contact.hex()}, {signed.hex()}, {up}"
            return show(what, shown, "ACK, 1070, 1002a08fcff0d1, session")


def calling(options, what, says):
    with socket.create_server(("127.0.0.1", 0)) as listener:
        listener.settimeout(20)
        line = line_of("a1", NODE, "call", connect=f"127.0.0.1:{listener.getsockname()[1]}", protocol="tcp")
        with Hub(options, "capacity = 100\n" + customer_of("ACME", HUB, 100, [line], [(NODE, "a1")])) as hub:
            with Link(listener.accept()[0]) as link:
                link.record()
                link.sends(control(ACK, NODE, HUB))
                contact = link.ttr()
                link.sends(ttb(ACK0))
                asked = (link.ttr() or b"")[:7]
                says(link, ttb(text_of(sign_on(0xD1, NODE))))
                up = "session" if is_told(hub, "session up with LYON") else "no session"
                more = link.bytes_within(1, 0.2)
                shown = f"{contact and contact.hex()}, {asked.hex()}, {up}, {more.hex() or 'nothing more'}"
                return show(what, shown, "012d, 1002a08fcff0c9, session, nothing more")


# ---- whose machine was gone


def gone(options):
    if IN_OWN not in os.environ:
        print("needs root: `gone` isn't played")
        return []
    return [comes_back(options, "at rest", 0, 1.5), comes_back(options, "with a file under way", 1, STALL + 2)]


@contextlib.contextmanager
def cut_off(address):
    """Nothing comes from an address, so whoever sends there hears nothing. The rule stands before that of this
    machine's own addresses, which is first else."""
    own, rule = ["from", "all", "lookup", "local", "priority"], ["from", address, "blackhole", "priority", "1"]
    for order in (["add", *own, "2"], ["del", *own, "0"], ["add", *rule]):
        subprocess.run(["ip", "rule", *order], check=True)
    yield
    for order in (["del", *rule], ["add", *own, "0"], ["del", *own, "2"]):
        subprocess.run(["ip", "rule", *order], check=True)


def comes_back(options, what, count, most):
    hub, lyon, metz = lyon_and_metz(options)
    loop = Loop()
    with hub:
        people = [TcpFilePeer(loop, lyon, "LYON", source=GONE), FilePeer(loop, metz, "METZ")]
        loop.run(20, lambda: all(one.is_up for one in people))
        files = files_of(random.Random(5), ("METZ", "PAUL", "LYON", "ANNA"), 1, LARGE if count else 7000)
        people[1].to_send.extend(files[:count])
        loop.run(20 if count else 0.5, lambda: is_coming(people[0]))
        with cut_off(GONE):
            vanish(people[0])
            loop.run(3)
        begin, answers = time.monotonic(), []
        while not people[0].is_up and time.monotonic() < begin + 2 * STALL:
            if people[0].is_closed:
                people[0] = TcpFilePeer(loop, lyon, "LYON", source=GONE)
            loop.run(0.5, lambda: people[0].is_up)
            if not people[0].is_up or not answers:
                answers.append(people[0].answered)
        took = time.monotonic() - begin
        people[1].to_send.extend(files[count:])
        loop.run(PATIENCE, lambda: len(people[0].files) >= len(files))
        came = sorted(map(repr, people[0].files)) == sorted(map(repr, files))
        told = [line.split(" ", 1)[1] for line in hub.log() if " a1: " in line]
        print(f"    {len(answers)} OPENs weren't answered ACK; a session after {took:.2f} s; the log says of the line:")
        print("    " + "\n    ".join(told[1:7]))
        loop.close()
        shown = f"{answers[0] if answers else 'ACK'}, {f'within {most:g} s' if took <= most else f'{took:.1f} s'}, {'all came' if came else 'NOT all came'}"
        return show(f"LYON's machine was gone, {what}", shown, f"NAK {HUB} {NODE} 2, within {most:g} s, all came")


PLAYS = {play.__name__: play for play in (peer_rests, hub_rests, nobody_reads, slow_sign_on, gone)}


def main():
    options = options_of(
        __doc__,
        (("--seconds",), {"type": float, "default": 20, "help": "how long an end rests"}),
        (("plays",), {"nargs": "*", "metavar": "PLAY", "help": f"{', '.join(PLAYS)}; all where none is named"}),
    )
    if "gone" in (options.plays or PLAYS) and not os.geteuid():
        in_own_network(0)
    right = [each for name in options.plays or PLAYS for each in PLAYS[name](options)]
    print("right" if all(right) else f"{right.count(False)} rows are wrong")
    sys.exit(not all(right))


if __name__ == "__main__":
    main()
