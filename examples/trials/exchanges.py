"""Shows how many exchanges a second a busy line has, alone and beside silent lines, next to a bare epoll server.

    python3 examples/trials/exchanges.py PROGRAM [--old] [--silent 0 1 15 255] [--slices 15] [--core N]

One client sends as soon as it has the answer to what it sent before, over a socket that waits: first 01 2D and then,
signed on, blocks without records. The silent lines are of the same hub, signed on, and each answers its tick and says
nothing else, from a process of its own. Beside it run a hub with the busy line alone and the bare server, bare_server.c
beside this script, which answers 10 70 to anything (cc builds it). The same client measures all three with the same
bytes, in turn, so many slices of a third of a second of each, so that no line is silent for a second and asked by its
hub, and the median is taken; the bare server has so many silent connections too. Where the system puts the processes
moves the figures by a third; with --core the client and the three servers are on one core, and then only what they do
counts, since one waits while the other works; the silent lines' ends are on the other cores, as on machines of their
own.

The table has a row for each number of silent lines: exchanges a second of the hub beside them, of the hub without any
and of the bare server, with 01 2D and with blocks, and the first's share of the other two's in percent. What is wanted:
80 of the bare server's alone, and 90 of the hub's without silent lines beside them.
"""

import os
import pathlib
import statistics
import subprocess
import tempfile
import time

from frames import ACK0, CONTACT, framed, sign_on
from hub import Hub, connected, free_ports, one_beside, options_of, places_of, row, table_of
from peers import Crowd, Peer

WIDTHS = (6, 11, 7, 7, 9, 8, 9, 7, 7, 9, 8)

BLOCKS = [framed(bytes([0x80 + count]) + b"\x8f\xcf\x00") for count in range(16)]


def exchange(peer, sent):
    peer.sendall(sent)
    return peer.recv(4096)


def rate(peer, frames):
    """Exchanges a second, in a slice of a third of a second, of what is sent in turn and each answered by ACK0."""
    count, begin = 0, time.monotonic()
    while time.monotonic() < begin + 0.33:
        for sent in frames:
            got = exchange(peer, sent)
            if got != ACK0:
                raise ConnectionError(f"answered {got.hex() or 'by an end'}")
        count += len(frames)
    return count / (time.monotonic() - begin)


def rates(peers, frames, slices):
    """The median of each peer's slices, which take turns."""
    found = [[rate(peer, frames) for peer in peers] for _ in range(slices)]
    return [statistics.median(column) for column in zip(*found)]


def measured(ports, node, slices):
    """Of contacts and of blocks in a session, the rates of those that listen on the ports."""
    peers = [connected(port) for port in ports]
    contacts = rates(peers, [CONTACT] * 16, slices)
    for peer in peers:
        exchange(peer, sign_on(0xC9, node))
    blocks = rates(peers, BLOCKS, slices)
    for peer in peers:
        peer.close()
    return contacts, blocks


def crowd_of(places, core):
    """The silent lines' ends, on the other cores where one is given."""

    def made(loop):
        if core is not None:
            os.sched_setaffinity(0, set(range(os.cpu_count())) - {core})
        return [Peer(loop, place.port, place.node) for place in places]

    return Crowd(made)


def trial(options, bare, silent):
    if options.core is not None:
        os.sched_setaffinity(0, [options.core])
    places, (alone,), (port,) = places_of(one_beside(silent)), places_of([1]), free_ports(1)
    process = subprocess.Popen([bare, str(port), "1", str(8 * options.slices + 60)])
    try:
        with Hub(options, table_of(places, 16)), Hub(options, table_of([alone], 16)):
            with crowd_of(places[1:], options.core) as crowd:
                others = [connected(port) for _ in range(silent)]
                found = measured((places[0].port, alone.port, port), places[0].node, options.slices)
                up = sum(peer[0] for peer in crowd.look("stop")[0])
                if up < silent:
                    print(f"of {silent} silent lines {up} are up")
                for other in others:
                    other.close()
    finally:
        process.kill()
        process.wait()
    cells = [
        (f"{own:.0f}", f"{alone:.0f}", f"{bare:.0f}", f"{100 * own / alone:.1f}", f"{100 * own / bare:.1f}")
        for own, alone, bare in found
    ]
    row(WIDTHS, silent, *(cell for five in cells for cell in five))


def main():
    options = options_of(
        __doc__,
        (("--silent",), {"type": int, "nargs": "*", "default": [0, 1, 15, 255], "help": "how many silent lines"}),
        (("--slices",), {"type": int, "default": 15, "help": "how many thirds of a second each figure is measured"}),
        (("--core",), {"type": int, "help": "run the client and both servers on this core"}),
    )
    with tempfile.TemporaryDirectory() as folder:
        bare = folder + "/bare_server"
        subprocess.run(["cc", "-O2", "-o", bare, pathlib.Path(__file__).with_name("bare_server.c")], check=True)
        head = ("alone", "bare", "% alone", "% bare")
        row(WIDTHS, "silent", "contacts/s", *head, "blocks/s", *head)
        for silent in options.silent:
            trial(options, bare, silent)


if __name__ == "__main__":
    main()
