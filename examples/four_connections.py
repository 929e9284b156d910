"""Plays worked frames over four real connections at once, and compares the bytes.

    python3 examples/four_connections.py sh -c 'cd crates/njehub && exec rt run -- "$@"' njehub

The arguments are a command that starts the program; those of the program are put after them. It is started with two customers of two lines each, on
ports of this machine that are free; each line has a connection, and all four play at the same time. It is run by hand: the gate
knows nothing of it.
"""

import socket
import subprocess
import sys
import tempfile
import threading
import time

# While nobody is connected a turn takes no time, so there are many; the program ends soon after the peers have gone.
TURNS = "1000000"

LINES = [("ACME", "a1", "LYON"), ("ACME", "a2", "METZ"), ("BOLT", "b1", "LYON"), ("BOLT", "b2", "PARIS")]

NAMES = {"LYON": "d3e8d6d540404040", "METZ": "d4c5e3e940404040", "PARIS": "d7c1d9c9e2404040", "BUREAU": "c2e4d9c5c1e44040"}


def sign_on(srcb, node):
    """The frame of a sign-on, by the bytes of its record."""
    record = "f0" + srcb + "29" + NAMES[node] + "01" + "00" * 6 + "0400" + "40" * 16 + "00" * 5
    return bytes.fromhex("1002a08fcf" + record + "001026")


LIST = bytes.fromhex("1002808fcf9a80caa0770004c2e4d9c5c1e482c500c1d5d5c184c4d3e8d6d584c500d3c9e2e300001026")

NO_FILES = bytes.fromhex(
    "1002808fcf9a80c82077000ed3e8d6d584c500c1d5d5c184c6c2e4d9c5c1e482cf00d5d1c8f0f0f240f040c6c9d3c5e200001026"
)


def free_ports(count):
    found = [socket.create_server(("127.0.0.1", 0)) for _ in range(count)]
    ports = [one.getsockname()[1] for one in found]
    for one in found:
        one.close()
    return ports


def table(ports):
    text = "capacity = 200\n"
    for customer in ("ACME", "BOLT"):
        text += f'[[customer]]\nname = "{customer}"\nhub = "BUREAU"\nquota = 100\nfiles = 8\n'
        mine = [(name, node, port) for (owner, name, node), port in zip(LINES, ports) if owner == customer]
        for name, node, port in mine:
            text += f'[[customer.line]]\nname = "{name}"\nnode = "{node}"\nrole = "answer"\nblock = 1024\n'
            text += f"streams = 4\nport = {port}\n"
        for name, node, _ in mine:
            text += f'[[customer.route]]\nnode = "{node}"\nline = "{name}"\n'
    return text


def exchange(peer, sent, wanted, size):
    """Sends bytes in pieces of a size, and reads as many as are wanted."""
    for at in range(0, len(sent), size):
        peer.sendall(sent[at : at + size])
    got = b""
    while len(got) < len(wanted):
        more = peer.recv(len(wanted) - len(got))
        if not more:
            break
        got += more
    return got == wanted


def play(name, node, port, size, results):
    peer = None
    for _ in range(3000):
        try:
            peer = socket.create_connection(("127.0.0.1", port), timeout=10)
            break
        except OSError:
            time.sleep(0.05)
    if peer is None:
        results[name] = "nobody listens"
        return
    with peer:
        peer.setsockopt(socket.IPPROTO_TCP, socket.TCP_NODELAY, 1)
        steps = [
            ("contact", bytes.fromhex("012d"), bytes.fromhex("1070")),
            ("sign-on", sign_on("c9", node), sign_on("d1", "BUREAU")),
        ]
        if node == "LYON":
            steps.append(("LIST", LIST, NO_FILES))
        for step, sent, wanted in steps:
            if not exchange(peer, sent, wanted, size):
                results[name] = f"{step}: other bytes"
                return
    results[name] = "same"


def main():
    if len(sys.argv) < 2:
        sys.exit(__doc__)
    ports = free_ports(len(LINES))
    with tempfile.NamedTemporaryFile("w", suffix=".toml") as file:
        file.write(table(ports))
        file.flush()
        program = subprocess.Popen(sys.argv[1:] + ["serve", "--tables", file.name, "--turns", TURNS])
        results = {}
        players = [
            threading.Thread(target=play, args=(name, node, port, 1 + 6 * at, results))
            for at, ((_, name, node), port) in enumerate(zip(LINES, ports))
        ]
        for player in players:
            player.start()
        for player in players:
            player.join()
        status = program.wait(timeout=120)
    for _, name, _ in LINES:
        print(f"{name}: {results.get(name, 'no result')}")
    print(f"status {status}")
    sys.exit(status or any(result != "same" for result in results.values()))


if __name__ == "__main__":
    main()
