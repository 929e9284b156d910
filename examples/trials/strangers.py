"""Shows how long strangers keep a line's right peer from its session.

    python3 examples/trials/strangers.py PROGRAM [PLAY ..] [--counts 30 250] [--tries 4] [--before 2] [--quick]

LYON's line has a password. Strangers connect to it, and once the hub ends one's connection that one connects again, a
hundredth of a second later. Beside them the right peer tries to sign on, from an address of its own, so many times, one
after the other: it gives up after 25 seconds. Within a try it connects again if its connection ends. Then a hub does
so, whose line dials, anew for each try. The right peer had a session before the strangers came, but in `first`. The
plays, each with a new hub, for each count of strangers and for both kinds of peers:

- `wrong`: each stranger has an address of its own, and says a contact and a sign-on with a wrong password;
- `silent`: each has an address of its own, and says nothing;
- `wrong_at_one`, `silent_at_one`: the same, and all strangers have one address;
- `begun`: each has an address of its own, makes contact, and says no more;
- `first`: as `wrong` with 30 strangers, and the right peer never had a session: nothing tells it from a stranger until
  each of those was refused once, one a second, so it tries once, for 40 seconds;
- `from`: the line has the key `from`, and the strangers aren't of it: each is to be closed without an answer;
- `from_mapped`: the same at a hub that listens at `::`, so that all addresses are IPv4's in IPv6.

The table has a row for each: how many connections the strangers made in the meantime and how many of them were
answered, and after how many seconds each try of the right peer had its session, "-" if it had none; and whether all
had one. Of `wrong` it is looked too whether `ctl lines` and the log tell addresses of strangers, and of
`from` whether the log tells of them once a minute. Then come, without strangers,

- `from_changed`: the right peer isn't of `from`, and is closed without an answer; then the table file has its address,
  and from then on it has its session;
- `from_bad`: `check` refuses each bad `from` by K3, and takes each good one;
- `warned`: at the start the log warns of the one line that listens beyond loopback with neither a password nor `from`.

The last line says "right", or the script ends with status 1 and says how many rows are wrong.

Needs root, `ip` and `unshare`, for a network of its own.
"""

import pathlib
import re
import subprocess
import sys
import tempfile
import time

from addresses import HUB, LISTENS, RIGHT, Strangers, in_own_network, stranger, wrong_sign_on
from console import ConsoleHub
from frames import ACK0, CONTACT, EOT, Deframer, Text, sign_on
from hub import Hub, connected, customer_of, free_ports, line_of, options_of, row

WIDTHS = (28, 5, 11, 8, 34, 5)

NODE, PASSWORD = "LYON", "SECRET"

# How long a peer tries, in seconds; and how long a stranger waits until it connects again.
PATIENCE, PAUSE = 25.0, 0.01

# How many strangers there are where the right peer never had a session, and how long it tries then, in seconds.
FEW, LONGER = 30, 40.0

# How many seconds a line rests between two tries.
REST = 2.0

WRONG = wrong_sign_on(NODE)

# The networks of the right peers.
OWN = ["198.18.8.0/24", HUB]

# What the strangers of a play say, whether all have one address, and what the line's entry has besides.
PLAYS = {
    "wrong": (WRONG, False, {}),
    "silent": (b"", False, {}),
    "wrong_at_one": (WRONG, True, {}),
    "silent_at_one": (b"", True, {}),
    "begun": (CONTACT, False, {}),
    "first": (WRONG, False, {}),
    "from": (WRONG, False, {"from": OWN}),
    "from_mapped": (WRONG, False, {"from": OWN}),
}

# What `from` may be, and what it may not be.
GOOD = (
    ["192.0.2.7"],
    ["10.1.0.0/16", "192.0.2.0/24"],
    ["2001:db8::/32", "2001:db8::7", "::ffff:192.0.2.7"],
    ["0.0.0.0/0"],
    [f"192.0.2.{at}" for at in range(16)],
)
BAD = (
    [],
    "192.0.2.7",
    [7],
    [""],
    ["192.0.2"],
    ["192.0.2.256"],
    ["10.1.0.1/16"],
    ["10.1.0.0/33"],
    ["10.1.0.0/"],
    ["10.1.0.0/-1"],
    ["2001:db8::1/32"],
    ["2001:db8::/129"],
    ["lyon.example"],
    ["192.0.2.7 "],
    [f"192.0.2.{at}" for at in range(17)],
)


def table_with(port, more):
    """The hub's table: LYON's line, with a password and more."""
    line = line_of("a1", NODE, port=port, password=PASSWORD, **more)
    return "capacity = 100\n" + customer_of("ACME", "BUREAU", 100, [line], [(NODE, "a1")])


def session_of(port, seconds):
    """Whether a connection has a session within so many seconds. It is ended at once."""
    end = time.monotonic() + seconds
    with connected(port, timeout=seconds, source=RIGHT, to=HUB, patience=1) as peer:
        peer.sendall(CONTACT)
        deframer, is_said = Deframer(), False
        while (left := end - time.monotonic()) > 0:
            peer.settimeout(left)
            data = peer.recv(4096)
            if not data:
                return False
            for frame in deframer.feed(data):
                if frame == ACK0 and not is_said:
                    is_said = True
                    peer.sendall(sign_on(0xC9, NODE, password=PASSWORD))
                elif isinstance(frame, Text):
                    peer.sendall(EOT)
                    return True
    return False


def peer_tries(_, port, patience):
    """After how many seconds the right peer has its session, None if it gives up."""
    begin = time.monotonic()
    while (left := begin + patience - time.monotonic()) > 0:
        try:
            if session_of(port, left):
                return time.monotonic() - begin
        except OSError:
            pass
        time.sleep(0.2)
    return None


def hub_tries(options, port, patience):
    """The same of a hub whose line dials."""
    line = line_of("joined", "BUREAU", "call", connect=f"{HUB}:{port}", password=PASSWORD)
    table = "capacity = 100\n" + customer_of("LYON", NODE, 100, [line], [("BUREAU", "joined")])
    with Hub(options, table) as hub:
        begin = time.monotonic()
        while (now := time.monotonic()) < begin + patience:
            if any("session up" in line for line in hub.log()):
                return now - begin
            time.sleep(0.05)
    return None


def told_of_wrong(lines, log):
    """A row: how many strangers' addresses `ctl lines` and the log tell."""
    in_lines, in_log = (len(set(re.findall(r"198\.18\.0\.\d+", text))) for text in (lines, "\n".join(log)))
    shown = f"{in_lines} by ctl lines, {in_log} in the log"
    return show("    addresses that are told", in_lines > 0 and in_log > 0, "", "", "", shown)


def told_of_from(log, seconds):
    """A row: how many lines of the log are about those who aren't of the line's `from`."""
    count = sum("closed: not from where the line takes them" in line for line in log)
    return show("    lines about them", 1 <= count <= 1 + seconds / 60, "", "", "", f"{count} in {seconds:.0f} s")


def play(options, name, count, what, tries):
    """A row of strangers, or two."""
    words, is_one, more = PLAYS[name]
    port = free_ports(1)[0]
    sources = [stranger(0 if is_one else at) for at in range(count)]
    listens = ("--listen", "::") if name == "from_mapped" else LISTENS
    patience, many = (LONGER, 1) if name == "first" else (PATIENCE, options.tries)
    with ConsoleHub(options, table_with(port, more), *listens) as hub:
        hub.serves()
        if name != "first":
            assert tries(options, port, patience) is not None, "there is no session without strangers"
        with Strangers(port, sources, words, PAUSE) as strangers:
            begin = time.monotonic()
            time.sleep(options.before)
            lasted = []
            for _ in range(many):
                lasted.append(tries(options, port, patience))
                time.sleep(REST)
            seconds = time.monotonic() - begin
            lines, log = hub.prints("lines", "ACME"), hub.log()
            heard = strangers.stop()
        right = hub.runs() and None not in lasted
    if "from" in more:
        right = right and not heard.answered
    shown = " ".join("-" if one is None else f"{one:.1f}" for one in lasted)
    found = [show(f"{name}, {what}", right, count, heard.connections, heard.answered, shown)]
    if name == "wrong":
        found.append(told_of_wrong(lines, log))
    if name == "from":
        found.append(told_of_from(log, seconds))
    return found


def show(what, right, *cells):
    row(WIDTHS, what, *cells, "" if right else "WRONG")
    return right


def from_changed(options):
    """A line's `from` changes while the hub runs."""
    port = free_ports(1)[0]
    with Hub(options, table_with(port, {"from": ["192.0.2.7"]}), *LISTENS) as hub:
        hub.serves()
        before = session_within(port, 3)
        new = hub.table.with_suffix(".new")
        new.write_text(table_with(port, {"from": ["192.0.2.7", RIGHT]}))
        new.rename(hub.table)
        time.sleep(1.5)
        after = session_within(port, 3)
    shown = f"{'let in' if before else 'closed'}, then {'let in' if after else 'closed'}"
    return [show("from_changed", not before and after, "", "", "", shown)]


def session_within(port, seconds):
    try:
        return session_of(port, seconds)
    except OSError:
        return False


def from_bad(options):
    """What `check` says of a `from`."""
    found, cases = [], [(given, True) for given in GOOD] + [(given, False) for given in BAD]
    without_port = table_with(1, {"from": ["192.0.2.7"]}).replace("port = 1\n", 'connect = "192.0.2.7:2703"\n')
    with tempfile.TemporaryDirectory() as folder:
        file = pathlib.Path(folder, "tables.toml")
        texts = [(str(given), table_with(2703, {"from": given}), is_good) for given, is_good in cases]
        for given, text, is_good in [*texts, ("without a port", without_port, False)]:
            file.write_text(text)
            done = subprocess.run([options.program, "check", "--tables", file], capture_output=True, text=True)
            said = done.stdout + done.stderr
            right = done.returncode == 0 and "unknown key" not in said if is_good else "K3" in said
            found.append(right)
            if not right:
                print(f"    {'good' if is_good else 'bad'}: {given}: status {done.returncode}")
    right = all(found)
    return [show("from_bad", right, "", "", "", f"{found.count(True)} of {len(found)} as they are to be")]


def warned(options):
    """The lines of the log at the start of a hub that listens beyond loopback."""
    ports = free_ports(3)
    lines = [
        line_of("a1", NODE, port=ports[0], password=PASSWORD),
        line_of("a2", "METZ", port=ports[1], **{"from": OWN}),
        line_of("a3", "NICE", port=ports[2]),
    ]
    table = "capacity = 100\n" + customer_of("ACME", "BUREAU", 100, lines, [])
    counts = []
    for listens in (LISTENS, ()):
        with Hub(options, table, *listens) as hub:
            hub.serves()
            time.sleep(0.3)
            log = [line for line in hub.log() if "listens on" not in line]
        counts += [sum(f" {name}: " in line or f" {name} " in line for line in log) for name in ("a1", "a2", "a3")]
    shown = f"lines of a1, a2, a3: {counts[:3]}, {counts[3:]}"
    return [show("warned", counts == [0, 0, 1, 0, 0, 0], "", "", "", shown)]


OTHERS = {play.__name__: play for play in (from_changed, from_bad, warned)}


def main():
    names = [*PLAYS, *OTHERS]
    options = options_of(
        __doc__,
        (("--counts",), {"type": int, "nargs": "*", "default": [30, 250], "help": "how many strangers there are"}),
        (("--tries",), {"type": int, "default": 4, "help": "how often the right peer tries"}),
        (("--before",), {"type": float, "default": REST, "help": "how long strangers are there before the first try"}),
        (("--quick",), {"action": "store_true", "help": "30 strangers and one try"}),
        (("plays",), {"nargs": "*", "metavar": "PLAY", "help": f"{', '.join(names)}; all where none is named"}),
    )
    in_own_network()
    if options.quick:
        options.counts, options.tries = [30], 1
    row(WIDTHS, "play, right peer", "count", "connections", "answered", "seconds until a session", "")
    kinds = (("a peer", peer_tries), ("a hub that dials", hub_tries))
    right = []
    for name in options.plays or names:
        if name in OTHERS:
            right += OTHERS[name](options)
            continue
        for count in [FEW] if name == "first" else options.counts:
            for what, tries in kinds:
                right += play(options, name, count, what, tries)
    print("right" if all(right) else f"{right.count(False)} rows are wrong")
    sys.exit(not all(right))


if __name__ == "__main__":
    main()
