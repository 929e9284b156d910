"""Shows that what the console tells is so, next to what the trial's own peers sent and received.

    python3 examples/trials/told.py PROGRAM [PLAY ..]

The plays, each with a hub of its own:

- `full_queue`: seventy messages to a line whose peer isn't there, 64 of which have room; and as many TELLs in a script.
- `traffic`: LYON's peer sends files and commands, METZ's takes files, both come and go; what both count is compared
  with what `ctl lines` has of their lines: bytes, blocks, files, records, commands.
- `turned_away`: files that have no route, no room, one too many, that are cut off, and that the peer refuses.
- `stands`: a stream on which nothing comes any more, in either direction.
- `sites`: whose address is told, and what is told of a line whose port another program has.
- `stopped`: a line that the operator stops, and the end of its session.
- `status`: the time, what is wrong with how much and since when, capacity, FILE and its log, and `status --quiet`.
- `customers`: the files of the limit, the oldest one, and what was turned away.
- `messages`: messages each way, those that were dropped, and for whom those wait that `ctl lines LINE` tells, and
  `ctl messages LINE`.

Each row is a sentence, and whether it is so, with what was found below it. The last line says "right", or how many rows
are wrong, with status 1.
"""

import calendar
import contextlib
import json
import os
import re
import socket
import subprocess
import tempfile
import time

from frames import REFUSAL, REQUEST, SYSOUT, Deframer, Text, command, message, spelled
from hub import free_ports
from peers import FilePeer
from sentences import MESSAGES, PAUL, Bureau, bureau_table, file_to, renew, show, speaks

# How many messages may wait on a line.
ROOM = 64

# How far a moment that is told may be from the one that this trial noted, in seconds.
NEAR = 2

# After so many seconds the hub has seen since when a message waits.
SINCE = 1.2

# What is counted each way.
FIGURES = ("bytes", "blocks", "files", "records")

# Why files are turned away.
WHYS = ("files", "quota", "route", "other")

MOMENT = re.compile(r"\d{4}-\d\d-\d\dT\d\d:\d\d:\d\dZ")


class CountingDeframer(Deframer):
    """Counts the bytes that come."""

    heard = 0

    def feed(self, data):
        self.heard += len(data)
        return super().feed(data)


class Counting(FilePeer):
    """
    A peer that counts what it says and hears. What it says again counts no block, nor does what comes again.
    """

    said, blocks_said, blocks_heard, records_said, records_heard, commands, last = 0, 0, 0, 0, 0, 0, None

    # The frames that came while it holds its answers.
    held = None

    def begin(self):
        if not isinstance(self.deframer, CountingDeframer):
            self.deframer = CountingDeframer()
        self.last = None
        super().begin()

    def say(self, frame):
        self.said += len(frame)
        self.blocks_said += frame[:2] == b"\x10\x02" and frame is not self.sent
        super().say(frame)

    def hear(self, frame):
        if isinstance(frame, Text):
            self.blocks_heard += frame[0] != self.last
            self.last = frame[0]
        if self.held is None:
            super().hear(frame)
        else:
            self.held.append(frame)

    @contextlib.contextmanager
    def holding(self):
        """It reads what the hub says, and answers it afterwards: meanwhile both have counted the same."""
        self.held = []
        self.loop.run(0.3)
        yield
        frames, self.held = self.held, None
        for frame in frames:
            if not self.is_closed:
                super().hear(frame)

    def take_record(self, rcb, srcb, record):
        self.records_heard += bool(record)
        super().take_record(rcb, srcb, record)

    def asks(self, words):
        """Says a command of ANNA's, and waits for its first reply."""
        count = len(self.told)
        self.waits.append(command("BUREAU", self.node, "ANNA", words))
        self.commands += 1
        speaks(self)
        assert self.loop.run(10, lambda: len(self.told) > count), f"{words} isn't answered"

    def sends(self, file):
        """Sends a file, and says whether it was taken."""
        went, refused = self.went, self.refused
        self.to_send.append(file)
        speaks(self)
        self.loop.run(20, lambda: self.went > went or self.refused > refused)
        if self.went > went:
            self.records_said += len(file)
        return self.went > went

    def says(self, *records):
        """Says records in a block."""
        self.waits += records
        speaks(self)
        self.loop.run(0.3)

    def take(self, rcb, srcb, record):
        super().take(rcb, srcb, record)
        if rcb == REFUSAL and self.to_send:
            self.to_send.pop(0)

    def counted(self):
        """What the hub is to have of its line: what this peer says comes in there."""
        return {
            "bytes": (self.said, self.deframer.heard),
            "blocks": (self.blocks_said, self.blocks_heard),
            "files": (self.went, len(self.files)),
            "records": (self.records_said, self.records_heard),
        }


class Refusing(Counting):
    """A peer that refuses what it is asked for."""

    refusals = 0

    def take(self, rcb, srcb, record):
        if rcb == REQUEST:
            self.refusals += 1
            self.waits.append(bytes([REFUSAL, srcb, 0]))
        else:
            super().take(rcb, srcb, record)


class Sleepy(Counting):
    """A peer that permits a file, and says nothing more once some of it has come."""

    def take_record(self, rcb, srcb, record):
        super().take_record(rcb, srcb, record)
        self.sleeps = True

    sleeps = False

    def hear(self, frame):
        if not self.sleeps:
            super().hear(frame)


def served(hub, name, customer="ACME"):
    return hub.line(name, customer)["served"]


def counts(hub, name, customer="ACME"):
    return served(hub, name, customer).get("counts") or {}


def both_ways(hub, name, figure, customer="ACME"):
    """What came in by a figure, and what went out."""
    pair = counts(hub, name, customer).get(figure) or {}
    return pair.get("in"), pair.get("out")


def settles(hub, is_so, seconds=4):
    """Runs the peers until something is so."""
    return hub.loop.run(seconds, is_so)


def full_queue(options):
    with Bureau(options) as hub:
        outcomes = []
        for number in range(1, 70):
            taken = hub.asks("POST", MESSAGES, {"to": PAUL, "text": f"N{number}"})
            outcomes.append(hub.outcome(taken.told["order"]).status if taken.status == 202 else taken.status)
        found = f"{outcomes.count(200)} done, {outcomes.count(503)} refused"
        yield (
            "of 69 messages to a line 64 are taken, and the others refused",
            outcomes == [200] * ROOM + [503] * 5,
            found,
        )
        status, text, _ = hub.timed("tell", "ACME", "METZ", "PAUL", "N70")
        yield (
            "ctl tell of one more ends with status 1, and says why",
            status == 1 and "64" in text,
            f"status {status}: {text}",
        )
        waiting = hub.line("a2")["messages"]
        yield "64 wait", waiting == ROOM, waiting
        texts = hub.texts_at(1, "METZ", 3)
        yield (
            "METZ's peer is told those that were taken, in their order",
            texts == [f"N{at}" for at in range(1, ROOM + 1)],
            f"{len(texts)}: {texts[-3:]}",
        )
        script = "".join(f"TELL ACME METZ.PAUL N{number}\n" for number in range(1, 71))
        line = [options.program, "replay", "--tables", str(hub.table)]
        done = subprocess.run(line, input=script, capture_output=True, text=True, timeout=30)
        yield (
            "TELL in a script is refused too, by U7 QueueFull",
            done.returncode != 0 and "U7 QueueFull" in done.stderr,
            f"status {done.returncode}: {done.stderr}",
        )


def traffic(options):
    with Bureau(options) as hub:
        lyon, metz = hub.peer(0, "LYON", Counting), hub.peer(1, "METZ", Counting)
        for number in range(1, 8):
            lyon.sends(file_to(number, cards=4 * number))
        for words in ("LIST", "HOLD LYON.99", "LIST"):
            lyon.asks(words)
        settles(hub, lambda: len(metz.files) == 7)
        for name, peer in (("a1", lyon), ("a2", metz)):
            yield from as_counted(hub, name, peer, f"{peer.node}'s line")
        found = counts(hub, "a1").get("commands")
        yield "LYON's line: as many commands of users as its peer said", found == lyon.commands, found
        for customer, name in (("ACME", "a3"), ("BOLT", "b1")):
            figures = [both_ways(hub, name, figure, customer) for figure in FIGURES]
            yield f"{name}, on which nobody is: nothing", figures == [(0, 0)] * len(FIGURES), figures
        with lyon.holding():
            lyon.close()
        hub.loop.run(0.5)
        again = hub.peer(0, "LYON", Counting)
        again.sends(file_to(9))
        for figure in ("said", "blocks_said", "blocks_heard", "records_said", "went"):
            setattr(again, figure, getattr(again, figure) + getattr(lyon, figure))
        again.deframer.heard += lyon.deframer.heard
        yield from as_counted(hub, "a1", again, "LYON's line, over two sessions")
        with again.holding():
            text = hub.prints("lines", "a1")
            wanted = {str(one) for figure in FIGURES for one in both_ways(hub, "a1", figure)}
        numbers = set(re.findall(r"\d+", text))
        yield "ctl lines shows these figures", wanted <= numbers and "None" not in wanted, text


def as_counted(hub, name, peer, what):
    """The rows of a line: what its peer counted, once both are at rest."""
    with peer.holding():
        settles(hub, lambda: all(both_ways(hub, name, figure) == peer.counted()[figure] for figure in FIGURES), 1)
        pairs = [(both_ways(hub, name, figure), peer.counted()[figure]) for figure in FIGURES]
    for figure, (found, wanted) in zip(FIGURES, pairs):
        yield f"{what}: {figure} in and out are its peer's", found == wanted, f"told {found}, counted {wanted}"


def turned_away(options):
    ports = free_ports(4)
    with Bureau(options, ports=ports, table=bureau_table(ports, quota=40, files=6)) as hub:
        lyon = hub.peer(0, "LYON", Counting)
        tried = [lyon.sends(file_to(number, "NOWHERE")) for number in (1, 2)]
        yield from as_turned("route", hub, 2, tried, "two files for a node without a route")
        tried = [lyon.sends(file_to(3, cards=200))]
        yield from as_turned("quota", hub, 1, tried, "a file that the quota has no room for")
        tried = [lyon.sends(file_to(4, "LYON"))]
        yield from as_turned("other", hub, 1, tried, "a file for the line that it came on")
        went = [lyon.sends(file_to(number)) for number in range(5, 11)]
        assert all(went), went
        tried = [lyon.sends(file_to(number)) for number in (11, 12, 13)]
        yield from as_turned("files", hub, 3, tried, "three files beyond the limit of files")
        metz = hub.peer(1, "METZ", Refusing)
        settles(hub, lambda: {file["state"] for file in hub.listed("files")} == {"REFUSED"})
        found = counts(hub, "a2").get("returned")
        yield (
            "files that the peer refused are counted as given back",
            found == metz.refusals > 0,
            f"told {found}, refused {metz.refusals}",
        )
        metz.close()
        for file in hub.listed("files"):
            hub.ctl("cancel", "ACME", file["name"])
        srcb, record = file_to(20)[0]
        lyon.says(bytes([REQUEST, SYSOUT, 0]))
        lyon.says(bytes([SYSOUT, srcb]) + spelled(record))
        lyon.says(bytes([SYSOUT, 0x80, 0x40]))
        settles(hub, lambda: counts(hub, "a1").get("cut_off") == 1)
        found = counts(hub, "a1").get("cut_off")
        yield "a file that was given up is counted as cut off", found == 1, found
        acme, bolt = (one.get("turned_away") for one in hub.asks("GET", "/v1/customers").told["customers"])
        wanted = {why: sum(away(hub, name).get(why, 0) for name in ("a1", "a2", "a3")) for why in WHYS}
        right = isinstance(acme, dict) and {why: acme.get(why) for why in WHYS} == wanted
        yield (
            "customers has what was turned away on all lines of a customer",
            right,
            f"told {acme}, on its lines {wanted}",
        )
        yield "and nothing of it is told of another customer", bolt is not None and not any(bolt.values()), bolt


def away(hub, name):
    return counts(hub, name).get("turned_away") or {}


def as_turned(why, hub, count, tried, what):
    """The row of what was turned away for a reason: so many, and for no other reason."""
    assert not any(tried), f"{what}: taken"
    settles(hub, lambda: away(hub, "a1").get(why) == count, 2)
    found = away(hub, "a1")
    yield f"{what}: turned away, why: {why}", found.get(why) == count, found


def stands(options):
    with Bureau(options) as hub:
        lyon = hub.peer(0, "LYON", Counting)
        lyon.sends(file_to(1, cards=400))
        lyon.says(bytes([REQUEST, SYSOUT, 0]))
        began = time.time()
        srcb, record = file_to(2)[0]
        lyon.says(bytes([SYSOUT, srcb]) + spelled(record))
        hub.loop.run(3)

        since = stands_since(hub, "a1", "to_hub")
        yield "a stream on which nothing comes any more: since when", near(since, began), f"{since}, {began:.0f}"
        srcb, record = file_to(2)[1]
        again = time.time()
        lyon.says(bytes([SYSOUT, srcb]) + spelled(record))
        since = stands_since(hub, "a1", "to_hub")
        yield "once more comes on it, since then", near(since, again, 1.1), f"{since}, {again:.0f}"
        hub.peer(1, "METZ", Sleepy)
        settles(hub, lambda: any(one and one["sent"] for one in hub.line("a2")["from_hub"]))
        began = time.time()
        hub.loop.run(3)
        since = stands_since(hub, "a2", "from_hub")
        yield "a stream that the peer doesn't take from: since when", near(since, began), f"{since}, {began:.0f}"
        status, text, _ = hub.timed("lines", "a2")
        yield "ctl lines a2 shows it", status == 0 and since in moments_in(text), text


def stands_since(hub, name, way):
    """Since when the line's stream that is about something stands as it stands."""
    line = hub.line(name)
    told = (line["served"].get("stands") or {}).get(way) or []
    return next((since for since, stream in zip(told, line[way]) if stream), None)


def moments_in(text):
    """The moments that a text has, in seconds since 1970."""
    return [calendar.timegm(time.strptime(one, "%Y-%m-%dT%H:%M:%SZ")) for one in MOMENT.findall(text)]


def near(told, noted, seconds=NEAR):
    return told is not None and abs(told - noted) <= seconds


def sites(options):
    ports = free_ports(4)
    with socket.create_server(("127.0.0.1", ports[2])) as taken, Bureau(options, ports=ports) as hub:
        lyon = hub.peer(0, "LYON", Counting)
        address = "{}:{}".format(*lyon.socket.getsockname())
        peer = served(hub, "a1").get("peer")
        yield "lines tells the peer's address", peer == address, f"told {peer}, it is {address}"
        text = hub.prints("lines", "ACME")
        yield "and ctl shows it", address in text, text
        told = served(hub, "a3")
        row = next(line for line in text.splitlines() if line.split()[:2] == ["ACME", "a3"])
        right = "listens" not in row and "listen" in json.dumps(told) and "in use" in json.dumps(told)
        yield "a line that can't listen isn't told as one that listens, but why it can't", right, f"{row}; {told}"
        taken.close()
        end = time.monotonic() + 15
        while "listens" not in str(served(hub, "a3").get("site")) and time.monotonic() < end:
            time.sleep(0.5)
        yield (
            "once the port is free it listens",
            str(served(hub, "a3").get("site")).startswith("listens"),
            served(hub, "a3"),
        )


def stopped(options):
    with Bureau(options) as hub:
        lyon = hub.peer(0, "LYON", Counting)
        yield "a line that is up isn't told as wrong", not any("a1" in one for one in troubles(hub)), troubles(hub)
        noted = time.time()
        hub.prints("stop", "a1")
        settles(hub, lambda: lyon.is_closed)
        settles(hub, lambda: served(hub, "a1")["last_end"] != "", 2)
        told = served(hub, "a1")
        yield "the operator stopped it, as its last end", "operator stopped it" in told["last_end"], told["last_end"]
        yield "and since when it is stopped", near(told.get("state_since"), noted), told.get("state_since")
        yield "and without a session", near(told.get("down"), noted), told.get("down")
        intended = hub.asks("GET", "/v1/status").told.get("intended") or []
        right = any("a1" in one["text"] and near(one["since"], noted) for one in intended)
        yield (
            "a stop that is intended stands apart from trouble",
            right and not any("a1" in one for one in troubles(hub)),
            f"intended {intended}, wrong {troubles(hub)}",
        )
        status, text, _ = hub.timed("status", "--quiet")
        yield "for status --quiet it is no trouble", (status, text) == (0, ""), f"status {status}: {text}"
        text = hub.prints("status")
        yield "ctl status has it, but not as wrong", "a1" in text and not re.search(r"wrong.*a1", text), text


def troubles(hub):
    """What is wrong, a text each."""
    told = hub.asks("GET", "/v1/status").told
    return [one["text"] for one in told.get("wrong") or []] or told.get("faults") or []


def status(options):
    ports = free_ports(4)
    with tempfile.TemporaryDirectory(prefix="told.") as folder:
        spool = os.path.join(folder, "spool")
        with Bureau(options, "--spool", spool, ports=ports) as hub:
            found = hub.timed("status", "--quiet")[:2]
            yield "status --quiet prints nothing, with status 0 where nothing is wrong", found == (0, ""), found
            hub.sends(*(file_to(number, cards=200) for number in range(1, 6)))
            told = hub.asks("GET", "/v1/status").told
            yield "status tells the time", near(told.get("now"), time.time(), 1.5), told.get("now")
            moments = moments_in(hub.prints("status"))
            yield (
                "and ctl shows it",
                sum(near(one, time.time(), 1.5) for one in moments) > 0 and len(moments) > 1,
                moments,
            )
            capacity = told.get("capacity") or {}
            yield "and the capacity", capacity.get("blocks") == 2000, capacity
            sizes = [os.stat(name).st_size for name in (spool, f"{spool}-wal")]
            yield (
                "FILE's size is what it has",
                told.get("file_bytes") == sizes[0],
                f"told {told.get('file_bytes')}, it has {sizes[0]}",
            )
            yield (
                "and so is its log's",
                told.get("log_bytes") == sizes[1],
                f"told {told.get('log_bytes')}, it has {sizes[1]}",
            )
            text = hub.prints("status")
            yield "ctl shows both", str(sizes[0]) in text and str(sizes[1]) in text, text
            loop, begun = hub.loop, hub.asks("GET", "/v1/status").told["since"]
            other = FilePeer(loop, ports[2], "NIZZA")
            assert loop.run(5, lambda: other.is_closed), "NIZZA isn't refused at PARIS's line"
            loop.run(0.3)
            yield from as_wrong(hub, "a3", "error", "warning", near=begun)
            found = hub.timed("status", "--quiet")[:2]
            yield "status --quiet ends with 3 then, and prints nothing", found == (3, ""), found
            hub.peer(2, "PARIS")
            loop.run(0.3)
            found = hub.timed("status", "--quiet")[:2]
            yield "and with 0 once it is mended", found == (0, ""), found
            noted = time.time()
            renew(hub, "capacity = \n")
            settles(hub, lambda: troubles(hub), 5)
            yield from as_wrong(hub, "table file", "error", near=noted)
            loop.run(2.5)
            yield from as_wrong(hub, "table file", "error", near=noted, what="as long as it is so: ")


def as_wrong(hub, about, *severities, near, what=""):
    """The row of what is wrong: how grave it is, and since when, at the console and by `ctl status`."""
    told = hub.asks("GET", "/v1/status").told
    wrong = next((one for one in told.get("wrong") or [] if about in one["text"]), {})
    since = wrong.get("since")
    right = wrong.get("severity") in severities and since is not None and abs(since - near) <= NEAR
    yield f"{what}what is wrong, {about}: how grave it is, and since when", right, f"{wrong}, noted at {near:.0f}"
    status, text, _ = hub.timed("status")
    right = status == 0 and wrong and wrong["text"] in text and wrong["severity"] in text and since in moments_in(text)
    yield f"{what}ctl status shows it, with status 0", right, text


def customers(options):
    with Bureau(options) as hub:
        noted = time.time()
        hub.sends(file_to(1))
        hub.loop.run(2.2)
        hub.sends(file_to(2), file_to(3))
        acme, bolt = hub.asks("GET", "/v1/customers").told["customers"]
        yield "customers tells how many files a customer may have", acme.get("most_files") == 400, acme
        oldest = hub.listed("files")[0]["came"]
        yield (
            "and since when its oldest file is there",
            acme.get("oldest") == oldest and near(oldest, noted),
            f"{acme.get('oldest')}, it came at {oldest}",
        )
        yield "which nobody tells of one without files", "oldest" in bolt and bolt["oldest"] is None, bolt
        yield "and how many were turned away", "turned_away" in acme, acme.get("turned_away")
        text = hub.prints("customers")
        row = next(line for line in text.splitlines() if line.startswith("ACME"))
        yield "ctl customers shows the files of the limit", {"3", "400"} <= set(re.findall(r"\d+", row)), row
        hub.ctl("cancel", "ACME", "LYON.1")
        oldest = hub.asks("GET", "/v1/customers").told["customers"][0].get("oldest")
        came = hub.listed("files")[0]["came"]
        yield "once it has gone the next one is the oldest", oldest == came, f"{oldest}, it came at {came}"


def messages(options):
    with Bureau(options) as hub:
        lyon = hub.peer(0, "LYON", Counting)
        noted = time.time()
        count = ROOM + 6
        for number in range(count):
            lyon.waits.append(message("METZ", "PAUL", "LYON", f"N{number}"))
            if number % 10 == 9:
                lyon.says()
        hub.loop.run(SINCE)
        status, text, _ = hub.timed("lines", "a2")
        rows = [line for line in text.splitlines() if "PAUL" in line]
        yield (
            "ctl lines LINE tells for whom messages wait",
            status == 0 and len(rows) == ROOM and all("METZ" in line for line in rows),
            f"status {status}: {text}",
        )
        moments = moments_in(text)
        right = len(moments) >= ROOM and all(near(one, noted, 30) for one in moments)
        yield "and since when", right, moments[:3]
        told = json.dumps(hub.line("a2"))
        found = re.findall(r'"[a-z_]*dropped[a-z_]*": ?(\d+)', told)
        yield "lines tells how many messages were dropped", found == ["6"], f"{found}: {told}"
        yield from queued(hub, "a2", ROOM, "came 0, went 0, dropped 6", noted)
        metz = hub.peer(1, "METZ", Counting)
        settles(hub, lambda: len(metz.told) == ROOM)
        found = [both_ways(hub, name, "messages") for name in ("a1", "a2")]
        yield "and how many came and went", found == [(count, 0), (0, ROOM)], found
        yield from queued(hub, "a1", 0, f"came {count}, went 0, dropped 0", noted)
        yield from queued(hub, "a2", 0, f"came 0, went {ROOM}, dropped 6", noted)


def queued(hub, line, count, counted, noted):
    """The row of what `ctl messages` tells of a line: so many that wait for PAUL, and what was counted."""
    status, text, _ = hub.timed("messages", line)
    head, *rows, last = text.splitlines() or ["", ""]
    right = status == 0 and head.split() == ["CUSTOMER", "LINE", "FOR", "SINCE"] and len(rows) == count
    right = right and all(row.split()[:3] == ["ACME", line, "METZ.PAUL"] for row in rows)
    right = right and all(near(one, noted, 30) for one in moments_in(text)) and len(moments_in(text)) == count
    right = right and last.split(maxsplit=2) == ["ACME", line, counted]
    yield f"ctl messages {line} tells of {count} that wait, and {counted}", right, f"status {status}: {text}"


PLAYS = (
    full_queue,
    traffic,
    turned_away,
    stands,
    sites,
    stopped,
    status,
    customers,
    messages,
)


if __name__ == "__main__":
    show(__doc__, PLAYS)
