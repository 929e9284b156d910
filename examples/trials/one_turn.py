"""Shows that the log of a served hub leaves nothing out which comes and goes within one turn.

    python3 examples/trials/one_turn.py PROGRAM

A peer needn't wait for what it is answered: LYON and METZ say a sign-on, whole files, permissions and ends of sessions
in one write each, of less than 4,096 bytes, which the hub reads at once. Nothing of that is there before its turn, and
much of it not behind it: a file that its owner cancels, one that goes out, sessions that go down and up again. Each
step is such a write. It says how many frames the hub sends by it, and which lines about files, commands and sessions
the log has further, in any order, and no others; their times are left out. Where several changes of a line's session
fall into a second the log may tell each, or the last of them with how many they were.

The table has a row for each step, with its bytes, and whether all is so; where it isn't, the lines are printed. At the
end `ctl files` is to have the files that are left, and when each came.
"""

import sys
import time

from console import ConsoleHub
from frames import ACK0, COMPLETE, CONTACT, EOT, GENERAL, NAK, PERMISSION, REFUSAL, REQUEST, SYSOUT
from frames import BLOCK, Deframer, Text, command, ebcdic, file_of, framed, records_of, sign_on, spelled
from hub import connected, customer_of, free_ports, line_of, options_of, row

WIDTHS = (72, 6, 6)

# What a turn reads.
READ = 4096

SIGN_OFF = 0xC2

# The streams for files out.
STREAMS = (SYSOUT, 0xA9, 0xB9, 0xC9)

# How many bytes of records a block of the spool has, and how many a record takes besides its own.
SPOOL_BLOCK, HEAD = 252, 3

# No more than one line about a line's sessions a second.
APART = 1.2


class Pipeline:
    """A peer's end of a line on which frames aren't waited for. The turn stays with the peer."""

    def __init__(self, port, node):
        self.socket, self.node, self.deframer, self.count = connected(port, timeout=5), node, Deframer(), 0

    def contact(self):
        """The frames by which a session begins, two answers."""
        self.count = 0
        return CONTACT + sign_on(0xC9, self.node)

    def block(self, *records):
        """The frame of the next block, of these records."""
        block = framed(bytes([0x80 + self.count]) + b"\x8f\xcf" + b"".join(records) + b"\x00")
        self.count = (self.count + 1) % 16
        return block

    def blocks(self, *records):
        """As few blocks as have these records, each within its size."""
        found, waiting = [], []
        for record in records:
            if waiting and sum(map(len, waiting)) + len(record) > BLOCK - 16:
                found.append(self.block(*waiting))
                waiting = []
            waiting.append(record)
        return found + [self.block(*waiting)]

    def say(self, frames, answers):
        """Sends these frames in one write, and says which others came by so many answers. What the hub asks again in
        place of a quiet peer, NAK, is none."""
        said = b"".join(frames)
        assert len(said) < READ, f"{len(said)} bytes are no single read"
        self.socket.sendall(said)
        found, end = [], time.monotonic() + 5
        while len(found) < answers and time.monotonic() < end:
            try:
                data = self.socket.recv(65536)
            except OSError:
                break
            if not data:
                break
            found += [frame for frame in self.deframer.feed(data) if frame != NAK]
        return len(said), found

    def close(self):
        self.socket.close()


def file_to(number, node, cards=3):
    return file_of(number, "LYON", "ANNA", node, "PAUL", [ebcdic(f"{place:04}".ljust(80)) for place in range(cards)])


def sent(file, stream=SYSOUT):
    """The records of a whole file as they stand in blocks, with what asks for the stream and with its end."""
    body = [bytes([stream, srcb]) + spelled(record) for srcb, record in file]
    return [bytes([REQUEST, stream, 0]), *body, bytes([stream, 0x80, 0])]


def told_of(what, number, file, line="lyon"):
    """What the log says of a file for PAUL at METZ."""
    blocks = -(-sum(HEAD + len(record) for _, record in file) // SPOOL_BLOCK)
    told = f"LYON.{number} of LYON.ANNA for METZ.PAUL, {len(file)} records, {blocks} blocks"
    return f"ACME {line}: file {what}: {told}"


def changes(line, *texts):
    """What the log says of these changes of a line's session: each of them, or the last with how many they were."""
    head = f"ACME {line}: session "
    return [head + text for text in texts], [f"{head}{texts[-1]}, the last of {len(texts)} changes"]


def answer(rcb, *streams):
    return b"".join(bytes([rcb, stream, 0]) for stream in streams)


def messages_in(frames):
    """The texts of the messages in these frames."""
    records = [one for frame in frames if isinstance(frame, Text) for one in records_of(frame)]
    return [record[30 : 30 + record[3]].decode("cp037") for rcb, _, record in records if rcb == 0x9A and record]


class Steps:
    """The rows of the table."""

    def __init__(self, hub):
        self.hub, self.seen, self.wrong = hub, 0, 0
        row(WIDTHS, "in one write", "bytes", "")

    def lines(self):
        """The lines about files, commands and sessions, without their times."""
        texts = [line.split(" ", 1)[-1] for line in self.hub.log()]
        return [text for text in texts if any(word in text for word in (": file ", ": command ", ": session "))]

    def step(self, what, peer, frames, answers, *ways, replies=()):
        """A peer says these frames in one write. The hub is to send so many frames, with these messages among them,
        and the log to have further what one of the ways says."""
        count, found = peer.say(frames, answers)
        end = time.monotonic() + 5
        while time.monotonic() < end and not any(self.is_told(way) for way in ways):
            time.sleep(0.05)
        time.sleep(0.2)  # for lines that aren't wanted
        right = any(self.is_told(way) for way in ways) and len(found) == answers
        right = right and all(reply in messages_in(found) for reply in replies)
        self.show(what, count, right)
        if not right:
            print(f"    frames: {answers} wanted, {len(found)} came", *messages_in(found), sep=", ")
            for way in ways:
                print(f"    {len(way)} lines wanted:", *way[:4], sep="\n      ")
            new = self.lines()[self.seen :]
            print(f"    {len(new)} lines found:", *new[:4], sep="\n      ")
        self.seen = len(self.lines())

    def is_told(self, way):
        """Whether the log has just these lines further, in any order."""
        return sorted(way) == sorted(self.lines()[self.seen :])

    def passes(self, seconds):
        """What the log tells meanwhile is looked at by no step."""
        time.sleep(seconds)
        self.seen = len(self.lines())

    def show(self, what, count, right):
        self.wrong += not right
        row(WIDTHS, what, count, "right" if right else "WRONG")


def files_in(steps, lyon):
    """Files that come whole in one write, by whatever happens to them then."""
    file, frames = file_to(42, "METZ", 20), lyon.contact()
    blocks = lyon.blocks(*sent(file))
    up = "ACME lyon: session up with LYON"
    steps.step("a sign-on and a whole file", lyon, [frames, *blocks], 2 + len(blocks), [up, told_of("in", 42, file)])
    file = file_to(43, "METZ", 1)
    blocks = lyon.blocks(*sent(file))
    assert len(blocks) == 1, blocks
    steps.step("a whole file in one block", lyon, blocks, 1, [told_of("in", 43, file)])
    file = file_to(44, "METZ")
    blocks = lyon.blocks(*sent(file))
    cancel = lyon.block(command("BUREAU", "LYON", "ANNA", "CANCEL LYON.44"))
    replies = ["NJH005 LYON.44 CANCELLED 1"]
    told = "ACME lyon: command of LYON.ANNA: CANCEL LYON.44: NJH005 LYON.44 CANCELLED 1"
    wanted = [told_of("in", 44, file), told]
    what = "a whole file, and then its owner's CANCEL"
    steps.step(what, lyon, [*blocks, cancel], len(blocks) + 1, wanted, replies=replies)
    two = [file_to(number, "METZ") for number in (45, 46)]
    blocks = [block for file in two for block in lyon.blocks(*sent(file))]
    wanted = [told_of("in", number, file) for number, file in zip((45, 46), two)]
    steps.step("two whole files, one after the other", lyon, blocks, len(blocks), wanted)


def refused(steps, lyon):
    """Files that the hub refuses, and one that is given up."""
    told = "ACME lyon: file in refused: SYSOUT 1, LYON.ANNA was told: NJH020 NODE NOWHERE UNKNOWN"
    blocks = []
    for number in (47, 48):
        request, *records = sent(file_to(number, "NOWHERE", 1))
        blocks += [lyon.block(request), *lyon.blocks(*records)]
    steps.step("two files for no known node", lyon, blocks, len(blocks), [told] * 2)
    request, *records = sent(file_to(49, "METZ"))
    blocks = [lyon.block(request), *lyon.blocks(*records[:3]), lyon.block(bytes([SYSOUT, 0x80, 0x40]))]
    wanted = ["ACME lyon: file in cut off: SYSOUT 1"]
    steps.step("a file that is begun and given up", lyon, blocks, len(blocks), wanted)


def files_out(steps, lyon, metz):
    """METZ is asked for four files. It permits two and says that it has them before it has read any, and refuses the
    others. A fifth one it refuses before it was asked."""
    frames = [metz.contact(), metz.block(), metz.block(answer(PERMISSION, *STREAMS[:2]))]
    frames += [metz.block() for _ in range(4)] + [metz.block(answer(COMPLETE, *STREAMS[:2]))]
    wanted = ["ACME metz: session up with METZ"]
    wanted += [told_of("out", number, file_to(number, "METZ", cards), "metz") for number, cards in ((42, 20), (43, 1))]
    steps.step("a sign-on, and two files taken", metz, frames, 9, wanted)
    frames = [metz.block(answer(REFUSAL, *STREAMS[2:]))]
    wanted = [told_of("refused", number, file_to(number, "METZ"), "metz") for number in (45, 46)]
    steps.step("two files refused, which were asked for before", metz, frames, 1, wanted)
    file = file_to(50, "METZ")
    blocks = lyon.blocks(*sent(file))
    steps.step("another file comes", lyon, blocks, len(blocks), [told_of("in", 50, file)])
    frames = [metz.block(), metz.block(answer(REFUSAL, SYSOUT))]
    steps.step("it is refused as soon as it is asked for", metz, frames, 2, [told_of("refused", 50, file, "metz")])


def sessions(steps, lyon):
    """Sessions that go down and up, and up and down."""
    ends = (
        ("an EOT", lambda: EOT, "the peer sent EOT", 2),
        ("a sign-off", lambda: lyon.block(bytes([GENERAL, SIGN_OFF])), "the peer signed off", 2),
        ("nothing", lambda: b"", "the peer made contact anew", 2),
    )
    for what, end, why, answers in ends:
        time.sleep(APART)
        frames = [end(), lyon.contact()]
        ways = changes("lyon", f"down: {why}", "up with LYON")
        steps.step(f"{what}, and a contact and a sign-on", lyon, frames, answers, *ways)
        last = steps.hub.answers("lines", "ACME")[0]["lines"][0]["served"]["last_end"]
        if why not in last:
            steps.show(f"  ctl lines says why it ended: {last}", "", False)
    time.sleep(APART)
    frames = [EOT + lyon.contact() for _ in range(20)]
    ways = changes("lyon", *["down: the peer sent EOT", "up with LYON"] * 20)
    steps.step("twenty times an EOT, a contact and a sign-on", lyon, frames, 40, *ways)
    time.sleep(APART)
    steps.step("an EOT", lyon, [EOT], 0, changes("lyon", "down: the peer sent EOT")[0])
    time.sleep(APART)
    ways = changes("lyon", "up with LYON", "down: the peer sent EOT")
    steps.step("a contact, a sign-on and an EOT", lyon, [lyon.contact(), EOT], 2, *ways)


def left(steps, begin):
    """What `ctl files` has at the end: the three that METZ refused, with when they came."""
    files = [file for part in steps.hub.answers("files", "ACME") for file in part["files"]]
    names, came = [file["name"] for file in files], [file.get("came") for file in files]
    right = names == ["LYON.45", "LYON.46", "LYON.50"]
    right = right and all(one is not None and begin <= one <= time.time() for one in came)
    steps.show(f"ctl files has {', '.join(names)}, and when each came", "", right)
    if not right:
        print(f"    they came at {came}, the trial began at {begin}")


def main():
    options, ports, begin = options_of(__doc__), free_ports(2), int(time.time())
    lines = [line_of("lyon", "LYON", port=ports[0]), line_of("metz", "METZ", port=ports[1])]
    table = "capacity = 200\n" + customer_of("ACME", "BUREAU", 200, lines, [("LYON", "lyon"), ("METZ", "metz")], 32)
    with ConsoleHub(options, table) as hub:
        hub.listens()
        steps, lyon = Steps(hub), Pipeline(ports[0], "LYON")
        files_in(steps, lyon)
        refused(steps, lyon)
        metz = Pipeline(ports[1], "METZ")
        files_out(steps, lyon, metz)
        metz.close()
        steps.passes(0.5)
        sessions(steps, lyon)
        left(steps, begin)
        lyon.close()
    sys.exit(steps.wrong > 0)


if __name__ == "__main__":
    main()
