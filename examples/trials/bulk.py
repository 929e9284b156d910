"""Shows that `ctl` holds, releases, cancels and reroutes many files at once, and no others.

    python3 examples/trials/bulk.py PROGRAM [PLAY ..]

LYON's peer sends some sixty files of ANNA and of PAUL, jobs and others, for METZ and PARIS; half of them come twelve
seconds after the others. Some are held, METZ refuses one and has one under way without an end. Some have a name that
another file of the same owner has, in another state or of another node, and some one that another owner's file has.

Each step gives `ctl` a command and options that choose. What it is to do is worked out here from the hub's list of
files, by names: a name of an owner of which all files are chosen is ordered, one of which only some are is passed over.
With `--dry-run` it is to say just that, and to change nothing. Then it is given without, and what the hub has then is
compared file by file with what is to come of it. The plays, each with a hub of its own:

- `one_option`: each option alone, with each of the four commands.
- `together`: options together.
- `names_apart`: names of which not all files are chosen, and names of two owners.
- `not_done`: files that are being sent.
- `bad_words`: no option, and options whose texts are none.

Each row is a sentence, and whether it is so, with what was found below it. The last line says "right", or how many rows
are wrong, with status 1.
"""

import collections
import re
import time

from frames import PERMISSION, REFUSAL, REQUEST, ebcdic, file_of
from one_turn import Pipeline, sent
from peers import FilePeer
from sentences import ORDERS, Bureau, show

# The first streams of jobs and of other files.
SYSIN, SYSOUT = 0x98, 0x99

# How many seconds lie between the files that come first and the others, and the age that parts them.
APART, AGE = 12, 8

DONE = re.compile(r"done (\d+), not done (\d+), refused (\d+), passed over (\d+)")

# How a file is left by each command, if it isn't being sent.
LEFT = {"hold": "HELD", "release": "READY"}

Named = collections.namedtuple("Named", "name owner")


class Half(FilePeer):
    """METZ's peer: it refuses the first file that it is asked about, and takes the next one but for its end."""

    asked = 0

    def take(self, rcb, srcb, record):
        if rcb == REQUEST:
            self.asked += 1
            self.waits.append(bytes([REFUSAL if self.asked == 1 else PERMISSION, srcb, 0]))
            self.coming[srcb] = []
        else:
            super().take(rcb, srcb, record)

    def take_record(self, rcb, srcb, record):
        if record:
            super().take_record(rcb, srcb, record)


class Many:
    """The hub, and what is ordered of many of its files."""

    # The log tells each order: there are so few that it leaves none out.
    tells_all = False

    def __init__(self, hub):
        self.hub = hub
        self.connects()

    def connects(self):
        self.lyon = Pipeline(self.hub.ports[0], "LYON")
        self.lyon.say([self.lyon.contact()], 2)

    def comes(self, number, user="ANNA", node="METZ", stream=SYSOUT):
        file = file_of(number, "LYON", user, node, "PAUL", [ebcdic(f"{number:04}".ljust(80))])
        blocks = self.lyon.blocks(*sent(file, stream))
        count, found = self.lyon.say(blocks, len(blocks))
        assert len(found) == len(blocks), f"{number}: {count} bytes, {len(found)} answers"

    def sixty(self):
        """The files, of which those up to 30 come first."""
        for number in range(1, 61):
            if number == 31:
                self.lyon.close()
                time.sleep(APART)
                self.connects()
            user, node = ("ANNA", "PAUL")[number % 2], ("METZ", "PARIS", "METZ")[number % 3]
            self.comes(number, user, node, SYSIN if number % 4 == 0 else SYSOUT)
            if number % 5 == 0:
                self.orders("HOLD", number, user)

    def orders(self, word, number, user="ANNA", more=""):
        body = {"command": f"{word} LYON.{number}{more}", "owner": {"node": "LYON", "user": user}}
        answer = self.hub.asks("POST", ORDERS, body)
        assert answer.status == 202, answer

    def files(self):
        return self.hub.listed("files")

    def tried(self, command, choose, *options, node=None):
        """The rows of a command with these options, which choose the files of which this is so."""
        words = (command, "ACME", *([node] if node else []), *options)
        before, now, seen = self.files(), time.time(), len(self.hub.log())
        whole, part = parted(before, lambda file: choose(file, now))
        status, text, _ = self.hub.timed(*words, "--dry-run")
        same = self.files() == before
        named = [named_in(line) for line in text.splitlines() if line.startswith(command.upper())]
        right = same and sorted(filter(None, named)) == sorted(whole | part) and status == (1 if part else 0)
        found = f"status {status}, {len(named)} names of {len(whole | part)}{'' if same else ', files have changed'}"
        yield f"{' '.join(words)} --dry-run says what it would do, and changes nothing", right, found or text
        status, text, _ = self.hub.timed(*words)
        sending = {named_of(file) for file in before if file["state"] == "SENDING"} & whole
        left = set() if command == "cancel" else sending
        wanted = [len(whole - left), len(left), 0, len(part)]
        found = DONE.search(text)
        told = [int(one) for one in found.groups()] if found else text
        yield f"{' '.join(words)} says how many of each outcome", told == wanted, f"{told}, to be {wanted}"
        yield (
            "its status is 1 if not all was done, and else 0",
            status == int(wanted[0] < sum(wanted)),
            f"status {status}",
        )
        after, to_be = self.files(), [done(command, file, node) if named_of(file) in whole else file for file in before]
        to_be = [file for file in to_be if file]
        after, to_be = ([as_kept(file) for file in files] for files in (after, to_be))
        differ = [file["name"] for file in after if file not in to_be]
        found = f"{len(whole)} names ordered, {len(before)} files, then {len(after)}, otherwise are {differ[:8]}"
        right = told == wanted and after == to_be
        yield "the files of these names are as ordered, and all others as they were", right, found
        time.sleep(0.2)
        log = [re.search(r"in the name of (\S+): [A-Z]+ (\S+?):? ", f"{line} ") for line in self.hub.log()[seen:]]
        owners = {Named(found[2], found[1]) for found in log if found}
        right = told == wanted and (owners == whole if self.tells_all else owners <= whole)
        yield "what the log has of these orders is of the files' owners", right, f"{len(owners)} of {len(whole)}"


def named_of(file):
    return Named(file["name"], f"{file['owner']['node']}.{file['owner']['user']}")


def named_in(line):
    """The name and the owner that a line of `ctl` is about."""
    found = re.match(r"[A-Z]+ (\S+)(?: \S+)? of (\S+?):", line)
    return Named(*found.groups()) if found else None


def parted(files, choose):
    """The names of which all files are chosen, and those of which only some are."""
    chosen = {named_of(file) for file in files if choose(file)}
    others = {named_of(file) for file in files if not choose(file)}
    return chosen - others, chosen & others


def done(command, file, node):
    """A file behind a command; none where it is gone."""
    if command == "cancel":
        return None
    if file["state"] == "SENDING":
        return file
    if command == "reroute":
        state = "READY" if file["state"] == "REFUSED" else file["state"]
        return {**file, "state": state, "destination": {**file["destination"], "node": node}}
    return {**file, "state": LEFT[command]}


def as_kept(file):
    """What a command leaves as it is, or changes; the line goes by the node."""
    return {name: file[name] for name in ("name", "kind", "state", "records", "blocks", "came", "owner", "destination")}


def is_owned(user):
    return lambda file, _: file["owner"] == {"node": "LYON", "user": user}


def is_for(node):
    return lambda file, _: file["destination"]["node"] == node


def is_in(state):
    return lambda file, _: file["state"] == state


def is_of(kind):
    return lambda file, _: file["kind"] == kind


def is_older(seconds):
    return lambda file, now: file["came"] is not None and now - file["came"] >= seconds


def both(*choices):
    return lambda file, now: all(choice(file, now) for choice in choices)


def one_option(options):
    with Bureau(options) as hub:
        many = Many(hub)
        many.sixty()
        kinds = {file["kind"] for file in many.files()}, {file["state"] for file in many.files()}
        assert kinds == ({"IN", "OUT"}, {"READY", "HELD"}), kinds
        yield from many.tried("hold", is_older(AGE), "--older", f"{AGE}s")
        yield from many.tried("release", is_in("HELD"), "--state", "held")
        yield from many.tried("hold", is_owned("PAUL"), "--owner", "LYON.PAUL")
        yield from many.tried("reroute", is_for("PARIS"), "--node", "PARIS", node="METZ")
        yield from many.tried("cancel", is_of("IN"), "--kind", "in")
        yield from many.tried("release", is_of("OUT"), "--kind", "out")
        yield from many.tried("cancel", is_older(7 * 86400), "--older", "7d")
        yield from many.tried("cancel", is_in("REFUSED"), "--state", "refused")


def together(options):
    with Bureau(options) as hub:
        many = Many(hub)
        many.sixty()
        words = "--owner", "LYON.ANNA", "--state", "held", "--older", f"{AGE}s"
        yield from many.tried("cancel", both(is_owned("ANNA"), is_in("HELD"), is_older(AGE)), *words)
        words = "--node", "PARIS", "--kind", "out", "--owner", "LYON.PAUL"
        yield from many.tried("reroute", both(is_for("PARIS"), is_of("OUT"), is_owned("PAUL")), *words, node="METZ")
        words = "--state", "ready", "--node", "METZ", "--kind", "in"
        yield from many.tried("hold", both(is_in("READY"), is_for("METZ"), is_of("IN")), *words)
        words = "--owner", "LYON.NOBODY", "--state", "held"
        yield from many.tried("cancel", both(is_owned("NOBODY"), is_in("HELD")), *words)


def names_apart(options):
    with Bureau(options) as hub:
        many = Many(hub)
        many.comes(101)
        many.orders("HOLD", 101)
        many.comes(101)  # of one name, one is held and one is ready
        many.comes(102, node="METZ")
        many.comes(102, node="PARIS")
        many.comes(103, "ANNA")
        many.comes(103, "PAUL")  # of one name, for two owners
        many.comes(104)
        many.comes(104)
        many.tells_all = True
        yield from many.tried("hold", both(is_in("READY"), is_for("METZ")), "--state", "ready", "--node", "METZ")
        words = "--owner", "LYON.ANNA", "--node", "METZ"
        yield from many.tried("cancel", both(is_owned("ANNA"), is_for("METZ")), *words)
        yield from many.tried("cancel", is_owned("PAUL"), "--owner", "LYON.PAUL")


def not_done(options):
    with Bureau(options) as hub:
        many = Many(hub)
        for number in range(1, 7):
            many.comes(number, ("ANNA", "PAUL")[number % 2])
        metz = hub.peer(1, "METZ", Half)
        wanted = {"REFUSED", "SENDING"}
        assert hub.loop.run(10, lambda: wanted <= {file["state"] for file in many.files()}), many.files()
        hub.loop.run(0.5)
        yield from many.tried("hold", is_in("SENDING"), "--state", "sending")
        yield from many.tried("reroute", is_for("METZ"), "--node", "METZ", node="PARIS")
        metz.close()


def bad_words(options):
    with Bureau(options) as hub:
        many = Many(hub)
        many.comes(1)
        before = many.files()
        for words in (
            ("hold", "ACME"),
            ("cancel", "ACME", "--dry-run"),
            ("cancel", "ACME", "--older", "7w"),
            ("cancel", "ACME", "--older", "d"),
            ("cancel", "ACME", "--state", "waiting"),
            ("cancel", "ACME", "--kind", "job"),
            ("cancel", "ACME", "--owner", "ANNA"),
            ("cancel", "ACME", "LYON.1", "--state", "held"),
            ("reroute", "ACME", "--node", "METZ"),
        ):
            status, text, _ = hub.timed(*words)
            right = status == 1 and f"ctl {words[0]}" in text and many.files() == before
            yield (
                f"{' '.join(words)} is refused by that command's usage, and nothing is ordered",
                right,
                f"status {status}: {text}",
            )
        status, text, _ = hub.timed("cancel", "NOBODY", "--state", "held")
        yield "a customer that isn't there is named", status == 1 and "NOBODY" in text, f"status {status}: {text}"


PLAYS = (one_option, together, names_apart, not_done, bad_words)


if __name__ == "__main__":
    show(__doc__, PLAYS)
