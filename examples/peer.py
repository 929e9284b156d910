"""A peer for people without a mainframe: it dials a line of the hub, signs on as the line's node, and does one thing.

    python3 examples/peer.py --port 2704 --node METZ listen                              prints what is said to METZ
    python3 examples/peer.py --port 2703 --node LYON --user ANNA tell PAUL@METZ "HI"     says it
    python3 examples/peer.py --port 2703 --node LYON --user ANNA send letter.txt PAUL@METZ
    python3 examples/peer.py --port 2703 --node LYON --user ANNA command LIST            prints the hub's replies
    python3 examples/peer.py --port 2704 --node METZ receive inbox                       stores the files that wait

Each but `listen`, which goes on until Ctrl-C, signs off when it is done. The line's role is "answer": the peer makes
contact. Bytes are in peer_bytes.py beside this file, and docs/PROTOCOL.md says why; examples/letters is a session.

With `--tcp` it speaks NJE over TCP/IP (peer_tcp.py), and is told the hub's name; with `--accept` the hub dials it. So
two of them reach each other:

    python3 examples/peer.py --tcp --accept --port 1175 --node METZ --hub LYON listen
    python3 examples/peer.py --tcp --port 1175 --node LYON --hub METZ tell PAUL@METZ "HI"
"""

import argparse
import pathlib
import re
import signal
import socket
import sys
import time

import peer_bytes as wire
import peer_tcp
from peer_bytes import ACK0, COMPLETE, EOT, GENERAL, MESSAGE, NAK, PERMISSION, REFUSAL, REQUEST, SYSOUT_1, Trouble

# What becomes of a file that the peer sends, by what the hub answers.
NEXT_STATE = {
    ("requested", PERMISSION): "sending",
    ("requested", REFUSAL): "refused",
    ("sending", REFUSAL): "aborting",
    ("at its end", REFUSAL): "cancelled",
    ("at its end", COMPLETE): "transmitted",
}
BAD_ENDS = {"refused": "was refused: the hub has no room for it now", "cancelled": "was cancelled by the hub"}


class Session:
    """A session with the hub: contact, sign-on, turns, sign-off. As it stands here, it listens until Ctrl-C."""

    def __init__(self, options):
        self.options = options
        self.line = peer_tcp.TcpLine(options) if options.tcp else wire.Line(options.host, options.port)
        self.count, self.sent = 0, b""  # the next block count, and the last frame
        self.heard, self.hub_fcs = None, wire.FCS  # of the hub's last block
        self.came, self.is_ending = time.monotonic(), False

    def say(self, frame):
        """Sends a frame, and keeps it for when the hub asks for it again."""
        self.sent = frame
        self.line.write(frame)

    def say_block(self, records, bcb=None):
        """Sends records in a block, whose BCB has the next block count where none is given."""
        if bcb is None:
            bcb, self.count = 0x80 + self.count, (self.count + 1) % 16
        self.say(wire.framed(bytes([bcb]) + wire.FCS + records + b"\x00"))

    def hear(self, trouble, question=NAK, tries=wire.TRIES):
        """The records of the hub's next block, none for ACK0. A question asks again where nothing or nonsense came."""
        for _ in range(tries):
            try:
                frame = self.line.read()
            except socket.timeout:
                frame = b""
            if frame == ACK0:
                return []
            if frame == EOT:
                raise Trouble("session lost: the hub ended it")
            if frame == NAK or (frame and frame[0] == self.heard):  # it asks again, or repeats its block
                self.line.write(self.sent)
            elif len(frame) < 3:
                self.line.write(question)
            elif self.heard is not None and not wire.follows(frame[0], self.heard):
                self.say_block(bytes([wire.OUT_OF_SEQUENCE, 0x80 + (self.heard + 1) % 16, 0x00]))
                raise Trouble("session lost: a block of the hub is missing")
            else:
                self.heard, self.hub_fcs = frame[0], frame[1:3]
                return wire.records_of(frame)
        raise Trouble(trouble)

    def sign_on(self):
        """Makes contact and signs on. The hub's answer has its name and the size of its blocks."""
        options, records = self.options, []
        self.say(wire.ENQUIRY)
        self.hear("no answer to the contact: is another peer on this line?", question=wire.ENQUIRY)
        self.say_block(wire.sign_on_of(wire.SIGN_ON, options.node, options.password), bcb=0xA0)
        refusal = f"the hub doesn't take {options.node}: another node's line, or a password?"
        while not records:
            records = self.hear(refusal, tries=2)
        self.meet(records[0], wire.RESPONSE, refusal)

    def answer_sign_on(self):
        """Answers the hub's contact and its sign-on, whose block says no more."""
        while self.line.read() != wire.ENQUIRY:
            pass
        self.say(ACK0)
        self.meet((self.hear("no sign-on") or [None])[0], wire.SIGN_ON, "no sign-on")
        self.say_block(wire.sign_on_of(wire.RESPONSE, self.options.node, self.options.password), bcb=0xA0)
        self.take_block()

    def meet(self, first, srcb, refusal):
        """Takes the hub's name and the size of its blocks from its sign-on or the answer to one."""
        if first is None or first[:2] != (GENERAL, srcb):
            raise Trouble(refusal)
        self.hub, self.size = wire.name_in(first[2], 1), min(wire.BLOCK_SIZE, int.from_bytes(first[2][16:18], "big"))
        if self.options.hub not in (None, self.hub):
            raise Trouble(f"the hub on this line is {self.hub}, not {self.options.hub}")

    def run(self):
        """Signs on, takes turns with the hub until all is done or Ctrl-C comes, and signs off."""
        self.answer_sign_on() if self.options.accept else self.sign_on()
        signal.signal(signal.SIGINT, self.end)
        while not (self.is_ending or self.is_done()):
            records = self.next_records()
            self.say_block(records) if records else self.say(ACK0)
            self.take_block()
        self.say_block(bytes([GENERAL, wire.SIGN_OFF]))
        self.line.close()
        self.tell_outcome()

    def take_block(self):
        """Takes the hub's next block, and what is in it."""
        for record in self.hear("session lost: the hub doesn't answer"):
            self.came = time.monotonic()
            self.take(*record)

    def end(self, *_):
        """Ctrl-C: the peer signs off at its next turn. A second one ends the program."""
        self.is_ending = True
        signal.signal(signal.SIGINT, signal.default_int_handler)

    def is_quiet(self, seconds):
        return time.monotonic() - self.came > seconds

    def take(self, rcb, srcb, record):
        """What is done with a record that comes. A request without an answer is made again in the next session."""
        if rcb in (wire.OUT_OF_SEQUENCE, GENERAL):
            raise Trouble("session lost: the hub ended it")
        if rcb == REQUEST:
            print(f"a file waits for {self.options.node}", flush=True)
        elif rcb == MESSAGE and record:
            print("{} to {}: {}".format(*wire.message_in(record)), flush=True)

    def next_records(self):
        """What stands in the next block; ACK0 goes out where it is nothing."""
        return b""

    def is_done(self):
        return False

    def tell_outcome(self):
        """Says at the end what became of it."""


class Saying(Session):
    """`tell` and `command`: says one message. Replies to a command come until none has come for a second."""

    is_said = False

    def next_records(self):
        if self.is_said or not wire.goes_on(self.hub_fcs, MESSAGE):
            return b""
        self.is_said, self.came = True, time.monotonic()
        options, words = self.options, " ".join(self.options.words)
        if options.task == "command":
            return wire.message_of(wire.COMMAND_FLAG + wire.USER_FLAG, self.hub, options.user, options.node, words)
        user, node = options.to  # the sender stands in the text: a message has no field for it
        return wire.message_of(wire.USER_FLAG, node, user, options.node, f"{options.user}: {words}")

    def is_done(self):
        return self.is_said and (self.options.task == "tell" or self.is_quiet(1))


class Sending(Session):
    """`send`: asks for permission, sends the records of a file and its end, and waits for the hub's word."""

    def __init__(self, options):
        self.file = wire.file_of(options.letter, options.number, (options.user, options.node), options.to)
        self.name, self.state, self.place = f"{options.node}.{options.number}", "idle", 0
        super().__init__(options)

    def take(self, rcb, srcb, record):
        super().take(rcb, srcb, record)
        if srcb == SYSOUT_1:
            self.state = NEXT_STATE.get((self.state, rcb), self.state)

    def next_records(self):
        if self.state == "idle":
            self.state = "requested"
            return bytes([REQUEST, SYSOUT_1, 0x00])
        if self.state == "aborting":
            self.state = "cancelled"
            return bytes([SYSOUT_1, wire.DATA, 0x40])
        return self.next_lines() if self.state == "sending" and wire.goes_on(self.hub_fcs, SYSOUT_1) else b""

    def next_lines(self):
        """As many records of the file as have room in a block; after the last one its end, a record without bytes."""
        records = b""
        while self.place <= len(self.file):
            srcb, record = self.file[self.place] if self.place < len(self.file) else (wire.DATA, b"")
            spelled = wire.spelled(SYSOUT_1, srcb, record)
            if 3 + len(records) + len(spelled) + 1 > self.size:
                return records
            records += spelled
            self.place += 1
        self.state = "at its end"
        return records

    def is_done(self):
        """The hub's notice for the sender may come after its refusal."""
        return self.state == "transmitted" or (self.state in BAD_ENDS and self.is_quiet(1))

    def tell_outcome(self):
        if self.state != "transmitted":
            raise Trouble(f"{self.name} {BAD_ENDS.get(self.state, 'was cut off')}; nothing of it is kept")
        print(f"{self.name} was transmitted: {len(self.file) - 3} lines for {'@'.join(self.options.to)}")


class Receiving(Session):
    """`receive`: permits each request, stores each file that comes whole, and says that it is complete."""

    def __init__(self, options):
        options.folder.mkdir(parents=True, exist_ok=True)
        self.coming, self.answers, self.stored = {}, b"", 0  # the records of each stream's file
        super().__init__(options)

    def take(self, rcb, srcb, record):
        if rcb == REQUEST:
            self.coming[srcb] = []
            self.answers += bytes([PERMISSION, srcb, 0x00])
        elif rcb not in self.coming:
            super().take(rcb, srcb, record)
        elif record is None:
            del self.coming[rcb]
            print("a file was given up by the hub", flush=True)
        elif record:
            self.coming[rcb].append((srcb, record))
        else:
            self.store(self.coming.pop(rcb))
            self.answers += bytes([COMPLETE, rcb, 0x00])

    def store(self, file):
        """Writes the lines of a file under its name, and nothing over another one."""
        path, lines = self.options.folder / wire.name_of(file), wire.text_of(file)
        while path.exists():
            path = path.with_name(path.name + ".again")
        path.write_text("".join(lines), encoding="utf-8")
        self.stored += 1
        sender, receiver = wire.users_of(file)
        print(f"{path}: {len(lines)} lines from {sender} for {receiver}", flush=True)

    def next_records(self):
        records, self.answers = self.answers, b""
        return records

    def is_done(self):
        return not self.answers and self.is_quiet(self.options.wait)

    def tell_outcome(self):
        print(f"{self.stored} files")


SESSIONS = {"listen": Session, "tell": Saying, "command": Saying, "send": Sending, "receive": Receiving}


def name(text):
    if not re.fullmatch("[A-Za-z0-9$#@]{1,8}", text):
        raise ValueError
    return text.upper()


def destination(text):
    user, _, node = text.rpartition("@")
    return name(user), name(node)


def job_number(text):
    if not 1 <= int(text) <= 65535:
        raise ValueError
    return int(text)


def options_of_command_line():
    parser = argparse.ArgumentParser(description=__doc__, formatter_class=argparse.RawDescriptionHelpFormatter)
    parser.add_argument("--host", default="127.0.0.1", help="where the hub listens; 127.0.0.1 if left out")
    parser.add_argument("--port", type=int, required=True, help="the port of the line")
    parser.add_argument("--node", type=name, required=True, help="the node of the line, as which the peer signs on")
    parser.add_argument("--user", type=name, default="OPERATOR", help="who speaks; OPERATOR if left out")
    parser.add_argument("--hub", type=name, help="the hub's name, if it is to be checked")
    parser.add_argument("--password", type=name, help="the password of the line, if it has one")
    parser.add_argument("--tcp", action="store_true", help="speaks NJE over TCP/IP; with the hub's name")
    parser.add_argument("--accept", action="store_true", help="with --tcp: the hub dials this port")
    tasks = parser.add_subparsers(dest="task", required=True)
    tasks.add_parser("listen", help="prints what is said to the node")
    tell = tasks.add_parser("tell", help="says a message to a user of another node")
    tell.add_argument("to", type=destination, metavar="USER@NODE")
    tell.add_argument("words", nargs="+", metavar="TEXT")
    command = tasks.add_parser("command", help="gives the hub a command, and prints its replies")
    command.add_argument("words", nargs="+", metavar="WORD")
    send = tasks.add_parser("send", help="sends a text file to a user of another node")
    send.add_argument("letter", type=pathlib.Path, metavar="FILE")
    send.add_argument("to", type=destination, metavar="USER@NODE")
    send.add_argument("--number", type=job_number, default=int(time.time()) % 65535 + 1, help="the job's number")
    receive = tasks.add_parser("receive", help="stores the files that wait for the node")
    receive.add_argument("folder", type=pathlib.Path, metavar="FOLDER")
    receive.add_argument("--wait", type=float, default=3, help="ends when nothing came for so many seconds; 3")
    options = parser.parse_args()
    if options.tcp and not options.hub:
        parser.error("--tcp wants --hub")
    if options.accept and not options.tcp:
        parser.error("--accept wants --tcp")
    return options


def main():
    options = options_of_command_line()
    try:
        SESSIONS[options.task](options).run()
    except Trouble as why:
        sys.exit(f"peer: {why}")
    except OSError as why:
        sys.exit(f"peer: {why.filename}: {why.strerror}")
    except KeyboardInterrupt:
        sys.exit("peer: ended")


if __name__ == "__main__":
    main()
