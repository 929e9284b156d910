"""Shows whether two lines of the emulator Hercules exchange a file while other lines are busy.

    python3 examples/trials/hercules_file.py PROGRAM [--old] [--busy 0 8] [--times 3]

It needs Hercules 3.13 (Debian: `apt-get install hercules`). A mainframe with two 2703 lines runs two channel
programs, one after the other. The first makes contact and signs on as LYON, asks for leave to send a file for METZ,
and sends it in one block; the second signs on as METZ on the other line, takes the file and acknowledges it. The
file's cards have each byte from 00 to FF, so also bytes 10 that the adapter doubles. Beside them so many lines of
another customer send blocks without records, each as soon as the last one is answered.

The table has a row for each run: how many busy lines; how many of the eleven reads got what is wanted; whether the
file came as it was sent; the status of each channel program, C00 being that all its commands were done; and the first
read that was wrong, by its line and number, with what it got. What is wanted: 11 reads right in each run.
"""

import os
import pathlib
import struct
import subprocess
import sys
import tempfile
import time

sys.path.insert(0, str(pathlib.Path(__file__).resolve().parent.parent))

from hercules_list import ANY_LENGTH, CHAINED, CONTACT, DISABLE, ENABLE, READ, TEXT_BEGINS, TEXT_ENDS, WRITE
from frames import ACK0, CARD, COMPLETE, CONTACT, PERMISSION, REQUEST, SYSOUT, file_of, records_of, sign_on, spelled
from hub import Hub, customer_of, free_ports, line_of, options_of, row
from peers import Busy, Crowd

WIDTHS = (5, 6, 6, 6, 6, 30)

# The two lines' numbers on the mainframe, and the nodes that they sign on as.
LINES = ((0x040, "LYON"), (0x041, "METZ"))

# Places in storage: the instructions, the words that they load, where each channel program's status is kept, the
# channel programs, what they write, and what they read, each read with so much room.
CODE, WORDS, STATUSES, PROGRAMS, DATA, READS, ROOM = 0x400, 0x600, 0x700, 0x1000, 0x2000, 0x8000, 0x800

END = 0x10000

# The file, and its records and its end as they stand in a block.
FILE = file_of(0x1010, "LYON", "ANNA", "METZ", "PAUL", [bytes(range(at, at + 64)) for at in range(0, 256, 64)])
SENT = b"".join(bytes([SYSOUT, srcb]) + spelled(record) for srcb, record in [*FILE, (CARD, b"")])


def block(count, records):
    return bytes([0x80 + count]) + b"\x8f\xcf" + records + b"\x00"


def sign_on_text(srcb, node):
    return sign_on(srcb, node)[2:-2]


def transparent(text):
    """A text in two commands: the adapter doubles a 10 in the one that begins with 10 02."""
    return [TEXT_BEGINS + text, TEXT_ENDS]


def is_text(wanted):
    """That a read got this text, as the adapter leaves it."""
    return lambda got: got.startswith(TEXT_BEGINS + wanted + TEXT_ENDS)


def is_ack0(got):
    return got.startswith(ACK0)


def is_file(got):
    """That a read got the block with the file, however its records are spelled."""
    try:
        records = records_of(got[2:])
    except IndexError:
        return False
    wanted = [(SYSOUT, srcb, record) for srcb, record in [*FILE, (CARD, b"")]]
    return got.startswith(TEXT_BEGINS + b"\x81") and records == wanted


# What each line writes, and what the read after it is to get.
DIALOGUES = (
    (
        ([CONTACT], is_ack0),
        (transparent(sign_on_text(0xC9, "LYON")), is_text(sign_on_text(0xD1, "BUREAU"))),
        (transparent(block(0, bytes([REQUEST, SYSOUT, 0]))), is_text(block(0, bytes([PERMISSION, SYSOUT, 0])))),
        (
            transparent(block(1, SENT)),
            is_text(block(1, bytes([COMPLETE, SYSOUT, 0]))),
        ),
        (transparent(block(2, b"")), is_ack0),
    ),
    (
        ([CONTACT], is_ack0),
        (transparent(sign_on_text(0xC9, "METZ")), is_text(sign_on_text(0xD1, "BUREAU"))),
        ([ACK0], is_text(block(0, bytes([REQUEST, SYSOUT, 0])))),
        (transparent(block(0, bytes([PERMISSION, SYSOUT, 0]))), is_file),
        (transparent(block(1, bytes([COMPLETE, SYSOUT, 0]))), is_ack0),
        (transparent(block(2, b"")), is_ack0),
    ),
)


def place_of_read(line, number):
    return READS + (8 * line + number) * ROOM


def channel_program(line, data):
    """The commands of a line, and all that is written so far."""
    steps = [(ENABLE, b"")]
    for number, (written, _) in enumerate(DIALOGUES[line]):
        steps += [(WRITE, piece) for piece in written] + [(READ, number)]
    steps.append((DISABLE, b""))
    commands = b""
    for at, (code, piece) in enumerate(steps):
        flags = ANY_LENGTH | (CHAINED if at + 1 < len(steps) else 0)
        if code == READ:
            place, count = place_of_read(line, piece), ROOM
        else:
            place, count = DATA + len(data), max(1, len(piece))
            data += piece
        commands += struct.pack(">BBHBBH", code, place >> 16, place & 0xFFFF, flags, 0, count)
    return commands, data


def instructions():
    """Each line's channel program is started, waited for, and its status kept; then the processor waits."""
    failed, found = CODE + 0x100, b""
    for at, (number, _) in enumerate(LINES):
        here = CODE + len(found)
        found += struct.pack(">HHH", 0xD203, 0x0048, WORDS + 4 * at)  # MVC  the channel program's address
        found += struct.pack(">HH", 0x9C00, number)  # SIO  the line
        found += struct.pack(">HH", 0x4770, failed)  # BC   7, it was not started
        found += struct.pack(">HH", 0x9D00, number)  # TIO  the line
        found += struct.pack(">HH", 0x4720, here + 14)  # BC   2, it is still busy: ask again
        found += struct.pack(">HH", 0x4710, failed)  # BC   1, it is gone
        found += struct.pack(">HHH", 0xD207, STATUSES + 8 * at, 0x0040)  # MVC  its status
    found += struct.pack(">HH", 0x8200, WORDS + 0x20)  # LPSW done
    return found.ljust(0x100, b"\x00") + struct.pack(">HH", 0x8200, WORDS + 0x28)  # LPSW failed


def image():
    core, data = bytearray(END), b""

    def put(place, more):
        core[place : place + len(more)] = more

    for line in range(len(LINES)):
        commands, data = channel_program(line, data)
        put(PROGRAMS + 0x800 * line, commands)
        put(WORDS + 4 * line, struct.pack(">I", PROGRAMS + 0x800 * line))
    put(DATA, data)
    put(0x00, bytes(4) + struct.pack(">I", CODE))
    put(0x68, bytes.fromhex("000200000000dead"))
    put(CODE, instructions())
    put(WORDS + 0x20, bytes.fromhex("0002000000000000" "0002000000000bad"))
    put(STATUSES, b"\xff" * 16)
    return bytes(core)


def run_hercules(folder, ports):
    """Runs the mainframe, and gives its storage once both lines are done, or as it is after half a minute."""
    own = free_ports(2)
    (folder / "core.bin").write_bytes(image())
    (folder / "hercules.cnf").write_text(
        "ARCHMODE S/370\nCPUSERIAL 000001\nCPUMODEL 3033\nMAINSIZE 2\nNUMCPU 1\nSYSEPOCH 1900\n"
        + "".join(
            f"{number:04X} 2703 DIAL=NO LPORT={mine} RHOST=127.0.0.1 RPORT={port}\n"
            for (number, _), mine, port in zip(LINES, own, ports)
        )
    )
    # Storage is saved where the processor waits, so as soon as both lines are done, and else once it is stopped.
    saves = "".join(f"pause 2\nsavecore {folder}/saved.{at} 0 {END - 1:X}\n" for at in range(15))
    saves += f"stop\npause 1\nsavecore {folder}/saved.15 0 {END - 1:X}\n"
    (folder / "hercules.rc").write_text(f"loadcore {folder}/core.bin 0\nrestart\n{saves}quit\n")
    with (folder / "said").open("wb") as said:
        process = subprocess.Popen(
            ["hercules", "-d", "-f", str(folder / "hercules.cnf")],
            env={**os.environ, "HERCULES_RC": str(folder / "hercules.rc")},
            stdin=subprocess.DEVNULL,
            stdout=said,
            stderr=said,
        )
        try:
            return saved(folder, time.monotonic() + 45)
        finally:
            process.kill()
            process.wait()


def saved(folder, end):
    """The storage that was saved first, nothing where none is in time."""
    while time.monotonic() < end:
        for file in folder.glob("saved.*"):
            if file.stat().st_size >= END:
                return file.read_bytes()
        time.sleep(0.05)
    return b""


def judged(core):
    """How many reads are right, whether the file came, and the first that is wrong."""
    right, file, wrong = 0, False, ""
    for line, dialogue in enumerate(DIALOGUES):
        for number, (_, is_right) in enumerate(dialogue):
            place = place_of_read(line, number)
            got = core[place : place + ROOM]
            if is_right(got):
                right += 1
                file = file or is_right is is_file
            elif not wrong:
                wrong = f"{LINES[line][1]} {number + 1}: {got.rstrip(bytes(1))[:12].hex() or 'nothing'}"
    return right, file, wrong


def trial(options, busy):
    ports = free_ports(2 + busy)
    own = [line_of(f"a{at}", node, port=ports[at]) for at, (_, node) in enumerate(LINES)]
    others = [line_of(f"b{at}", f"N{at}", port=ports[2 + at]) for at in range(busy)]
    routes = [(node, f"a{at}") for at, (_, node) in enumerate(LINES)]
    table = "capacity = 200\n" + customer_of("ACME", "BUREAU", 100, own, routes)
    table += customer_of("BOLT", "BUREAU", 100, others, [])
    with Hub(options, table) as hub, tempfile.TemporaryDirectory() as folder:
        with Crowd(lambda loop: [Busy(loop, port, f"N{at}") for at, port in enumerate(ports[2:])]):
            core = run_hercules(pathlib.Path(folder), ports[:2])
            if len(core) < END:
                said = pathlib.Path(folder, "said").read_text(errors="replace")
                sys.exit("Hercules saved no storage:\n" + said[-2000:])
            right, file, wrong = judged(core)
            statuses = [core[STATUSES + 8 * at + 4 : STATUSES + 8 * at + 6].hex().upper() for at in range(2)]
            wrong = wrong if hub.runs() else "the program has ended"
            row(WIDTHS, busy, right, "yes" if file else "no", *statuses, wrong)


def main():
    options = options_of(
        __doc__,
        (("--busy",), {"type": int, "nargs": "*", "default": [0, 8], "help": "how many busy lines"}),
        (("--times",), {"type": int, "default": 3, "help": "how many runs of each"}),
    )
    row(WIDTHS, "busy", "right", "file", *(node for _, node in LINES), "first wrong read")
    for busy in options.busy:
        for _ in range(options.times):
            trial(options, busy)


if __name__ == "__main__":
    main()
