"""Writes what Hercules needs to sign on to a hub by its 2703 and to ask for LIST: see docs/HERCULES.md.

    python3 examples/hercules_list.py FOLDER PORT

Into FOLDER go `core.bin`, a core image of an S/370 with a channel program and the few instructions that start it; `hercules.cnf`, a
configuration with one line, number 040, that connects to PORT of this machine; and `hercules.rc`, commands that load the image, start it and show
what was read.
"""

import pathlib
import socket
import struct
import sys

LINE = 0x040

# The line's commands.
WRITE, READ, ENABLE, DISABLE = 0x01, 0x02, 0x27, 0x2F

# The flags of a command: another one follows; its data may be shorter than said.
CHAINED, ANY_LENGTH = 0x40, 0x20

# Places in storage: the program, its channel program, the bytes that it writes, and where each of its three reads goes.
CODE, CHANNEL_PROGRAM, DATA, READS = 0x400, 0x500, 0x600, (0x900, 0xA00, 0xB00)

# What the 2703 is given to write. It doubles a 10 inside a transparent text by itself, in the command that begins with 10 02 alone; so the
# text is written together with its 10 02, and its 10 26 apart from it.
CONTACT = bytes.fromhex("012d")
TEXT_BEGINS = bytes.fromhex("1002")
TEXT_ENDS = bytes.fromhex("1026")
SIGN_ON = bytes.fromhex("a08fcff0c929d3e8d6d54040404001" + "00" * 6 + "0400" + "40" * 16 + "00" * 5 + "00")
LIST = bytes.fromhex("808fcf9a80caa0770004c2e4d9c5c1e482c500c1d5d5c184c4d3e8d6d584c500d3c9e2e30000")


def channel_program():
    """The commands, and the bytes that they write."""
    steps, data = [(ENABLE, b"")], b""
    for written in ([CONTACT], [TEXT_BEGINS + SIGN_ON, TEXT_ENDS], [TEXT_BEGINS + LIST, TEXT_ENDS]):
        steps += [(WRITE, piece) for piece in written] + [(READ, None)]
    steps.append((DISABLE, b""))
    commands, reads = b"", iter(READS)
    for step, (code, piece) in enumerate(steps):
        flags = ANY_LENGTH | (CHAINED if step + 1 < len(steps) else 0)
        if piece is None:
            place, count = next(reads), 0x100
        else:
            place, count = DATA + len(data), max(1, len(piece))
            data += piece
        commands += struct.pack(">BBHBBH", code, place >> 16, place & 0xFFFF, flags, 0, count)
    return commands, data


def image():
    """Storage from 0 on."""
    core = bytearray(0xC00)

    def put(place, more):
        core[place : place + len(more)] = more

    commands, data = channel_program()
    assert len(commands) <= DATA - CHANNEL_PROGRAM and len(data) <= READS[0] - DATA
    put(CHANNEL_PROGRAM, commands)
    put(DATA, data)
    # Where to begin after a restart, and what a program check loads: a wait with an address that says so.
    put(0x00, bytes(4) + struct.pack(">I", CODE))
    put(0x68, bytes.fromhex("000200000000dead"))
    # The address of the channel program, where the channel looks for it.
    put(0x48, struct.pack(">I", CHANNEL_PROGRAM))
    put(
        CODE,
        struct.pack(">HH", 0x9C00, LINE)  # SIO  the line
        + bytes.fromhex("47700418")  # BC   7, it was not started
        + struct.pack(">HH", 0x9D00, LINE)  # TIO  the line
        + bytes.fromhex("47200408")  # BC   2, it is still busy: ask again
        + bytes.fromhex("47100418")  # BC   1, it is gone
        + bytes.fromhex("82000420")  # LPSW done
        + bytes.fromhex("82000428")  # LPSW failed
    )
    put(0x420, bytes.fromhex("0002000000000000"))
    put(0x428, bytes.fromhex("0002000000000bad"))
    return core


def main():
    if len(sys.argv) != 3:
        sys.exit(__doc__)
    folder, port = pathlib.Path(sys.argv[1]), int(sys.argv[2])
    with socket.create_server(("127.0.0.1", 0)) as unused:
        own = unused.getsockname()[1]
    (folder / "core.bin").write_bytes(image())
    (folder / "hercules.cnf").write_text(
        "ARCHMODE S/370\nCPUSERIAL 000001\nCPUMODEL 3033\nMAINSIZE 2\nNUMCPU 1\nSYSEPOCH 1900\n"
        f"{LINE:04X} 2703 DIAL=NO LPORT={own} RHOST=127.0.0.1 RPORT={port}\n"
    )
    shows = "".join(f"r {place:X}.90\n" for place in READS)
    (folder / "hercules.rc").write_text(f"loadcore {folder.resolve()}/core.bin 0\nrestart\npause 10\npsw\nr 40.10\n{shows}quit\n")


if __name__ == "__main__":
    main()
