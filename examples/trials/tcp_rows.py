"""Shows what a hub answers on a line over TCP/IP, and what its log says, case by case, as docs/PROTOCOL.md has it.

    python3 examples/trials/tcp_rows.py PROGRAM [PLAY ..] [--quick]

Each row has a hub of its own, with LYON's line, over TCP/IP. The plays:

- `opens`: who comes to the line's port: the right OPEN, a second one, one while the line is stopped, OPENs with another
  name, other records, half a record, and nothing. In the row are the answers, and what the log says;
- `dials`: the hub dials, and is answered ACK, NAK, another record, or nothing;
- `ttrs`: in a session, TTRs and TTBs of all kinds, after which the connection goes on, or has ended for this;
- `writes`: what goes out of what the line writes: contacts, blocks that are said again, answers without a block, what
  a peer is asked who says nothing, and the keep-alive;
- `pieces`: a contact, a sign-on and blocks in pieces of one byte each, all of them behind an OPEN in one piece, and 200
  blocks in one TTB;
- `ends`: a sign-on that doesn't fit is answered by a sign-off, and after any end the last words come before the end,
  which is in order, and the connection is gone a second later.

With `--quick` the rows are left out that take ten seconds or more. The last line says "right", or the script ends with
status 1 and says how many rows are wrong.
"""

import contextlib
import socket
import sys
import time

from console import ConsoleHub
from frames import OUT_OF_SEQUENCE, Text, command, ebcdic, message, records_of, sign_on
from hub import connected, customer_of, free_ports, line_of, options_of, row
from ttbs import ACK, ACK0, CALL, HUB, NAK, NODE, OPEN, RECORD, SIGN_OFF, SOON, Link
from ttbs import block, control, in_session, opened, text_of, ttb

WIDTHS = (46, 72, 5)

# How long a control record is waited for, and for how long nothing is sent before a keep-alive, in seconds.
PATIENCE, KEEP_ALIVE = 10.0, 60.0

# The longest text that a line is given.
LONGEST = 4096


def tables(port, **more):
    line = line_of("a1", NODE, port=port, protocol="tcp", **more)
    return "capacity = 100\n" + customer_of("ACME", HUB, 100, [line], [(NODE, "a1")])


def dialling(port):
    line = line_of("a1", NODE, "call", connect=f"127.0.0.1:{port}", protocol="tcp")
    return "capacity = 100\n" + customer_of("ACME", HUB, 100, [line], [(NODE, "a1")])


@contextlib.contextmanager
def hub_of(options, table):
    with ConsoleHub(options, table) as hub:
        hub.serves()
        yield hub


@contextlib.contextmanager
def session_of(options):
    """A hub, a link in a session with it, and the word "session" or what came in its place."""
    port = free_ports(1)[0]
    with hub_of(options, tables(port)) as hub:
        link, state = in_session(port)
        with link:
            yield hub, link, state


def logs(hub, words, seconds=SOON):
    """Whether a line of the log has these words within so many seconds."""
    end = time.monotonic() + seconds
    while not any(words in line for line in hub.log()):
        if time.monotonic() > end or not hub.runs():
            return False
        time.sleep(0.02)
    return True


def show(what, found, wanted):
    right = found == wanted
    row(WIDTHS, what, found, "" if right else "WRONG")
    if not right:
        print(f"    wanted: {wanted}")
    return right


def end_of(link, seconds=SOON):
    """How the other end ended the connection, in words."""
    if not link.has_ended(seconds):
        return "no end"
    return "a reset" if link.was_reset else "an end"


# ---- who comes


def opens(options):
    of_paris, for_other = "refused: an OPEN of PARIS for BUREAU", "refused: an OPEN of LYON for HUB2"
    web = ebcdic("GET / HTTP/1.1 HOST: BUREAU.EXAMPLE".upper())[:RECORD]
    contact = ttb(CALL)
    rows = [
        ("the right OPEN", control(OPEN, NODE, HUB), f"ACK {HUB} {NODE}", "connected from"),
        ("an OPEN of another node", control(OPEN, "PARIS", HUB), f"NAK {HUB} PARIS 1, an end", of_paris),
        ("an OPEN for another hub", control(OPEN, NODE, "HUB2"), f"NAK HUB2 {NODE} 1, an end", for_other),
        # bytes behind a refused OPEN aren't read: the answer comes before the reset that they cause
        ("the same with a contact behind it", control(OPEN, NODE, "HUB2") + contact, f"NAK HUB2 {NODE} 1, a reset", for_other),
        ("an ACK", control(ACK, NODE, HUB), f"NAK {HUB} {NODE} 1, an end", "no OPEN"),
        ("33 other bytes", web, "NAK 1, an end", "no OPEN"),
        ("32 bytes and an end", control(OPEN, NODE, HUB)[:-1], "an end", "no OPEN"),
        ("a bisync contact, and no more", CALL, "2 bytes wait", ""),
    ]
    found = []
    for what, sent, wanted, said in rows:
        port = free_ports(1)[0]
        with hub_of(options, tables(port)) as hub, Link(connected(port)) as link:
            link.sends(sent)
            if len(sent) == RECORD - 1:
                link.peer.shutdown(socket.SHUT_WR)
            shown = answer_to(link) if len(sent) > 2 else f"{'2 bytes wait' if not link.has_ended(1) else 'an end'}"
            if sent == web:
                shown = shown[:3] + shown[-10:]  # the names are those that came, whatever they are
            found.append(show(what, shown + ("" if logs(hub, said) else ", not in the log"), wanted))
    plays = [second_open, second_in_session, stopped, often] + ([] if options.quick else [late, taken_over])
    return found + [each(options) for each in plays]


def answer_to(link):
    """The answer to a control record, and the end if it was no ACK."""
    answer = link.record()
    return answer if answer.startswith("ACK") or answer == "an end" else f"{answer}, {end_of(link)}"


def second_open(options):
    port = free_ports(1)[0]
    with hub_of(options, tables(port)) as hub:
        first, answer = opened(port)
        second, refusal = opened(port)
        with first, second:
            kept = first.ttr()
            told = logs(hub, "a second OPEN of LYON")
            shown = f"{answer}, {refusal}, {kept.hex() if kept else 'nothing'}{'' if told else ', not in the log'}"
            return show("a second OPEN, and what the first is sent", shown,
                        f"ACK {HUB} {NODE}, NAK {HUB} {NODE} 2, 1070")


def second_in_session(options):
    """A session that is up keeps its line, and is told so, once for each OPEN."""
    port = free_ports(1)[0]
    with hub_of(options, tables(port)) as hub:
        first, state = in_session(port)
        with first:
            found = []
            for _ in range(2):
                second, refusal = opened(port)
                with second:
                    kept = first.ttr()
                    found.append(f"{refusal} {end_of(second)} {kept.hex() if kept else 'nothing'}")
            first.sends(ttb(block(0)))
            goes_on = not first.has_ended(0.3) and not logs(hub, "session down", 0.1)
            shown = f"{state}, {', '.join(found)}, {'goes on' if goes_on else 'ended'}"
            return show("two OPENs while a session is up", shown,
                        f"session, {', '.join([f'NAK {HUB} {NODE} 2 an end 1070'] * 2)}, goes on")


def stopped(options):
    port = free_ports(1)[0]
    with hub_of(options, tables(port)) as hub:
        hub.prints("stop", "a1")
        link, answer = opened(port)
        with link:
            told = logs(hub, "an OPEN of LYON while stopped")
            first = answer + ("" if told else ", not in the log")
        hub.prints("start", "a1")
        link, answer = opened(port)
        with link:
            return show("an OPEN while stopped, and one behind it", f"{first}, {answer}",
                        f"NAK {HUB} {NODE} 4, ACK {HUB} {NODE}")


def often(options):
    """Of OPENs that are refused the log tells once a second."""
    port, begin, naks = free_ports(1)[0], time.monotonic(), 0
    with hub_of(options, tables(port)) as hub:
        while time.monotonic() < begin + 2:
            link, answer = opened(port, "PARIS")
            with link:
                naks += answer == f"NAK {HUB} PARIS 1"
        seconds = time.monotonic() - begin
        told = sum("refused: an OPEN" in line for line in hub.log())
        shown = f"{'more than 20' if naks > 20 else naks} NAKs, {'one a second' if 2 <= told <= seconds + 1 else told} in the log"
        return show("OPENs of PARIS for two seconds", shown, "more than 20 NAKs, one a second in the log")


def late(options):
    port = free_ports(1)[0]
    with hub_of(options, tables(port)) as hub, Link(connected(port)) as link:
        begin = time.monotonic()
        ended = link.has_ended(PATIENCE + SOON)
        seconds = round(time.monotonic() - begin)
        told = "" if logs(hub, "no OPEN") else ", not in the log"
        shown = f"{'an end' if ended else 'no end'} after {seconds} s{told}"
        return show("nothing", shown, "an end after 10 s")


def taken_over(options):
    """A connection without a session for ten seconds loses the line to the next OPEN."""
    port = free_ports(1)[0]
    with hub_of(options, tables(port)):
        first, _ = opened(port)
        time.sleep(PATIENCE + 0.5)
        second, answer = opened(port)
        with first, second:
            return show("an OPEN ten seconds later", f"{answer}, {end_of(first)}", f"ACK {HUB} {NODE}, an end")


# ---- who is dialled


def dials(options):
    no_nje = "the peer doesn't speak NJE"
    rows = [
        ("NAK 1", control(NAK, NODE, HUB, 1), "the peer answered NAK 1 (it knows no link with these names)"),
        ("NAK 2", control(NAK, NODE, HUB, 2), "the peer answered NAK 2 (the link is active)"),
        ("NAK 4", control(NAK, NODE, HUB, 4), "the peer answered NAK 4 (not now)"),
        ("an OPEN", control(OPEN, NODE, HUB), no_nje),
        ("33 other bytes", b"\x01\x2d" + bytes(31), no_nje),
        ("32 bytes and an end", control(ACK, NODE, HUB)[:-1], no_nje),
    ]
    if not options.quick:
        rows.append(("nothing", b"", no_nje))
    return [answered(options, *each) for each in rows] + [acknowledged(options)]


def answered(options, what, sent, said):
    """The hub is answered so, and dials again."""
    with socket.create_server(("127.0.0.1", 0)) as listener:
        listener.settimeout(20)
        with hub_of(options, dialling(listener.getsockname()[1])) as hub, Link(listener.accept()[0]) as link:
            asked = link.record()
            link.sends(sent)
            if len(sent) == RECORD - 1:
                link.peer.shutdown(socket.SHUT_WR)
            told = logs(hub, said, SOON if sent else PATIENCE + SOON)
            ended = link.has_ended()
            begin = time.monotonic()
            with Link(listener.accept()[0]) as second:
                asked += f", {second.record()}" + ("" if time.monotonic() < begin + 1.5 else ", late")
            shown = f"{asked}{'' if told else ', not in the log'}{'' if ended else ', no end'}"
            return show(f"dialled, and answered {what}", shown, f"OPEN {HUB} {NODE}, OPEN {HUB} {NODE}")


def acknowledged(options):
    """The hub is answered ACK, makes contact and signs on; a keep-alive before its Ack0 would be one."""
    with socket.create_server(("127.0.0.1", 0)) as listener:
        listener.settimeout(20)
        with hub_of(options, dialling(listener.getsockname()[1])) as hub, Link(listener.accept()[0]) as link:
            said = [link.record()]
            link.sends(control(ACK, NODE, HUB))
            said.append((link.ttr() or b"").hex())
            link.sends(ttb(ACK0))
            said.append((link.ttr() or b"")[:7].hex())
            link.sends(ttb(text_of(sign_on(0xD1, NODE))))
            told = logs(hub, "connected to") and logs(hub, "session up with LYON")
            link.sends(ttb(block(0)))
            goes_on = not link.has_ended(0.3)
            said.append(f"{'session' if told else 'no session'}{'' if goes_on else ', ended'}")
            return show("dialled, and answered ACK", ", ".join(said),
                        f"OPEN {HUB} {NODE}, 012d, 1002a08fcff0c9, session")


# ---- TTRs and TTBs


def ttrs(options):
    goes_on, text = "goes on", block(0)
    rows = [
        ("an empty block", ttb(text), goes_on),
        ("a block of 4,096 bytes", ttb(block(0).ljust(2 + LONGEST, b"\x10")), goes_on),
        ("a keep-alive", ttb(ACK0), goes_on),
        ("a TTB without TTRs", ttb(), goes_on),
        ("heads with flags", b"\x80\xff" + ttb(text)[2:4] + b"\xff" * 4 + b"\x90\xff" + ttb(text)[10:], goes_on),
        ("a contact", ttb(CALL), "a TTR 01 2D"),
        ("a NAK", ttb(b"\x3d"), "a TTR 3D"),
        ("an EOT", ttb(b"\x37"), "a TTR 37"),
        ("a text without bytes", ttb(b"\x10\x02"), "a TTR 10 02"),
        ("other data", ttb(b"\xc1\xc2\xc3"), "a TTR C1 C2 .."),
        ("a text of 4,097 bytes", ttb(block(0).ljust(3 + LONGEST, b"\x00")), "a TTR of 4,099 bytes"),
        ("a text that is longer", ttb(b"\x10\x02" + bytes(4100)), "a TTR of 4,102 bytes"),
        ("a TTB of 11 bytes", b"\x00\x00\x00\x0b" + bytes(8), "a TTB of 11 bytes"),
        ("bytes behind an end", b"\x00\x00\x00\x24" + bytes(32), "a TTB's end with 24 bytes left"),
        ("a TTR that is longer than its TTB", b"\x00\x00\x00\x14" + bytes(4) + b"\x00\x00\x00\x05" + bytes(8),
         "a TTR of 5 bytes with 4 bytes left"),
        ("a block that doesn't read", ttb(b"\x10\x02\x80\x8f\xcf\x99"), "a block that doesn't read"),
        ("the same behind one that does", ttb(text, b"\x10\x02\x81\x8f\xcf\x99"), "a block that doesn't read"),
    ]
    return [given(options, *each) for each in rows]


def given(options, what, sent, wanted):
    with session_of(options) as (hub, link, state):
        if state == "session":
            link.sends(sent)
            if wanted == "goes on":
                link.sends(ttb(block(1 if block(0)[2:] in sent else 0)))
                state = wanted if not link.has_ended(0.3) and not logs(hub, "failed", 0.1) else "ended"
            else:
                ended, told = link.has_ended(), logs(hub, f"failed: {wanted}")
                state = wanted if ended and told else f"{'ended' if ended else 'no end'}, {hub.log()[-1]}"
        return show(what, state, wanted)


# ---- what the line writes


def writes(options):
    plays = [nothing_for_nothing, said_once] + ([] if options.quick else [keeps_alive, no_sign_on, no_answer])
    return [each(options) for each in plays]


def nothing_for_nothing(options):
    """A line that has nothing to say says nothing: TCP has brought the block."""
    with session_of(options) as (_, link, state):
        link.sends(*(ttb(block(count)) for count in range(20)))
        found = link.bytes_within(1, 3)
        return show("20 empty blocks, and three seconds", f"{state}, {found.hex() or 'nothing'}", "session, nothing")


def said_once(options):
    """A block that comes again has the line say its last one again, which goes out once."""
    with session_of(options) as (_, link, state):
        asked = ttb(block(0, command(HUB, NODE, "ANNA", "LIST")))
        link.sends(asked)
        reply = link.ttr() or b""
        link.sends(asked)
        again = link.bytes_within(1, 1)
        link.sends(ttb(block(1, command(HUB, NODE, "ANNA", "LIST"))))
        other = link.ttr() or b""
        shown = f"{state}, {reply[2:3].hex()}, {again.hex() or 'nothing'}, {other[2:3].hex()}"
        return show("a block twice, and another", shown, "session, 80, nothing, 81")


def keeps_alive(options):
    """Once a minute a line that has nothing to send says that it is there."""
    with session_of(options) as (hub, link, state):
        begin, moments = time.monotonic(), []
        for _ in range(2):
            found = link.ttr(KEEP_ALIVE + 5)
            moments.append(f"{found.hex() if found else 'nothing'} at {round((time.monotonic() - begin) / 10) * 10} s")
        up = "" if not logs(hub, "session down", 0.1) else ", session down"
        return show("a session at rest", f"{state}, {', '.join(moments)}{up}", "session, 1070 at 60 s, 1070 at 120 s")


def no_sign_on(options):
    """Who doesn't sign on behind its contact is asked in vain, and nothing of that goes out."""
    port = free_ports(1)[0]
    with hub_of(options, tables(port)) as hub:
        link, answer = opened(port)
        with link:
            link.sends(ttb(CALL))
            contact, begin = link.ttr(), time.monotonic()
            ended = link.has_ended(20)
            seconds, told = time.monotonic() - begin, logs(hub, "closed")
            shown = f"{answer}, {contact and contact.hex()}, {'an end' if ended else 'no end'}{'' if told else ', not in the log'}"
            right = show("no sign-on behind a contact", shown, f"ACK {HUB} {NODE}, 1070, an end")
            return show("  it came after", f"{'12 to 16 s' if 12 <= seconds <= 16 else round(seconds, 1)}", "12 to 16 s") and right


def no_answer(options):
    """The contact of the hub is said once, and one that isn't answered is told; the hub waits on."""
    with socket.create_server(("127.0.0.1", 0)) as listener:
        listener.settimeout(20)
        with hub_of(options, dialling(listener.getsockname()[1])) as hub, Link(listener.accept()[0]) as link:
            link.record()
            link.sends(control(ACK, NODE, HUB))
            call = link.ttr()
            more = link.bytes_within(1, 15)
            told = "told" if logs(hub, "the peer answers no contact") else "not told"
            link.sends(ttb(ACK0))
            signed = (link.ttr() or b"")[:7]
            shown = f"{call and call.hex()}, {more.hex() or 'nothing more'}, {told}, {signed.hex()}"
            return show("the hub's contact, answered 15 s later", shown, "012d, nothing more, told, 1002a08fcff0c9")


# ---- pieces


def pieces(options):
    return [each(options) for each in (a_byte_a_time, all_at_once, many_in_a_ttb)]


def a_byte_a_time(options):
    port = free_ports(1)[0]
    with hub_of(options, tables(port)), Link(connected(port)) as link:
        in_bytes(link, control(OPEN, NODE, HUB))
        answer = link.record()
        in_bytes(link, ttb(CALL))
        contact = link.ttr()
        in_bytes(link, ttb(text_of(sign_on(0xC9, NODE))))
        signed = link.ttr()
        in_bytes(link, ttb(block(0), block(1, command(HUB, NODE, "ANNA", "LIST"))))
        reply = link.ttr() or b""
        shown = f"{answer}, {contact and contact.hex()}, {signed and signed[:3].hex()}, {reply[:3].hex()}"
        return show("a byte a time", shown, f"ACK {HUB} {NODE}, 1070, 1002a0, 100280")


def in_bytes(link, data):
    """Sends a byte a time, each in a packet of its own, of which the hub reads many or one."""
    for at in range(len(data)):
        link.sends(data[at : at + 1])
        if at % 8 == 0:
            time.sleep(0.002)


def all_at_once(options):
    """What stands behind an OPEN in the same piece is for the line."""
    port = free_ports(1)[0]
    with hub_of(options, tables(port)) as hub, Link(connected(port)) as link:
        asked = ttb(block(0, command(HUB, NODE, "ANNA", "LIST")))
        link.sends(control(OPEN, NODE, HUB) + ttb(CALL, text_of(sign_on(0xC9, NODE))) + asked)
        found = [link.record(), *((link.ttr() or b"")[:3].hex() for _ in range(3))]
        up = "" if logs(hub, "session up with LYON") else ", no session"
        return show("all in one piece", ", ".join(found) + up, f"ACK {HUB} {NODE}, 1070, 1002a0, 100280")


def many_in_a_ttb(options):
    """Each of 200 blocks in one TTB has a message for OSLO, on a line over TCP/IP too."""
    port, other = free_ports(2)
    lines = [line_of("a1", NODE, port=port, protocol="tcp"), line_of("a2", "OSLO", port=other, protocol="tcp")]
    table = "capacity = 100\n" + customer_of("ACME", HUB, 100, lines, [(NODE, "a1"), ("OSLO", "a2")])
    with hub_of(options, table):
        first, state = in_session(port)
        second, _ = opened(other, "OSLO")
        with first, second:
            second.sends(ttb(CALL), ttb(text_of(sign_on(0xC9, "OSLO"))))
            second.ttr(), second.ttr()
            said = [f"NUMBER {number}" for number in range(200)]
            records = [message("OSLO", "PAUL", NODE, text) for text in said]
            for at in range(0, 200, 50):  # of more the hub drops some, which are 64 at most on a line
                batch = [block(count, records[count]) for count in range(at, at + 50)]
                if at == 0:
                    came = []
                first.sends(ttb(*batch))
                came += messages_on(second, 50)
            right = show("200 blocks in four TTBs", f"{state}, {order_of(came, said)}", "session, all in their order")
    with session_of(options) as (_, link, state):
        link.sends(ttb(*(block(count) for count in range(199)), block(199, command(HUB, NODE, "ANNA", "LIST"))))
        reply = (link.ttr() or b"")[:3].hex()
        link.sends(ttb(block(200)))
        goes_on = "goes on" if not link.has_ended(0.3) else "ended"
        return show("200 blocks in a TTB", f"{state}, {reply}, {goes_on}", "session, 100280, goes on") and right


def messages_on(link, count):
    """The texts of so many messages that come on a link, or of as many as come."""
    found = []
    while len(found) < count and (data := link.ttr()):
        found += [one[30 : 30 + one[3]].decode("cp037") for rcb, _, one in records_of(Text(data[2:])) if rcb == 0x9A]
    return found


def order_of(came, said):
    if came == said:
        return "all in their order"
    return f"{len(came)} came, {len(set(said) - set(came))} are missing"


# ---- ends


def ends(options):
    plays = [wrong_password, right_password, out_of_sequence, signs_off, stops, shuts_down, lingers]
    return [each(options) for each in plays]


def wrong_password(options):
    port = free_ports(1)[0]
    with hub_of(options, tables(port, password="SECRET")) as hub:
        link, answer = opened(port)
        with link:
            link.sends(ttb(CALL), ttb(text_of(sign_on(0xC9, NODE, password="WRONG"))))
            said = [answer, *((link.ttr() or b"").hex() for _ in range(2)), end_of(link)]
            said.append("told" if logs(hub, "sign-on refused: its password doesn't fit") else "not told")
        again, answer = opened(port)  # an OPEN within the second behind it waits
        with again:
            said.append(answer)
        return show("a sign-on with a wrong password", ", ".join(said),
                    f"ACK {HUB} {NODE}, 1070, {SIGN_OFF.hex()}, an end, told, ACK {HUB} {NODE}")


def right_password(options):
    port = free_ports(1)[0]
    with hub_of(options, tables(port, password="SECRET")):
        link, state = in_session(port, password="SECRET")
        with link:
            return show("a sign-on with the right one", state, "session")


def out_of_sequence(options):
    """A block that is missing is told by E0, and that comes before the end."""
    with session_of(options) as (hub, link, state):
        link.sends(ttb(block(0), block(3)))
        data = link.ttr() or b""
        found = data[5] if len(data) > 5 else 0
        told = "told" if logs(hub, "a block of the peer was out of sequence") else "not told"
        shown = f"{state}, {found:02X}, {end_of(link)}, {told}"
        return show("a block is missing", shown, f"session, {OUT_OF_SEQUENCE:02X}, an end, told")


def signs_off(options):
    with session_of(options) as (hub, link, state):
        link.sends(ttb(block(0, b"\xf0\xc2")))
        told = "told" if logs(hub, "the peer signed off") else "not told"
        return show("the peer signs off", f"{state}, {end_of(link)}, {told}", "session, an end, told")


def stops(options):
    with session_of(options) as (hub, link, state):
        hub.prints("stop", "a1")
        told = "told" if logs(hub, "the operator stopped it") else "not told"
        return show("the line is stopped", f"{state}, {end_of(link)}, {told}", "session, an end, told")


def shuts_down(options):
    with session_of(options) as (hub, link, state):
        hub.process.terminate()
        return show("the hub is stopped", f"{state}, {end_of(link)}", "session, an end")


def lingers(options):
    """A peer that doesn't end its own side has the hub end all of it after a second; what it sends meanwhile goes."""
    with session_of(options) as (_, link, state):
        link.sends(ttb(block(0, b"\xf0\xc2")))
        ended, begin, count = end_of(link), time.monotonic(), 0
        with contextlib.suppress(ConnectionError):
            while time.monotonic() < begin + 5:
                link.peer.sendall(ttb(block(count)))
                count += 1
                time.sleep(0.05)
        seconds = time.monotonic() - begin
        shown = f"{state}, {ended}, {'gone after 1 s' if 0.8 <= seconds <= 1.6 else f'{seconds:.1f} s'}"
        return show("a peer that doesn't end its side", shown, "session, an end, gone after 1 s")


PLAYS = {play.__name__: play for play in (opens, dials, ttrs, writes, pieces, ends)}


def main():
    options = options_of(
        __doc__,
        (("--quick",), {"action": "store_true", "help": "leave out the rows that take ten seconds or more"}),
        (("plays",), {"nargs": "*", "metavar": "PLAY", "help": f"{', '.join(PLAYS)}; all where none is named"}),
    )
    row(WIDTHS, "what comes", "what is found", "")
    right = [each for name in options.plays or PLAYS for each in PLAYS[name](options)]
    print("right" if all(right) else f"{right.count(False)} rows are wrong")
    sys.exit(not all(right))


if __name__ == "__main__":
    main()
