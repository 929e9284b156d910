"""Shows what visitors of the console that misbehave cost a line, and what becomes of them.

    python3 examples/trials/console_hostile.py PROGRAM [PLAY ..]

Each play starts the program on eight lines of two customers with a console, and misbehaves there. The table says what
became of that, and how long the answers on a line of the second customer took meanwhile, which makes contact a hundred
times a second: how many there were, the median and the longest, in milliseconds. After each play `ctl status` is to
answer, and beside those who keep seats it is asked all the time and is to answer within a second. The last column of a
play that is wrong says so.
"""

import contextlib
import random
import socket
import statistics
import sys
import threading
import time

from console import ConsoleHub, get, response
from hostile import Other
from hub import options_of, places_of, row, table_of

WIDTHS = (28, 8, 10, 10, 6)


def ended(visitor, wanted, seconds=3):
    """Reads until the console ends the connection, and says after how long it did and what it answered, which is to be
    this status, or nothing."""
    begin, data = time.monotonic(), b""
    visitor.settimeout(seconds)
    try:
        while more := visitor.recv(65536):
            data += more
    except socket.timeout:
        return f"WRONG: kept for {seconds} s"
    except OSError:
        pass
    status = data.split(b" ", 2)[1].decode() if data.startswith(b"HTTP/1.1 ") else "nothing"
    what = f"answered {status}, ended after {time.monotonic() - begin:.1f} s"
    return what if status == wanted else f"WRONG: {what}"


def no_http(hub):
    with hub.visit() as visitor:
        visitor.sendall(b"\x01\x2d\x10\x70 this is no HTTP\r\n\r\n")
        return ended(visitor, "400")


def random_bytes(hub):
    found = random.Random(1)
    for _ in range(200):
        with hub.visit() as visitor, contextlib.suppress(OSError):
            visitor.sendall(bytes(found.choices(range(256), k=found.randrange(1, 4000))))
    return "200 times"


def half_a_request(hub):
    with hub.visit() as visitor:
        visitor.sendall(b"GET /v1/status HTTP/1.1\r\nHost: h")
        return ended(visitor, "nothing")


def a_byte_at_a_time(hub):
    with hub.visit() as visitor:
        for byte in b"GET /v1/status HTTP/1.1\r\nHost: hub\r\n\r\n":
            visitor.sendall(bytes([byte]))
            time.sleep(0.02)
        status, body = response(visitor)
        what = f"answered {status} by {len(body)} bytes"
        return what if status == 200 else f"WRONG: {what}"


def a_head_too_long(hub):
    with hub.visit() as visitor:
        with contextlib.suppress(OSError):
            visitor.sendall(b"GET /v1/status HTTP/1.1\r\nHost: hub\r\nX: " + b"x" * 100_000 + b"\r\n\r\n")
        return ended(visitor, "431")


def a_body_too_long(hub):
    with hub.visit() as visitor:
        head = b"POST /v1/customers/C0/messages HTTP/1.1\r\nHost: hub\r\nContent-Length: 10000000\r\n\r\n"
        with contextlib.suppress(OSError):
            visitor.sendall(head + b"x" * 10_000_000)
        return ended(visitor, "413")


def many_connects(hub):
    """10,000 connects, each closed at once."""
    begin, refused = time.monotonic(), 0
    for _ in range(10_000):
        try:
            hub.visit(1).close()
        except OSError:
            refused += 1
            time.sleep(0.01)
    return f"{refused} refused, in {time.monotonic() - begin:.1f} s"


def many_at_once(hub):
    """As many connections at once as the console lets wait, and none says anything."""
    visitors, begin = [], time.monotonic()
    for _ in range(600):
        visitor = socket.socket(socket.AF_UNIX)
        visitor.setblocking(False)
        try:
            visitor.connect(str(hub.console))
        except OSError:
            visitor.close()
            break
        visitors.append(visitor)
    time.sleep(12)
    for visitor in visitors:
        visitor.close()
    return f"{len(visitors)} connections in {time.monotonic() - begin - 12:.1f} s, silent for 12 s"


def stops_reading(hub):
    """Asks again and again, and reads no answer."""
    with hub.visit() as visitor:
        visitor.setsockopt(socket.SOL_SOCKET, socket.SO_RCVBUF, 1)
        visitor.settimeout(0.2)
        begin, count, what = time.monotonic(), 0, "WRONG: kept for 4 s"
        while time.monotonic() < begin + 4:
            try:
                visitor.sendall(b"GET /v1/customers HTTP/1.1\r\nHost: hub\r\n\r\n")
                count += 1
            except socket.timeout:
                pass
            except OSError as error:
                what = f"ended after {time.monotonic() - begin:.1f} s ({type(error).__name__})"
                break
    return f"{count} requests, {what}"


def asks_without_a_pause(hub):
    with hub.visit() as visitor:
        begin, count = time.monotonic(), 0
        while time.monotonic() < begin + 5:
            status, _ = get(visitor, "/v1/customers/C0/lines")
            assert status == 200, status
            count += 1
    return f"{count} answers in 5 s"


def wrong_requests(hub):
    """What isn't understood is refused with a sentence, and changes nothing."""
    wanted = (
        ("GET", "/", "", 404),
        ("GET", "/v1/nothing", "", 404),
        ("GET", "/v1/customers/NOBODY/files", "", 404),
        ("DELETE", "/v1/status", "", 405),
        ("GET", "/v1/status?from=1", "", 400),
        ("POST", "/v1/stop", '{"when_idel":true}', 400),
        ("POST", "/v1/stop", '{"when_idle":false,"when_idle":false}', 400),
        ("POST", "/v1/stop", "", 400),
        ("PUT", "/v1/stop", "{}", 405),
        ("POST", "/v1/customers/C0/orders", "{", 400),
        ("POST", "/v1/customers/C0/orders", '{"command":"DANCE"}', 400),
        ("POST", "/v1/customers/C0/orders", '{"command":"HOLD N0.7"}', 404),
        ("PUT", "/v1/lines/c0l0", '{"state":"asleep"}', 400),
        ("GET", "/v1/orders/77", "", 404),
    )
    found = []
    for method, path, body, status in wanted:
        with hub.visit() as visitor:
            head = f"{method} {path} HTTP/1.1\r\nHost: hub\r\nContent-Length: {len(body)}\r\n\r\n"
            visitor.sendall((head + body).encode())
            got, answer = response(visitor)
            if got != status or b'"error"' not in answer:
                found.append(f"{method} {path} {body}: {got} {answer.decode()}")
    return "each refused" if not found else "WRONG: " + "; ".join(found)


def beside(hub, seconds, keep):
    """How often `ctl status` was asked in so many seconds, and the longest that it took, while `keep` is called again and
    again by another thread."""
    ended, count, longest, failed = threading.Event(), 0, 0, 0

    def keep_on():
        while not ended.is_set():
            keep()

    keeper = threading.Thread(target=keep_on)
    keeper.start()
    end = time.monotonic() + seconds
    while time.monotonic() < end:
        begin = time.monotonic()
        failed += hub.ctl("status")[0] != 0
        count, longest = count + 1, max(longest, time.monotonic() - begin)
    ended.set()
    keeper.join()
    what = f"{count} times ctl, {longest:.2f} s at most"
    return what if not failed and longest < 1 else f"WRONG: {what}, {failed} failed"


def seats_kept(hub, keep):
    """Four visitors do this with a socket again and again, and another comes for each who is let go."""
    visitors = [hub.visit() for _ in range(4)]

    def keep_all():
        for place, visitor in enumerate(visitors):
            try:
                keep(visitor)
            except OSError:
                visitor.close()
                visitors[place] = hub.visit()
        time.sleep(0.005)

    what = beside(hub, 5, keep_all)
    for visitor in visitors:
        visitor.close()
    return what


def four_silent(hub):
    def ask(visitor):
        visitor.setblocking(False)
        with contextlib.suppress(BlockingIOError):
            if not visitor.recv(1):
                raise OSError

    return seats_kept(hub, ask)


def four_who_drip(hub):
    """A byte at a time, of a request that never ends."""
    return seats_kept(hub, lambda visitor: visitor.sendall(b"x"))


def four_who_ask_on(hub):
    """Request upon request, whose answers are read."""

    def ask(visitor):
        visitor.setblocking(False)
        with contextlib.suppress(BlockingIOError):
            visitor.send(8 * b"GET /v1/status HTTP/1.1\r\nHost: hub\r\n\r\n")
        with contextlib.suppress(BlockingIOError):
            if not visitor.recv(65536):
                raise OSError

    return seats_kept(hub, ask)


def four_who_read_nothing(hub):
    """Request upon request, whose answers aren't read."""

    def ask(visitor):
        visitor.setblocking(False)
        with contextlib.suppress(BlockingIOError):
            visitor.send(8 * b"GET /v1/customers HTTP/1.1\r\nHost: hub\r\n\r\n")

    return seats_kept(hub, ask)


def connects_beside_ctl(hub):
    """Connect upon connect, each with half a request and closed at once."""
    connects = [0]

    def connect():
        with contextlib.suppress(OSError), hub.visit(1) as visitor:
            visitor.sendall(b"GET /v1/status HTTP/1.1\r\nHo")
            connects[0] += 1

    what = beside(hub, 5, connect)
    return f"{what}, {connects[0]} connects"


def answers_again(hub):
    """The status of `ctl status`, which is asked for ten seconds, since all seats may be taken by those who are silent."""
    end = time.monotonic() + 10
    while (status := hub.ctl("status")[0]) and time.monotonic() < end:
        time.sleep(0.5)
    return status


PLAYS = (
    no_http,
    random_bytes,
    half_a_request,
    a_byte_at_a_time,
    a_head_too_long,
    a_body_too_long,
    many_connects,
    many_at_once,
    four_silent,
    four_who_drip,
    four_who_ask_on,
    four_who_read_nothing,
    connects_beside_ctl,
    stops_reading,
    asks_without_a_pause,
    wrong_requests,
)


def main():
    options = options_of(__doc__, (("plays",), {"nargs": "*", "help": "which to play"}))
    row(WIDTHS, "play", "answers", "median ms", "longest ms", "")
    wrong = 0
    for play in PLAYS:
        if options.plays and play.__name__ not in options.plays:
            continue
        places = places_of([4, 4])
        with ConsoleHub(options, table_of(places)) as hub:
            hub.listens()
            other = Other(places[-1].port)
            time.sleep(0.5)
            what = play(hub)
            status = answers_again(hub)
            times, said = other.stop()
            times = times or [float("inf")]
            right = status == 0 and not said and max(times) < 0.01 and "WRONG" not in what
            wrong += not right
            cells = (len(times), f"{1000 * statistics.median(times):.1f}", f"{1000 * max(times):.1f}")
            row(WIDTHS, play.__name__, *cells, "right" if right else "WRONG")
            print(f"    {what}{said}" + ("" if status == 0 else "; ctl status doesn't answer then"))
    sys.exit(wrong > 0)


if __name__ == "__main__":
    main()
