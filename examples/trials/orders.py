"""Shows that an order at the console is done once, or not at all, and that who gave it knows which.

    python3 examples/trials/orders.py PROGRAM [PLAY ..]

Messages for PAUL at METZ wait until METZ's peer comes, so what it is told then is what was done; and LYON's peer has
sent files for METZ, which wait too. Where it matters what comes while the hub does nothing, the hub is stopped by
SIGSTOP meanwhile. The plays, each with hubs of its own:

- `given_twice`: a message, a command and the state of a line under names, again, changed, and for another customer.
- `asked_for`: what is told of orders by number and by name, and that 64 are remembered.
- `too_late`: orders whose time is over when they come, or when the hub comes to them.
- `gone`: a visitor who closed, and one who only ended what he sends, before the hub read their orders.
- `beside_four`: `ctl cancel` and `ctl shutdown` beside four visitors who are silent, or drip a byte at a time.
- `unknown`: `ctl cancel` while the hub does nothing for longer than it waits.
- `given_by_ctl`: what `ctl` itself sends, as a console of this trial's reads it.
- `who_gave_it`: that the log has who gave each kind of order.
- `another_service`: names and numbers at a hub that was started anew.

Each row is a sentence, and whether it is so, with what was found below it. The last line says "right", or how many rows
are wrong, with status 1.
"""

import contextlib
import json
import os
import pathlib
import pwd
import re
import socket
import tempfile
import threading
import time

from callers import Callers
from console import Console
from sentences import ANNA, MESSAGES, ORDERS, PAUL, STOP, Bureau, answer_on, file_to, request, show

# How long `ctl` may take beside others, and beside a hub that does nothing, in seconds.
SOON, PATIENCE = 2.0, 12.0

# For how long `ctl` gives itself, in seconds.
TIME = 4


def message(text, **more):
    return {"to": PAUL, "text": text, **more}


def given_twice(options):
    with Bureau(options) as hub:
        hub.sends(file_to(42, "PARIS"))
        soon = message("SOON", name="anna-1")
        first, again = (hub.asks("POST", MESSAGES, soon) for _ in range(2))
        yield "an order under a name is taken", first.status == 202 and "order" in first.told, first
        same = again.status == 202 and again.told == first.told
        yield "given again it is answered as before, by the same number", same, again
        turned = hub.asks("POST", MESSAGES, dict(reversed(soon.items())))
        yield "also where its members stand in another order", turned.told == first.told, turned
        other = hub.asks("POST", MESSAGES, message("LATER", name="anna-1"))
        yield "another body under the name is 409", other.status == 409 and "anna-1" in other.error, other
        other = hub.asks("POST", MESSAGES, {**soon, "by": "paul"})
        yield "also of another giver", other.status == 409, other
        other = hub.asks("POST", ORDERS, {"command": "HOLD LYON.42", "name": "anna-1"})
        yield "also one of another kind", other.status == 409 and hub.line("a2")["messages"] == 1, other
        other = hub.asks("POST", MESSAGES.replace("ACME", "BOLT"), soon)
        yield "and the same for another customer", other.status == 409, other
        texts = hub.texts_at(1, "METZ")
        yield "it is done once: METZ's peer is told once", texts == ["SOON"], texts
        cancel = {"command": "CANCEL LYON.42", "name": "c-1"}
        first, again = (hub.asks("POST", ORDERS, cancel) for _ in range(2))
        hub.comes_to_say("CANCEL LYON.42")
        same = first.status == again.status == 202 and first.told == again.told
        yield "a command given twice is done once", same and len(hub.says("CANCEL LYON.42")) == 1, again
        stop, start = {"state": "stopped", "name": "s-1"}, {"state": "started", "name": "s-2"}
        last = [hub.asks("PUT", "/v1/lines/a1", order) for order in (stop, start, stop)][-1]
        time.sleep(0.3)
        state = hub.line("a1")["served"]["state"]
        yield "a line's stop that comes again behind its start doesn't stop it", state == "started", f"{state}, {last}"


def asked_for(options):
    with Bureau(options) as hub:
        hub.sends(file_to(42))
        hold = hub.asks("POST", ORDERS, {"command": "HOLD LYON.42", "name": "h-1"})
        by_name, by_number = hub.outcome("h-1"), hub.outcome(hold.told.get("order"))
        replies = by_name.told.get("replies")
        yield "GET /v1/orders/NAME tells of it", replies == ["NJH003 LYON.42 HELD 1"], by_name
        same = by_name.status == by_number.status == 200 and by_number.told == by_name.told
        yield "and tells what is told by its number", same, by_number
        stop = hub.asks("PUT", "/v1/lines/a1", {"state": "stopped", "name": "s-1"})
        told = hub.outcome("s-1")
        yield "what is ordered of a line is told of too", stop.told.get("order") and told.status == 200, told
        never = hub.outcome("h-2")
        yield "a name that wasn't given is 404, by its name", never.status == 404 and "h-2" in never.error, never
        at_once = []
        for number in range(1, 66):
            hub.asks("POST", ORDERS, {"command": "LIST", "owner": ANNA, "name": f"n-{number}"})
            at_once.append(hub.asks("GET", f"/v1/orders/n-{number}").status)
        found = f"{at_once.count(200)} of {len(at_once)} are told of"
        yield "an order that is asked for at once doesn't wait", set(at_once) == {200}, found
        statuses = [hub.outcome(f"n-{number}").status for number in range(1, 66)]
        found = f"of 65 orders: {statuses.count(200)} are told of, the first is {statuses[0]}"
        yield "the last 64 are remembered", statuses == [404] + [200] * 64, found
        list_of = {"command": "LIST", "owner": ANNA}
        bad = [hub.asks("POST", ORDERS, {**list_of, "name": name}) for name in (7, "7x", "", "a b")]
        right = all(answer.status == 400 and "name" in answer.error for answer in bad)
        yield "numbers stay the hub's: a name begins with a letter", right, "; ".join(map(str, bad))


def too_late(options):
    with Bureau(options) as hub:
        now = int(time.time())
        past = hub.asks("POST", MESSAGES, message("PAST", until=now - 1, name="p-1"))
        yield "an order whose `until` is over is refused", past.status in (409, 410), past
        future = hub.asks("POST", MESSAGES, message("FUTURE", until=now + 60, name="f-1"))
        yield "one whose time isn't over is taken", future.status == 202, future
        with hub.visit() as visitor:
            with hub.frozen():
                body = message("LATE", until=int(time.time()) + 1, name="l-1")
                visitor.sendall(request("POST", MESSAGES, body))
                time.sleep(2.5)
            late = answer_on(visitor)
        told = hub.outcome("l-1")
        yield "one that the hub comes to behind its time isn't done, and its giver knows", late.status == 410, late
        right = told.status == 410 or told.status == 404 and "l-1" in told.error
        yield "and so does who asks by its name", right, told
        texts = hub.texts_at(1, "METZ")
        yield "METZ's peer is told the one that was in time", texts == ["FUTURE"], texts
        stop = hub.asks("POST", STOP, {"until": now - 1})
        yield "a stop of the service whose time is over isn't done", stop.status == 410 and not hub.ends(1), stop


def gone(options):
    with Bureau(options) as hub:
        hub.sends(file_to(42))
        with hub.frozen():
            closed, half = hub.visit(), hub.visit()
            closed.sendall(request("POST", MESSAGES, message("CLOSED", name="c-1")))
            closed.close()
            cancel = hub.visit()
            cancel.sendall(request("POST", ORDERS, {"command": "CANCEL LYON.42", "name": "c-2"}))
            cancel.close()
            stop = hub.visit()
            stop.sendall(request("PUT", "/v1/lines/a1", {"state": "stopped", "name": "s-1"}))
            stop.close()
            half.sendall(request("POST", MESSAGES, message("HALF", name="h-1")))
            half.shutdown(socket.SHUT_WR)
        with half:
            answer = answer_on(half)
        yield "who only ended what he sends is answered", answer.status == 202, answer
        outcome = hub.outcome("h-1")
        yield "and his order is done", outcome.status == 200, outcome
        told = hub.outcome("c-1")
        yield "the order of one who has gone isn't done, and told so by its name", told.status == 410, told
        yield "nor is his cancel: the file is there", hub.has_file("LYON.42"), hub.outcome("c-2")
        state = hub.line("a1")["served"]["state"]
        yield "nor is a line stopped for one who has gone", state == "started", f"{state}, {hub.outcome('s-1')}"
        texts = hub.texts_at(1, "METZ")
        yield "METZ's peer is told only what was done", texts == ["HALF"], texts
        stop = hub.visit()
        with hub.frozen():
            stop.sendall(request("POST", STOP, {}))
            stop.close()
        yield (
            "a stop of the service by one who has gone isn't done",
            not hub.ends(2),
            "it has ended" if not hub.runs() else "",
        )


def beside_four(options):
    for kind in ("silent", "drip"):
        with Bureau(options) as hub:
            hub.sends(file_to(42))
            with Callers(hub.console, kind, 4):
                status, text, took = hub.timed("cancel", "ACME", "LYON.42")
            time.sleep(6)
            is_there = hub.has_file("LYON.42")
            yield from ended(f"ctl cancel beside four visitors ({kind})", status, text, took, not is_there)
        with Bureau(options) as hub:
            with Callers(hub.console, kind, 4):
                status, text, took = hub.timed("shutdown")
            yield from ended(f"ctl shutdown beside four visitors ({kind})", status, text, took, hub.ends(6))


def ended(what, status, text, took, is_done):
    """The rows of a command that was given beside others, six seconds after they have gone."""
    said = f"status {status} after {took:.1f} s: {text}"
    yield f"{what} ends within {SOON:.0f} s", took <= SOON, said
    words = re.findall(r"not done|done", text)
    is_told = (status, words[:1]) in ((0, ["done"]), (1, ["not done"]))
    yield f"{what} says whether it is done, by its status too", is_told, said
    found = f"status {status}, and it was {'' if is_done else 'not '}done"
    yield f"{what}: what it says is so, ever after", is_told and is_done == (status == 0), found


def unknown(options):
    with Bureau(options) as hub:
        hub.sends(file_to(42))
        with hub.frozen():
            status, text, took = hub.timed("cancel", "ACME", "LYON.42")
            time.sleep(max(0.0, TIME + 1.5 - took))
        said = f"status {status} after {took:.1f} s: {text}"
        yield "ctl ends while the hub does nothing", status == 2 and took <= PATIENCE, said
        time.sleep(1)
        name = re.search(r"ctl order ([A-Za-z][A-Za-z0-9._-]*)", text)
        yield "it says that it can't know, and how to ask", name, said
        asked = hub.timed("order", name[1]) if name else ("", "there is no name", 0.0)
        right = asked[0] == 1 and ("isn't carried out" in asked[1] or "no order" in asked[1])
        yield "asked so the hub says that it wasn't done", right, f"status {asked[0]}: {asked[1]}"
        yield "and so it is: the file is there", hub.has_file("LYON.42"), ""


class Listener(Console):
    """A console of the trial's own, which takes each order, says of each that it was done, and keeps what came."""

    def __init__(self, options, folder):
        self.program, self.console, self.came = options.program, pathlib.Path(folder, "console"), []
        self.server = socket.socket(socket.AF_UNIX)
        self.server.bind(str(self.console))
        self.server.listen(16)
        threading.Thread(target=self.serve, daemon=True).start()

    def serve(self):
        while True:
            visitor, _ = self.server.accept()
            threading.Thread(target=self.talk, args=(visitor,), daemon=True).start()

    def talk(self, visitor):
        with visitor, contextlib.suppress(OSError), visitor.makefile("rb") as lines:
            while words := lines.readline().split():
                fields = dict(line.split(b":", 1) for line in iter(lambda: lines.readline().strip().lower(), b""))
                body = lines.read(int(fields.get(b"content-length", 0)))
                self.came.append((words[0].decode(), words[1].decode(), body))
                taken = {"order": len(self.came), "since": 1_700_000_000}
                told = {**taken, "customer": "ACME", "replies": ["NJH003 LYON.42 HELD 1"]}
                status, body = ("200 OK", told) if words[0] == b"GET" else ("202 Accepted", taken)
                text = json.dumps(body)
                head = f"HTTP/1.1 {status}\r\nContent-Type: application/json\r\nContent-Length: {len(text)}\r\n\r\n"
                visitor.sendall((head + text).encode())

    def orders(self):
        """The bodies of what was ordered."""
        return [json.loads(body) for method, _, body in self.came if method != "GET"]


def given_by_ctl(options):
    user = os.environ["USER"]
    with tempfile.TemporaryDirectory(prefix="orders.") as folder:
        console = Listener(options, folder)
        begin = int(time.time())
        tell = ("tell", "ACME", "METZ", "PAUL", "SOON")
        commands = (("hold", "ACME", "LYON.42"), tell, ("stop", "a1"), ("shutdown",))
        found = [console.ctl(*words)[0] for words in commands]
        end = int(time.time())
        bodies = console.orders()
    assert len(bodies) == len(commands), f"{found}: {console.came}"
    for words, body in zip(commands, bodies):
        name = str(body.get("name", ""))
        yield f"ctl {words[0]} makes a name", re.fullmatch(r"[A-Za-z][A-Za-z0-9._-]{0,31}", name), body
        right = begin + TIME - 1 <= body.get("until", 0) <= end + TIME + 1
        yield f"ctl {words[0]} gives itself four seconds", right, f"until {body.get('until')}, now {begin}"
        yield (
            f"ctl {words[0]} sends the user that runs it",
            user in str(body.get("by", "")),
            f"by {body.get('by')}, run by {user}",
        )
    names = {str(body.get("name")) for body in bodies}
    yield "each name is another", len(names) == len(bodies), names


def who_gave_it(options):
    user = os.environ["USER"]
    with Bureau(options) as hub:
        hub.sends(file_to(42))
        orders = (
            ("a command", "POST", ORDERS, {"command": "HOLD LYON.42"}),
            ("a message", "POST", MESSAGES, message("SOON")),
            ("a line's stop", "PUT", "/v1/lines/a2", {"state": "stopped"}),
            ("a line's start", "PUT", "/v1/lines/a2", {"state": "started"}),
            ("a refused order", "POST", ORDERS, {"command": "HOLD LYON.99", "owner": ANNA}),
        )
        for number, (what, method, path, body) in enumerate(orders):
            answer = hub.asks(method, path, {**body, "by": f"shift-{number}"})
            found = hub.comes_to_say(f"shift-{number}")
            yield f"{what}: the log has who gave it", found, f"{answer}; {found}"
        before = len(hub.log())
        hub.ctl("release", "ACME", "LYON.42")
        hub.comes_to_say("RELEASE LYON.42")
        found = hub.log()[before:]
        yield "what ctl orders is the order of the user that runs it", any(user in line for line in found), found
        hub.asks("POST", STOP, {"by": "shift-end"})
        hub.ends(5)
        yield "the end of the service: the log has who ordered it", hub.says("shift-end"), hub.log()[-1]


def another_service(options):
    with Bureau(options) as hub:
        body = {"command": "LIST", "owner": ANNA, "name": "n-1"}
        paths = ["/v1/nothing", "/v1/status", "/v1/customers"]
        paths += [f"/v1/customers/ACME/{what}" for what in ("lines", "files")]
        answers = [hub.asks("POST", ORDERS, body), hub.outcome("n-1"), hub.outcome("n-2")]
        answers += [hub.asks("GET", path) for path in paths]
        since = [answer.told.get("since") for answer in answers]
        yield "each answer has since when the service runs", len(set(since)) == 1 and since[0], since
    time.sleep(1.1)
    with Bureau(options) as hub:
        answer = hub.outcome("n-1")
        yield "names end with the service", answer.status == 404, answer
        told = answer.told.get("since")
        yield "whose `since` is another then", told is not None and told != since[0], f"{since[0]}, then {told}"


PLAYS = (
    given_twice,
    asked_for,
    too_late,
    gone,
    beside_four,
    unknown,
    given_by_ctl,
    who_gave_it,
    another_service,
)


if __name__ == "__main__":
    os.environ["USER"] = pwd.getpwuid(os.getuid()).pw_name  # as a login sets it; not each service does
    show(__doc__, PLAYS)
