"""Shows that nothing is guessed at the console, and that `ctl` passes over nothing.

    python3 examples/trials/guessed.py PROGRAM [PLAY ..]

The plays, each with a hub of its own:

- `members`: bodies with a member that the request hasn't, one twice, one that is missing, and one that is something
  else; each is to be refused with 400, by that member's name, and to change nothing.
- `methods`: wrong methods, and HEAD.
- `nothing_there`: customers, lines, files, orders and paths that aren't there, and what stands behind a path.
- `tell_empty`: a message without a text, at the console and by `ctl`.
- `usage`: what `ctl` says of words that are no command.
- `console_path`: `ctl` without `--console`.
- `lines_by_name`: `ctl lines a1`, and lists of what isn't there.
- `replies`: the status of `ctl` where a reply says that nothing was done.
- `json_chosen`: `ctl --json files` with `--node` and with `--state`, and its names given to `ctl cancel`.

Each row is a sentence, and whether it is so, with what was found below it. The last line says "right", or how many rows
are wrong, with status 1.
"""

import os
import pathlib
import re
import subprocess

from peers import FilePeer
from sentences import ANNA, MESSAGES, ORDERS, PAUL, STOP, Bureau, file_to, request, show

LINE = "/v1/lines/a1"

# A body, to what it goes, and the member that its refusal is to name.
HOLD, TELL = '{"command":"HOLD LYON.42",', '{"to":{"node":"METZ","user":"PAUL"},'
REFUSED = (
    ("an unknown member", "POST", STOP, '{"when_idel":true}', "when_idel"),
    ("a repeated member", "POST", STOP, '{"when_idle":true,"when_idle":true}', "when_idle"),
    ("a repeated member, once by an escape", "POST", STOP, '{"when_idle":true,"when_idl\\u0065":true}', "when_idle"),
    ("a member that is something else", "POST", STOP, '{"when_idle":"yes"}', "when_idle"),
    ("another request's member", "POST", STOP, '{"state":"stopped"}', "state"),
    ("an unknown member", "PUT", LINE, '{"state":"stopped","when_idel":true}', "when_idel"),
    ("a repeated member", "PUT", LINE, '{"state":"started","state":"stopped"}', "state"),
    ("a missing member", "PUT", LINE, "{}", "state"),
    ("a member that is something else", "PUT", LINE, '{"state":"asleep"}', "state"),
    ("an unknown member", "POST", ORDERS, HOLD + '"user":"ANNA"}', "user"),
    ("a repeated member", "POST", ORDERS, HOLD + '"command":"CANCEL LYON.42"}', "command"),
    ("a missing member", "POST", ORDERS, "{}", "command"),
    ("a member that is something else", "POST", ORDERS, '{"command":"DANCE"}', "command"),
    ("a member that is something else", "POST", ORDERS, HOLD + '"owner":"LYON.ANNA"}', "owner"),
    ("an unknown member of a user", "POST", ORDERS, HOLD + '"owner":{"node":"LYON","usr":"ANNA"}}', "usr"),
    ("a repeated member of a user", "POST", ORDERS, HOLD + '"owner":{"node":"LYON","node":"METZ"}}', "node"),
    ("a missing member", "POST", MESSAGES, TELL[:-1] + "}", "text"),
    ("a missing member", "POST", MESSAGES, '{"text":"SOON"}', "to"),
    ("a member that is something else", "POST", MESSAGES, '{"to":{"node":"TOOLONGANAME"},"text":"SOON"}', "node"),
    ("a member that is something else", "POST", MESSAGES, TELL + '"text":7}', "text"),
    ("a name that is none", "POST", MESSAGES, TELL + '"text":"SOON","name":"7"}', "name"),
    ("a time that is none", "POST", MESSAGES, TELL + '"text":"SOON","until":"soon"}', "until"),
    ("a giver that is none", "POST", MESSAGES, TELL + '"text":"SOON","by":7}', "by"),
)

# The commands of `ctl`, each with words that it isn't.
WORDS = {
    "status": ("status", "now"),
    "customers": ("customers", "ACME"),
    "lines": ("lines", "ACME", "a1"),
    "files": ("files", "ACME", "LYON.42"),
    "hold": ("hold", "ACME"),
    "release": ("release", "ACME"),
    "cancel": ("cancel",),
    "reroute": ("reroute", "ACME"),
    "tell": ("tell", "ACME", "METZ"),
    "stop": ("stop",),
    "start": ("start", "a1", "a2"),
    "shutdown": ("shutdown", "now"),
    "order": ("order",),
    "reload": ("reload", "now"),
    "diff": ("diff",),
}


def state_of(hub):
    """What the requests of `REFUSED` could change: LYON.42, the line a1, and messages that wait."""
    files = [(file["name"], file["state"]) for file in hub.listed("files")]
    return files, hub.line("a1")["served"]["state"], hub.line("a2")["messages"]


def members(options):
    for what, method, path, body, member in REFUSED:
        with Bureau(options) as hub:
            hub.sends(file_to(42))
            before = state_of(hub)
            answer = hub.asks(method, path, body)
            stays = not (path == STOP and hub.ends(0.3)) and state_of(hub) == before
            right = answer.status == 400 and re.search(rf"(^|member ){member}\b", answer.error) and stays
            found = f"{answer}{'' if stays else '; and something was done'}"
            yield f"{what} is refused by name, {member}: {method} {path} {body}", right, found
    with Bureau(options) as hub:
        found = {body: hub.asks("POST", STOP, body) for body in ("[]", '"stop"', "{} {}", "{'when_idle':true}", "null")}
        right = all(answer.status == 400 for answer in found.values()) and not hub.ends(0.3)
        yield "a body that is no object of JSON is refused", right, "; ".join(map(str, found.values()))


def methods(options):
    wanted = (
        ("DELETE", "/v1/status", "GET"),
        ("POST", "/v1/customers", "GET"),
        ("PUT", "/v1/customers/ACME/files", "GET"),
        ("PATCH", "/v1/customers/ACME/lines", "GET"),
        ("GET", ORDERS, "POST"),
        ("PUT", MESSAGES, "POST"),
        ("POST", LINE, "PUT"),
        ("GET", LINE, "PUT"),
        ("GET", STOP, "POST"),
        ("DELETE", "/v1/orders/7", "GET"),
    )
    with Bureau(options) as hub:
        for method, path, allowed in wanted:
            answer = hub.asks(method, path, "{}")
            allow = [word.strip() for word in answer.fields.get("allow", "").split(",")]
            right = answer.status == 405 and allowed in allow and method not in allow
            yield f"{method} {path} is 405, and Allow has {allowed}", right, f"{answer}, Allow: {', '.join(allow)}"
        for path in ("/v1/status", "/v1/customers", "/v1/customers/ACME/files"):
            get, head = hub.asks("GET", path), hub.asks("HEAD", path)
            same = head.fields.get("content-length") == get.fields.get("content-length")
            right = head.status == 200 and head.body == b"" and same
            yield f"HEAD {path} is answered as GET is, without the body", right, f"{head}, {head.fields}"
        with hub.visit() as visitor:
            visitor.sendall(request("HEAD", "/v1/status") + request("GET", "/v1/nothing"))
            data = b""
            while b"/v1/nothing" not in data and (more := visitor.recv(65536)):
                data += more
        yield (
            "behind the answer to HEAD comes the next one",
            data.count(b"HTTP/1.1 ") == 2 and b'"version"' not in data,
            data[:200],
        )


def nothing_there(options):
    owned = {"command": "HOLD LYON.99"}
    wanted = (
        ("a path", "GET", "/v1/nothing", None, "/v1/nothing"),
        ("a path", "GET", "/", None, "/"),
        ("a customer", "GET", "/v1/customers/NOBODY/files", None, "NOBODY"),
        ("a customer", "GET", "/v1/customers/acme/lines", None, "acme"),
        ("a customer", "POST", "/v1/customers/NOBODY/orders", owned, "NOBODY"),
        ("a customer", "POST", "/v1/customers/NOBODY/messages", {"to": PAUL, "text": "SOON"}, "NOBODY"),
        ("a line", "PUT", "/v1/lines/a9", {"state": "stopped"}, "a9"),
        ("a file", "POST", ORDERS, owned, "LYON.99"),
        ("an order", "GET", "/v1/orders/77", None, "77"),
        ("an order", "GET", "/v1/orders/anna-7", None, "anna-7"),
    )
    with Bureau(options) as hub:
        for what, method, path, body, name in wanted:
            answer = hub.asks(method, path, body)
            right = answer.status == 404 and name in answer.error
            yield f"404 names {what} that isn't there: {method} {path}", right, answer
        for path in ("status?from=1", "customers?form=1", "customers?from=x", "customers/ACME/files?state=HELD"):
            answer = hub.asks("GET", f"/v1/{path}")
            yield f"nothing behind a path is passed over: GET {path} is 400", answer.status == 400, answer
        for words, name in (
            (("files", "NOBODY"), "NOBODY"),
            (("stop", "a9"), "a9"),
            (("hold", "ACME", "LYON.99"), "LYON.99"),
            (("tell", "NOBODY", "METZ", "PAUL", "SOON"), "NOBODY"),
        ):
            status, text, _ = hub.timed(*words)
            yield (
                f"ctl {' '.join(words)} names what isn't there",
                status == 1 and name in text,
                f"status {status}: {text}",
            )


def tell_empty(options):
    with Bureau(options) as hub:
        answer = hub.asks("POST", MESSAGES, {"to": PAUL, "text": ""})
        yield "a message with an empty text is refused", answer.status == 400 and "text" in answer.error, answer
        status, text, _ = hub.timed("tell", "ACME", "METZ", "PAUL", "")
        yield "ctl tell with an empty text ends with status 1", status == 1 and text, f"status {status}: {text}"
        waiting = hub.line("a2")["messages"]
        yield "and nothing waits on the line", waiting == 0, waiting


def usage(options):
    with Bureau(options) as hub:
        for command, words in WORDS.items():
            status, text, _ = hub.timed(*words)
            named = [other for other in WORDS if f"njehub ctl {other}" in text]
            right = status == 1 and named == [command]
            yield f"ctl {' '.join(words)}: the usage of {command}, and of no other", right, f"status {status}: {text}"
        status, text, _ = hub.timed("files", "--when-idle")
        yield (
            "an option that a command hasn't is refused with that command's usage",
            status == 1 and "ctl files" in text and "ctl stop" not in text,
            text,
        )


def console_path(options):
    def ctl(*words, **variables):
        environment = {name: text for name, text in os.environ.items() if name != "NJEHUB_CONSOLE"}
        line = [options.program, "ctl", *words]
        done = subprocess.run(line, env={**environment, **variables}, capture_output=True, text=True, timeout=30)
        return done.returncode, done.stdout + done.stderr

    with Bureau(options) as hub:
        found = ctl("status", NJEHUB_CONSOLE=str(hub.console))
        yield "ctl finds the console of NJEHUB_CONSOLE", found[0] == 0 and "customers 2" in found[1], found
        found = ctl("--console", str(hub.console), "status", NJEHUB_CONSOLE="/nowhere")
        yield "--console goes before it", found[0] == 0 and "customers 2" in found[1], found
        if pathlib.Path("/run/njehub/console").exists():
            return
        for what, variables in (("without it", {}), ("where it is empty", {"NJEHUB_CONSOLE": ""})):
            found = ctl("status", **variables)
            right = found[0] == 2 and "/run/njehub/console" in found[1]
            yield f"{what} it is /run/njehub/console", right, found


def lines_by_name(options):
    with Bureau(options) as hub:
        status, out, err = hub.ctl("lines", "a1")
        rows = [line.split()[:2] for line in out.splitlines() if line[:1] not in (" ", "")]
        yield (
            "ctl lines a1 shows the line of this name",
            status == 0 and rows[1:] == [["ACME", "a1"]],
            f"status {status}: {out}{err}",
        )
        status, out, err = hub.ctl("lines", "b1")
        yield (
            "of whichever customer it is",
            status == 0 and "BOLT" in out and "ACME" not in out,
            f"status {status}: {out}{err}",
        )
        told = hub.answers("lines", "a2") if hub.ctl("lines", "a2")[0] == 0 else []
        names = [line["name"] for part in told for line in part["lines"]]
        yield "and so does --json", names == ["a2"], names
        for words in (("lines", "a9"), ("lines", "NOBODY"), ("files", "NOBODY")):
            status, out, err = hub.ctl(*words)
            right = status == 1 and out == "" and err != ""
            yield (
                f"no table's head comes before an error: ctl {' '.join(words)}",
                right,
                f"status {status}: {out!r} {err!r}",
            )


class Keeper(FilePeer):
    """A peer that permits files, and never says that it has them."""

    def take_record(self, rcb, srcb, record):
        if record:
            super().take_record(rcb, srcb, record)


def replies(options):
    with Bureau(options) as hub:
        hub.sends(file_to(42), file_to(43, "PARIS"))
        metz = hub.peer(1, "METZ", Keeper)
        sending = hub.loop.run(10, lambda: any(file["state"] == "SENDING" for file in hub.listed("files")))
        assert sending, hub.listed("files")
        for reply, words in (
            ("NJH010", ("cancel", "ACME", "LYON.99", "--owner", "LYON.ANNA")),
            ("NJH012", ("hold", "ACME", "LYON.42")),
            ("NJH020", ("reroute", "ACME", "LYON.43", "NOWHERE")),
            ("NJH022", ("reroute", "ACME", "LYON.43", "BUREAU")),
        ):
            status, text, _ = hub.timed(*words)
            yield (
                f"status 1 for {reply}: ctl {' '.join(words)}",
                status == 1 and reply in text,
                f"status {status}: {text}",
            )
        status, text, _ = hub.timed("--json", "reroute", "ACME", "LYON.43", "NOWHERE")
        yield "with --json too", status == 1 and "NJH020" in text, f"status {status}: {text}"
        status, text, _ = hub.timed("hold", "ACME", "LYON.43")
        yield "status 0 where it was done", status == 0 and "NJH003" in text, f"status {status}: {text}"
        metz.close()


def json_chosen(options):
    with Bureau(options) as hub:
        hub.sends(*(file_to(number, "METZ" if number % 2 else "PARIS") for number in range(1, 9)))
        for number in (1, 2, 3):
            hub.prints("hold", "ACME", f"LYON.{number}")

        def chosen(*words):
            return [file["name"] for part in hub.answers("files", *words) for file in part["files"]]

        found = chosen("ACME", "--state", "held")
        yield "--json obeys --state", found == ["LYON.1", "LYON.2", "LYON.3"], found
        found = chosen("ACME", "--node", "METZ")
        yield "--json obeys --node", found == [f"LYON.{number}" for number in (1, 3, 5, 7)], found
        found = chosen("ACME", "--node", "METZ", "--state", "held")
        yield "and both", found == ["LYON.1", "LYON.3"], found
        for name in found:
            hub.ctl("cancel", "ACME", name, "--owner", f"{ANNA['node']}.{ANNA['user']}")
        left = [file["name"] for file in hub.listed("files")]
        wanted = [f"LYON.{number}" for number in (2, 4, 5, 6, 7, 8)]
        yield "cancel of that list cancels these and no others", left == wanted, left


PLAYS = (
    members,
    methods,
    nothing_there,
    tell_empty,
    usage,
    console_path,
    lines_by_name,
    replies,
    json_chosen,
)


if __name__ == "__main__":
    show(__doc__, PLAYS)
