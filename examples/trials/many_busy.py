"""Shows what a full hub does: 64 customers, 256 lines, all of them busy with files.

    python3 examples/trials/many_busy.py PROGRAM [--old] [--customers 64] [--lines 4] [--seconds 20] [--clients 2]

Each line sends files of 40 cards for the next line of its customer, one after the other, and takes those that come
for it: each block is sent as soon as the one before is answered. The peers share so many processes. The table has a
row for each five seconds: exchanges a second of all lines together, the longest answer on any line in milliseconds
(as its peer sees it, so what the peers' own process takes is in it), files that came whole a second, how many
sessions are up, how many requests and files were refused in all, and the seconds of processor that the program and
the peers used for each second.
"""

import time

from frames import ebcdic, file_of
from hub import Hub, options_of, places_of, row, table_of
from peers import Crowd, FilePeer

WIDTHS = (7, 12, 11, 8, 5, 8, 12, 12)

CARDS = [ebcdic(f"{number:04} THE QUICK BROWN FOX JUMPS OVER THE LAZY DOG".ljust(80)) for number in range(40)]


class Sender(FilePeer):
    """A peer that always has another file to send, and keeps count of those that came."""

    came, denied, other = 0, 0, None

    def turn(self, frame):
        if not self.to_send:
            self.to_send.append(file_of(self.went % 60000 + 1, self.node, "ANNA", self.other, "PAUL", CARDS))
        super().turn(frame)
        self.came += len(self.files)
        self.denied += self.refused
        self.files.clear()
        self.refused = 0


def sender(loop, place, lines):
    Sender.other = None
    peer = Sender(loop, place.port, place.node)
    peer.other = f"N{(place.line + 1) % lines}"
    return peer


def of(peer):
    return peer.is_up, peer.answers, peer.longest, peer.came, peer.denied


def crowds_of(options, places):
    def make(own):
        return lambda loop: [sender(loop, place, options.lines) for place in own]

    return [Crowd(make(places[at :: options.clients]), of) for at in range(options.clients)]


def look(crowds):
    """All peers' words together, and the processor that they used."""
    looks = [crowd.look() for crowd in crowds]
    peers = [peer for one in looks for peer in one[0]]
    sums = [sum(peer[at] for peer in peers) for at in (0, 1, 3, 4)]
    return sums, max(peer[2] for peer in peers), sum(one[2] for one in looks)


def main():
    options = options_of(
        __doc__,
        (("--customers",), {"type": int, "default": 64}),
        (("--lines",), {"type": int, "default": 4, "help": "lines of a customer"}),
        (("--seconds",), {"type": int, "default": 20}),
        (("--clients",), {"type": int, "default": 2, "help": "processes of peers"}),
    )
    places = places_of([options.lines] * options.customers)
    with Hub(options, table_of(places, 2000)) as hub:
        crowds = crowds_of(options, places)
        row(WIDTHS, "second", "exchanges/s", "longest ms", "files/s", "up", "refused", "program s/s", "peers s/s")
        begin = time.monotonic()
        (_, answers, came, _), _, peers_used = look(crowds)
        last, used = time.monotonic(), hub.seconds_used()
        while time.monotonic() < begin + options.seconds and hub.runs():
            time.sleep(5)
            (up, answers_now, came_now, refused), longest, peers_now = look(crowds)
            now = time.monotonic()
            used_now = hub.seconds_used() if hub.runs() else used
            pairs = ((answers, answers_now), (came, came_now), (used, used_now), (peers_used, peers_now))
            rates = [(after - before) / (now - last) for before, after in pairs]
            cells = (f"{now - begin:.0f}", f"{rates[0]:.0f}", f"{1000 * longest:.1f}", f"{rates[1]:.0f}")
            row(WIDTHS, *cells, up, refused, f"{rates[2]:.2f}", f"{rates[3]:.2f}")
            last, used, answers, came, peers_used = now, used_now, answers_now, came_now, peers_now
        print("the program " + ("goes on" if hub.runs() else f"has ended with status {hub.process.returncode}"))
        for crowd in crowds:
            crowd.__exit__()


if __name__ == "__main__":
    main()
