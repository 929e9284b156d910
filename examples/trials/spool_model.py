"""What a hub with a spool file may have and must have, by what its peers sent and what they were answered.

`Book` has a customer's files. Of each it knows the values that are possible: whether the hub has it (`has`), whether it
is Held (`held`), where it goes (`to`). What was sent and isn't answered makes two values possible, an answer leaves
one, and so does a listing of the spool file between two runs. What can't be is a `Wrong`.
"""

import re

from frames import DATA_SET_HEADER, JOB_HEADER, field

LISTED = re.compile(r"(\S+) ((\S+)\.(\d+)) TO (\S+) (\S+) (IN|OUT) (\d+) RECORDS (\S+)")

BOTH = frozenset((True, False))
YES, NO = frozenset((True,)), frozenset((False,))

SYSIN_1, SYSOUT_1 = 0x98, 0x99


def name_in(record, place):
    """The name in the field at this place of a record."""
    return record[place : place + 8].decode("cp037").rstrip()


class Wrong(Exception):
    """What the hub may not do."""


class Entry:
    """A file: its number and origin, its records as they were sent, and what is known of it."""

    def __init__(self, number, origin, user, to, kind, records):
        self.number, self.origin, self.user, self.kind, self.records = number, origin, user, kind, records
        self.name, self.has, self.held, self.to = f"{origin}.{number}", NO, NO, frozenset((to,))
        self.ended = self.whole = None  # when its end went out, and when its completion came
        self.shown = None  # its place in the last listing
        self.is_new = False  # it is there for the first time in the last listing
        self.is_taken = False  # a peer's completion of it was answered

    def bytes_for(self, node):
        """The records as they are where the file goes to this node."""
        return [(srcb, self.for_node(srcb, record, node)) for srcb, record in self.records]

    def for_node(self, srcb, record, node):
        if srcb == JOB_HEADER and self.kind == "IN":
            return record[:84] + field(node) + record[92:]
        if srcb == DATA_SET_HEADER and self.kind == "OUT":
            return record[:8] + field(node) + record[16:]
        return record


class Book:
    """A customer's files, by what was sent and answered. `clock` counts events."""

    def __init__(self, name):
        self.name, self.entries, self.clock, self.number = name, {}, 0, 0

    def add(self, entry):
        self.entries[entry.name] = entry

    def next_number(self):
        self.number += 1
        return self.number

    def moment(self):
        self.clock += 1
        return self.clock

    def sure(self, user=None):
        """The files that the hub must have, and those of this user where one is given."""
        return [one for one in self.entries.values() if one.has == YES and user in (None, one.user)]

    def maybe(self):
        """The files that the hub may have."""
        return [one for one in self.entries.values() if True in one.has]

    def ended(self, entry):
        entry.has, entry.ended = BOTH, self.moment()

    def completed(self, entry):
        entry.has, entry.whole = YES, self.moment()

    def gone(self, entry):
        entry.has = NO

    def came(self, number, origin, records):
        """A peer was sent all records of a file: they must be those of one that was there at the beginning of the run,
        or came in it. One that was cancelled in this run may have been on its way."""
        entry = self.entries.get(f"{origin}.{number}")
        if entry is None or entry.is_taken:
            raise Wrong(f"{self.name}: {origin}.{number} was sent to a peer, but it isn't there any more")
        if all(records != entry.bytes_for(node) for node in entry.to):
            raise Wrong(f"{self.name}: {entry.name} was sent to a peer with other bytes")
        return entry

    def listing(self, lines):
        """Takes what the spool file has, in order: it must be possible, and is what is known from then on."""
        shown = []
        for line in lines:
            found = LISTED.fullmatch(line)
            entry = self.entries.get(found[2]) if found else None
            if entry is None or found[1] != self.name:
                raise Wrong(f"no file of the customer {self.name}: {line}")
            self.check(entry, line, found)
            shown.append((entry, found))
        if len({entry.name for entry, _ in shown}) < len(shown):
            raise Wrong(f"{self.name}: a file is there twice: {lines}")
        for entry in self.sure():
            if all(entry is not one for one, _ in shown):
                raise Wrong(f"{self.name}: {entry.name} is lost: its completion was sent")
        self.check_order([entry for entry, _ in shown])
        self.settle(shown)
        return [entry for entry, _ in shown]

    def check(self, entry, line, found):
        _, _, _, _, node, _, kind, count, state = found.groups()
        if True not in entry.has:
            raise Wrong(f"{line}: it has come back, or was never whole")
        if state not in ("READY", "HELD") or (state == "HELD") not in entry.held:
            raise Wrong(f"{line}: Held may be {sorted(entry.held)}")
        if node not in entry.to or kind != entry.kind or int(count) != len(entry.records):
            raise Wrong(f"{line}: {sorted(entry.to)}, {entry.kind} and {len(entry.records)} were sent")

    def check_order(self, shown):
        """Files that were listed before stay in their order, before all others; of two others the one that was
        complete before the other one ended is the first."""
        known = [entry.shown for entry in shown if entry.shown is not None]
        if known != sorted(known) or any(entry.shown is None for entry in shown[: len(known)]):
            raise Wrong(f"{self.name}: out of order: {[(entry.name, entry.shown) for entry in shown]}")
        fresh, latest = shown[len(known) :], 0
        for entry in fresh:
            if entry.whole and entry.whole < latest:
                raise Wrong(f"{self.name}: out of order of arrival: {[(one.name, one.whole) for one in fresh]}")
            latest = max(latest, entry.ended)

    def settle(self, shown):
        for entry in self.entries.values():
            entry.has = NO
        for place, (entry, found) in enumerate(shown):
            entry.has, entry.is_new, entry.shown = YES, entry.shown is None, place
            entry.held, entry.to = frozenset((found[9] == "HELD",)), frozenset((found[5],))
        self.entries = {entry.name: entry for entry, _ in shown}
