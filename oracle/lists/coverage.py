"""What the lists cover: every refusal, every type, every change of mode, every entry of docs/DIFFERENCES.md, and what is easily misread:
calls with no event, bits above the flags, parts of which nothing is said, places in texts that go bad, the numbers of features
(features.py has what is looked for), and boxes: each slip that boxes.py has must be told by a case.

    oracle/lists/coverage.py CRATES DIFFERENCES

Everything is found in the lists themselves, as the programs replay them. The answer is 1 where something is not covered.
"""
import collections, struct, sys

import differences, features
from boxes import ARC, SLIPS, Lent, Walk
from cases import BOX, CUT, EVENT, EVENTS, FINISH, HEARD, LARGE, NEXT, PROPERTY, READ, RECORD, SAID, START, TREE, WHOLE, WKB, WRITTEN, frames
from client import feature_of, store, under
from texts import bad_place

TYPES = set(range(1, 18)) - {13, 14}
CHANGES = {(0, 1), (0, 2), (1, 0), (1, 2), (2, 0), (2, 1)}
USABLE, NO_STOP, TOP = 65536, 65536, 2**32 - 1
FEATURES = (0, 1, 256, 65536, 2**24, TOP)
NOT_UTF8, NO_ROOM = 6, 12
# Where a text goes bad; one that is read is never so long that it does at the last of these.
PLACES = ("at 0", "from 1 on", "from 65,536 on")
# `count` is how many events are taken of many, or a property's place.
Call = collections.namedtuple("Call", "what number count lent event state marks third")
Tree = collections.namedtuple("Tree", "declared flags feature lists events readings")
Read = collections.namedtuple("Read", "number columns stop data values place")
Written = collections.namedtuple("Written", "number used column kind bits length text place")
Stored = collections.namedtuple("Stored", "sort number rest")
Box = collections.namedtuple("Box", "number n lent edges")


def numbers(case):
    return struct.unpack(f"<{len(case) // 4}I", case[:len(case) // 4 * 4])


def rows(path):
    """Rows of calls: a start begins each."""
    found = []
    for case in frames(path):
        width, what, declared, current, mode, marks = case[:6]
        fields = struct.unpack_from("<28" + ("B" if width == 1 else "I"), case, 6)
        parts, used, third, *pending = fields[11:26]
        state = (declared, marks & 1, marks >> 1 & 1, current, mode, marks >> 2 & 1, parts, used, *pending)
        call = Call(what, fields[0], fields[1], fields[3:11], case[6 + 28 * width + 8:], state, marks, third)
        if what == START:
            found.append([])
        found[-1].append(call)
    return found


def heads(descriptions):
    """Their heads. What is small is all head."""
    while descriptions:
        head, group, _, tail = descriptions[:4]
        yield descriptions[4:4 + head]
        descriptions = descriptions[4 + head + 2 * group + tail:]


def trees(cases):
    for case in cases:
        row = numbers(case)
        readings = [row[25 + 4 * i:29 + 4 * i] for i in range(row[24])]
        *lists, events = heads(row[25 + 4 * row[24]:])
        yield Tree(*row[1:4], lists, events, readings)


def lists_of(tree):
    """The table, the ends, xy, z, m, t and tm, as a case of a tree has them."""
    made = store(tree)
    xy, ends, *values = made.pools
    return [numbers(made.table), tuple(ends), *[numbers(struct.pack(f"<{len(pool)}Q", *pool)) for pool in (xy, *values)]]


def words_of(events):
    said = struct.pack(f"<{len(events)}I", *events)
    return " ".join(differences.word_of(said[at:at + 64]) for at in range(0, len(said), 64))


def properties(cases):
    """What was read, and what was written."""
    read, written = [], []
    for case in cases:
        row = numbers(case[:48])
        if row[0] == READ:
            columns, data, records = case[40:40 + row[6]], case[40 + row[6]:40 + row[6] + row[8]], case[40 + row[6] + row[8]:]
            values = [value for _, value in struct.iter_unpack("<QQ", records)]
            read.append(Read(row[1], list(columns) if row[5] else None, row[7], data, values, row[9]))
        else:
            written.append(Written(row[1], row[4], row[5], row[6], row[7] | row[8] << 32, row[9], case[48:48 + row[10]], row[11]))
    return read, written


def boxes(cases):
    """Those over small tables first."""
    for case in sorted(cases, key=len):
        number, n, length, place, table_bytes, xy, words_at, *others = struct.unpack_from("<IQ10I", case, 4)
        edges, given, rest = list(struct.unpack_from("<4Q", case, 56)), case[88:88 + table_bytes], case[88 + table_bytes:]
        words = struct.unpack(f"<{len(rest) // 8}Q", rest)
        yield Box(number, n, Lent(length, place, given, (xy, *others), words_at, words), edges)


class Lists:
    def __init__(self, crates):
        self.rows = rows(crates + "/writer_cases/stdin")
        cases = list(frames(crates + "/cases/stdin"))
        of = lambda *sorts: [case for case in cases if case[0] in sorts]
        self.trees = list(trees(of(TREE)))
        self.read, self.written = properties(of(READ, WRITTEN))
        self.boxes = list(boxes(of(BOX)))
        self.wkb = [numbers(case[:24]) for case in of(WKB)]
        self.store = [Stored(*numbers(case[:8]), case[12 if case[0] == HEARD else 8:]) for case in of(HEARD, SAID, RECORD, BOX)]
        self.calls = [call for row in self.rows for call in row]

    def refusals(self):
        given = {call.number for call in self.calls} | {number for tree in self.trees for _, _, number, _ in tree.readings}
        given |= {case.number for case in self.read + self.written} | {case.number for case in self.store}
        return given | {number for _, number, *_ in self.wkb}

    def types_written(self):
        return {call.event[0] % 32 for call in self.calls if call.what == EVENT and call.number == 0 and call.event[0] < 64}

    def types_read(self):
        return {tree.declared or tree.lists[0][0] & 255 for tree in self.trees if any(number == 0 for _, _, number, _ in tree.readings)}

    def changes(self):
        return {(a.state[4], b.state[4]) for row in self.rows for a, b in zip(row, row[1:]) if a.state[4] != b.state[4]}

    def has(self, given):
        """Whether an input of a difference is in the lists with the answer that its entry tells of."""
        has_sort = {differences.Row: self.has_row, differences.Reading: self.has_reading, differences.Values: self.has_values}
        return has_sort[type(given)](given)

    def has_row(self, given):
        start = (given.declared, 0, given.promote)
        calls = list(differences.each_call(given.calls))
        roots = [(root["type"], len(root.get("parts") or ())) for root in given.trees]
        return any(start == row[0].state[:3]
                   and calls == [(under(0, call.event) if call.what == EVENT else call.what, call.number) for call in row[1:]]
                   and roots == [(call.state[3], call.state[6]) for call in row if call.what == FINISH] for row in self.rows)

    def has_reading(self, given):
        lists = lists_of(given.tree)
        return any((tree.declared, tree.flags, tree.lists) == (given.declared, given.flags, lists)
                   and tree.readings[0][2] == given.number and words_of(tree.events) == given.said for tree in self.trees)

    def has_values(self, given):
        return Read(given.number, [given.column], NO_STOP, bytes.fromhex(given.data), given.values, given.place) in self.read

    def numbers_heard(self, number):
        return {feature_of(case.rest) for case in self.store if (case.sort, case.number) == (HEARD, number)}

    def numbers_said(self):
        return {feature_of(case.rest[24:88]) for case in self.store if (case.sort, case.number) == (SAID, 0)}

    def numbers_read(self):
        """With the sort of the reading, where an event was read."""
        return {(sort, tree.feature) for tree in self.trees for sort, _, _, count in tree.readings if count}

    def orders(self):
        """A number that was given, and one behind it in the order that was due too, of texts that go bad behind their first byte."""
        asked = [(case.number, case.place, (case.data, tuple(case.columns or ()), case.stop)) for case in self.read]
        bad = {what for number, place, what in asked if number == NOT_UTF8 and place}
        written = [case for case in self.written if 11 <= case.kind < 14 and bad_place(case.text)]
        given = {case.number for case in written} | {number for number, _, what in asked if what in bad}
        cramped = {case.number for case in written if case.used + 6 + len(case.text) > min(case.length, USABLE)}
        return {(number, NOT_UTF8) for number in given} | {(number, NO_ROOM) for number in cramped}

    def tells(self, walk):
        """Whether a box has another answer in the list than this walk gives."""
        return any(walk(box.lent).answer(box.n) != (box.number, box.edges) for box in self.boxes)

    def was_read(self, number, events=None, where=lambda tree: True):
        return any(where(tree) and any(given == number and events in (None, count) for _, _, given, count in tree.readings)
                   for tree in self.trees)

    def was_written(self, number, where=lambda case: True):
        return any(case.number == number and where(case) for case in self.written)

    def was_laid(self, sort, number, where=lambda rest: True):
        return any((case.sort, case.number) == (sort, number) and where(case.rest) for case in self.store)

    def was_called(self, what, number, where=lambda call: True):
        return any(call.what == what and call.number == number and where(call) for call in self.calls)


# A pair, a part, and an end within a collection and without, each with its pool or table full.
BEYOND = (
    lambda call: call.event[0] == 64 and call.state[9] == 2 * USABLE,
    lambda call: call.event[0] == 33 and call.state[6] == 4095,
    lambda call: call.event[0] == 34 and call.state[11] == USABLE and call.state[4] == 0,
    lambda call: call.event[0] == 34 and call.state[11] == USABLE and call.state[4] == 1,
)
# What an entry tells beyond the inputs that `differences.py` has for it. A log of 1,048,577 records is longer than the programs lend.
ENTRIES = {
    "TIN with no xy": lambda lists: lists.was_read(0, 2, lambda tree: tree.events[:2] == (16, 1)),
    "read as CompoundCurve, CurvePolygon or MultiCurve: root stored as type 12, with a part of type 3 or 10":
    lambda lists: all(lists.was_read(0, where=lambda tree: tree.declared == declared and kinds_of(tree)[:2] == [12, kind])
                      for declared in (9, 10, 11) for kind in (3, 10)),
    "column above 65,535": lambda lists: lists.was_written(16, lambda case: case.column == 65536),
    "text not UTF-8, written": lambda lists: lists.was_written(6, lambda case: (case.kind, case.text, case.place) == (11, b"\x80", 0)),
    "value beyond its type": lambda lists: lists.was_written(11, lambda case: (case.kind, case.bits) == (2, 2))
    and lists.was_written(11, lambda case: (case.kind, case.bits) == (0, 256)) and lists.was_written(11, lambda case: case.kind == 15),
    "level 17": lambda lists: lists.was_read(13, 16, lambda tree: is_spare_set(tree, 16)),
    "bad record or table": lambda lists: lists.was_laid(RECORD, 10)
    and all(lists.was_read(10, 0, lambda tree: tree.declared == declared and is_spare_set(tree, 0)) for declared in (0, 255)),
    "malformed event": lambda lists: lists.was_laid(HEARD, 11, lambda event: event[3:4] == b"\1")
    and lists.was_called(EVENT, 11, lambda call: call.event[3:4] == b"\1"),
    "limits": lambda lists: all(lists.was_called(EVENT, 12, beyond) for beyond in BEYOND)
    and lists.was_written(12, lambda case: case.kind == 1 and case.used + 3 == USABLE + 1 <= case.length) and lists.was_read(9),
    "turn": lambda lists: lists.was_called(EVENT, 15),
    "a begin's size": lambda lists: lists.was_called(EVENT, 0, lambda call: struct.unpack_from("<BxxxI", call.event) == (2, TOP)),
    "Events as 64-byte records.": lambda lists: all(lists.was_laid(HEARD, number) for number in (0, 11)),
    "Geometry records and tables.": lambda lists: all(lists.was_laid(RECORD, number) and lists.was_read(number) for number in (0, 10)),
    "Limits.": lambda lists: lists.was_called(EVENT, 12) and lists.was_written(12) and lists.was_read(9) and lists.was_laid(SAID, 9),
    "Numbers of features.": lambda lists: lists.was_called(EVENT, 17) and lists.was_called(EVENTS, 17) and lists.was_laid(HEARD, 0, feature_of),
    "Turns.": lambda lists: all(lists.was_called(what, 15) for what in (EVENT, FINISH, NEXT)),
    "box of arcs": lambda lists: any((box.lent.table[:1], list(box.lent.words), box.number, box.edges) == (b"\x08", ARC, 0, ARC[:2] + ARC[4:])
                                     for box in lists.boxes),
    "Boxes by record number.": lambda lists: all(lists.was_laid(BOX, number) for number in (0, 10, 13)),
    "A begin's size": lambda lists: all(lists.was_laid(HEARD, number, lambda event: event[:1] == kind and any(event[4:8]))
                                        for kind, number in ((b"\2", 0), (b"\1", 11))),
}


def kinds_of(tree):
    """The stored type of each record."""
    return [first & 255 for first in tree.lists[0][::16]]


def whereabouts(answers):
    """Where texts go bad, of numbers with their places."""
    return {PLACES[(place > 0) + (place >= USABLE)] for number, place in answers if number == NOT_UTF8}


def is_spare_set(tree, record):
    """Of a record's first number, the upper half is spare."""
    return any(first >> 16 for first in tree.lists[0][16 * record:16 * record + 1])


def silent_parts(tree):
    """Of a collection that is read, the types of its parts that have no xy list and at most one end, where another part follows."""
    if tree.readings[0][2] or (tree.declared or kinds_of(tree)[0]) != 7:
        return []
    records = [tree.lists[0][at:at + 16] for at in range(0, len(tree.lists[0]), 16)]
    start, count = records[0][13:15]
    return [part[0] & 255 for part in records[start:start + count - 1] if not part[0] >> 8 & 1 and part[4] < 2]


def entries(path):
    """A row of a table by its name, or by its input where it has none; a point by the bold words at its head."""
    for line in open(path):
        if line.startswith("| "):
            first, second = line.split("|")[1:3]
            yield first.strip() or second.strip()
        elif line.startswith("- **"):
            yield line[4:].split("**")[0]


def is_covered(entry, lists):
    if entry not in differences.INPUTS and entry not in ENTRIES:
        return False
    return all(map(lists.has, differences.INPUTS.get(entry, []))) and (entry not in ENTRIES or ENTRIES[entry](lists))


def main():
    lists, missing = Lists(sys.argv[1]), []
    told = [entry for entry in entries(sys.argv[2]) if entry != "smallest input"]
    assert len(told) == len(set(told)), "two entries of one name"
    assert not lists.tells(Walk), "a box that is not by boxes.py"

    def show(what, wanted, found):
        absent = sorted(set(wanted) - set(found))
        missing.extend(f"{what} {one}" for one in absent)
        print(f"{what}: {len(wanted) - len(absent)} of {len(wanted)}")

    show("refusal", range(21), lists.refusals())
    show("number of many events in a call", (0, 5, 11, 12, 15, 17), [call.number for call in lists.calls if call.what == EVENTS])
    show("turn of a call with no event", (0, 1), [call.state[5] for call in lists.calls if call.what == EVENTS and not call.event])
    show("number of a property among calls", (0, 6, 11, 12, 15, 16), [call.number for call in lists.calls if call.what == PROPERTY])
    show("place of a text that is read", PLACES[:2], whereabouts((case.number, case.place) for case in lists.read))
    show("place of a text that is written", PLACES, whereabouts((case.number, case.place) for case in lists.written))
    show("place of a text among calls", PLACES[:2], whereabouts((call.number, call.count) for call in lists.calls if call.what == PROPERTY))
    show("order with 6", ((9, 6), (15, 6), (16, 6), (6, 12)), lists.orders())
    show("type written", TYPES, lists.types_written())
    show("type read", TYPES, lists.types_read())
    show("bit above the flags", (16, 32, 64, 128), [tree.flags & bit for tree in lists.trees for bit in (16, 32, 64, 128)])
    show("type of a silent part", (5, 17), [kind for tree in lists.trees for kind in silent_parts(tree)])
    show("change of mode", CHANGES, lists.changes())
    show("feature number heard", FEATURES, lists.numbers_heard(0))
    show("feature number of a malformed event", FEATURES, lists.numbers_heard(11))
    show("feature number said", FEATURES, lists.numbers_said())
    show("sort of a reading under a feature number", [(sort, n) for sort in (WHOLE, CUT, LARGE) for n in (0, 1, TOP)], lists.numbers_read())
    for what, wanted, found in features.shown(lists.rows):
        show(what, wanted, found)
    show("number of well-known binary", (0, 9, 13, 18, 19, 20), [number for _, number, *_ in lists.wkb])
    show("feature number of well-known binary", FEATURES, [feature for _, _, count, _, feature, _ in lists.wkb if count])
    show("number of a box", (0, 10, 13), [box.number for box in lists.boxes])
    show("slip of a box", [slip.__name__ for slip in SLIPS], [slip.__name__ for slip in SLIPS if lists.tells(slip)])
    show("entry of docs/DIFFERENCES.md", told, [entry for entry in told if is_covered(entry, lists)])
    show("name of an entry here", differences.INPUTS.keys() | ENTRIES.keys(), told)
    for one in missing:
        print("not covered:", one)
    sys.exit(bool(missing))


main()
