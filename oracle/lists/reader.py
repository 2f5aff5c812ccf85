#!/usr/bin/env python3
"""The cases of crates/reader_cases: trees, and the events that reading them puts into a log.

    oracle/lists/reader.py ORACLE > LIST

ORACLE is the oracle's program, the crate's own Rust. It reads every tree (request R). `Reading` below is this script's own reading of
SPEC 7. The script stops where the two differ. 9 for a log without room comes from `Reading` alone, and so does the feature's number in
every event. The seed is fixed: the same list comes out every time.

A tree is one case, with several readings of it, to logs of several lengths: all expect the first of the same events. The numbers of a
case, by their index:
  0: sort 6, 1: declared type, 2: flags, 3: the feature's number, 4: table length, and where it is described, 6: ends lent, and where
  they are described, 8: place and count lent of xy, and where it is described, and so on of z, m, t, tm, 23: where the events are
  described, 24: how many readings, 25: each reading (sort, 6 to 9, log length, number, count);
  the descriptions of the table, the ends, xy, z, m, t, tm, the events
The bytes of each of these are described as a row of numbers: a head, then a group that is repeated, then a tail. In each turn a
number of the group grows by its step (0, 1, 2 or 4); so a tree of thousands of records, or of 65,536 pairs, takes a few numbers.
Whatever was laid out so is compared here with what it stands for, the oracle's events among it. The numbers of a description:
  0: how many numbers the head has, 1: the group, 2: all its turns, 3: the tail; 4: the head, the group, its steps, the tail
"""
import collections, itertools, random, struct, sys

import differences
from cases import BAD, CUT, LARGE, TREE, WHOLE, frame
from client import Oracle, Store, ev, store

DONE, XY_ABSENT, PARTS_ABSENT, TYPE_UNKNOWN, NOT_A_CURVE = range(5)
PAST_LIST, BAD_END, LOG_FULL, BAD_RECORD, TOO_DEEP = 7, 8, 9, 10, 13
LISTS = ("xy", "ends", "z", "m", "t", "tm", "parts")
VALUES = LISTS[2:6]
WORD_POOLS = (0, 2, 3, 4, 5)
USABLE = (131072, 65536, 65536, 65536, 65536, 65536)
POINT, LINE, POLYGON, MULTI_POINT, MULTI_LINE, MULTI_POLYGON, COLLECTION = range(1, 8)
CIRCULAR, COMPOUND, CURVE_POLYGON, MULTI_CURVE, MULTI_SURFACE = range(8, 13)
SURFACE, TIN, TRIANGLE = 15, 16, 17
OWN = (POINT, LINE, POLYGON, MULTI_POINT, MULTI_LINE, CIRCULAR, TIN, TRIANGLE)
CURVES = (COMPOUND, CURVE_POLYGON, MULTI_CURVE, MULTI_SURFACE)
PARENTS = (MULTI_POLYGON, COLLECTION, *CURVES, SURFACE)
TOP = 2**32 - 1
TOO_LARGE = 2**31
oracle = Oracle(sys.argv[1])
pick = random.Random(3)


# The reading, as SPEC 7 has it.

class Refused(Exception):
    pass


class Reading:
    def __init__(self, table, pools, flags, feature):
        # Of the byte of flags the higher four bits are not looked at.
        self.table, self.pools, self.flags, self.feature, self.said = table, pools, flags & 15, feature, []

    def say(self, kind, **fields):
        self.said.append(ev(kind, feature=self.feature, **fields))

    def record(self, n, level):
        if level > 16:
            raise Refused(TOO_DEEP)
        records = min(len(self.table) // 64, 4096)
        if len(self.table) % 64 or n >= records:
            raise Refused(BAD_RECORD)
        kind, present, spare, *pairs, last = struct.unpack_from("<BBH14II", self.table, 64 * n)
        record = dict(type=kind, level=level)
        ends = [min(len(pool), usable) for pool, usable in zip(self.pools, USABLE)] + [records]
        for i, (name, end) in enumerate(zip(LISTS, ends)):
            start, count = pairs[2 * i:2 * i + 2]
            there = present >> i & 1
            if start + count > (end if there else 0):
                raise Refused(BAD_RECORD)
            pool = range(records) if name == "parts" else self.pools[i]
            record[name] = pool[start:start + count] if there else None
            if name == "parts" and there and start <= n:
                raise Refused(BAD_RECORD)
        if spare or last or present >> 7:
            raise Refused(BAD_RECORD)
        return record

    def pairs(self, record, first, stop):
        if record["xy"] is None:
            raise Refused(XY_ABSENT)
        seen = [(1 << i, name) for i, name in enumerate(VALUES) if self.flags >> i & 1 and record[name] is not None]
        for n in range(first, stop):
            pair = record["xy"][2 * n:2 * n + 2]
            if len(pair) < 2 or any(n >= len(record[name]) for _, name in seen):
                raise Refused(PAST_LIST)
            values = {name: record[name][n] for _, name in seen}
            self.say(65 if self.flags else 64, idx=n - first, present=sum(bit for bit, _ in seen), x=pair[0], y=pair[1], **values)

    def line(self, record, kind, idx, stretch=None, tagged=0):
        """The pairs from one number to another, or the whole list."""
        if stretch is None and record["xy"] is None:
            raise Refused(XY_ABSENT)
        first, stop = stretch or (0, (len(record["xy"]) + 1) // 2)
        self.say(kind, tagged=tagged, size=stop - first if stretch else len(record["xy"]) // 2, idx=idx)
        self.pairs(record, first, stop)
        self.say(kind + 32, tagged=tagged, idx=idx)

    def stretches(self, record):
        """None, the whole list, for no end or one."""
        ends = record["ends"] or []
        return [None] if len(ends) < 2 else list(zip([0, *ends], ends))

    def judge(self, stretch):
        if stretch and (stretch[1] < stretch[0] or stretch[1] >= TOO_LARGE):
            raise Refused(BAD_END)

    def lines(self, record, kind, idx, tagged=0):
        stretches = self.stretches(record)
        self.say(kind, tagged=tagged, size=len(stretches), idx=idx)
        for i, stretch in enumerate(stretches):
            self.judge(stretch)
            self.line(record, LINE, i, stretch)
        self.say(kind + 32, tagged=tagged, idx=idx)

    def triangles(self, record, tagged, idx):
        stretches = self.stretches(record)
        if stretches == [None]:
            return self.lines_if_any(record, TRIANGLE, idx, tagged)
        for i, stretch in enumerate(stretches):
            self.say(TRIANGLE, tagged=tagged, size=1, idx=i)
            self.judge(stretch)
            self.line(record, LINE, 0, stretch)
            self.say(TRIANGLE + 32, tagged=tagged, idx=i)

    def lines_if_any(self, record, kind, idx, tagged=0):
        if record["xy"] is not None or self.stretches(record) != [None]:
            self.lines(record, kind, idx, tagged)

    def parts(self, record, kind, idx, read_part):
        if record["parts"] is None:
            raise Refused(PARTS_ABSENT)
        self.say(kind, size=len(record["parts"]), idx=idx)
        for i, n in enumerate(record["parts"]):
            read_part(self.record(n, record["level"] + 1), i)
        self.say(kind + 32, idx=idx)

    def curve(self, record, kind, idx):
        stored = record["type"]

        def read_part(part, i):
            if part["type"] in (LINE, CIRCULAR):
                self.line(part, part["type"], i)
            elif part["type"] == COMPOUND and stored != COMPOUND:
                self.curve(part, COMPOUND, i)
            elif part["type"] == POLYGON and stored == MULTI_SURFACE:
                self.lines(part, POLYGON, i, tagged=1)
            elif part["type"] == CURVE_POLYGON and stored == MULTI_SURFACE:
                self.curve(part, CURVE_POLYGON, i)
            else:
                raise Refused(NOT_A_CURVE)
        self.parts(record, kind, idx, read_part)

    def geometry(self, record, kind, idx):
        if kind == POINT:
            self.say(POINT, idx=idx)
            self.pairs(record, 0, 1)
            self.say(POINT + 32, idx=idx)
        elif kind in (LINE, MULTI_POINT, CIRCULAR):
            self.line(record, kind, idx, tagged=int(kind == LINE))
        elif kind == POLYGON:
            self.lines(record, POLYGON, idx, tagged=1)
        elif kind == MULTI_LINE:
            self.lines_if_any(record, MULTI_LINE, idx)
        elif kind in (MULTI_POLYGON, SURFACE):
            self.parts(record, kind, idx, lambda part, i: self.lines(part, POLYGON, i))
        elif kind == COLLECTION:
            self.parts(record, kind, idx, lambda part, i: self.geometry(part, part["type"], i))
        elif kind in CURVES:
            self.curve(record, kind, idx)
        elif kind == TIN:
            self.say(TIN, size=len(self.stretches(record)), idx=idx)
            self.triangles(record, 0, 0)
            self.say(TIN + 32, idx=idx)
        elif kind == TRIANGLE:
            self.triangles(record, 1, idx)
        else:
            raise Refused(TYPE_UNKNOWN)


def read_by_spec(table, pools, declared, flags, feature):
    reading = Reading(table, pools, flags, feature)
    try:
        root = reading.record(0, 1)
        reading.geometry(root, declared or root["type"], 0)
    except Refused as refused:
        return refused.args[0], reading.said
    return DONE, reading.said


def answer(table, pools, declared, flags, feature):
    number, said = read_by_spec(table, pools, declared, flags, feature)
    asked = oracle.read(Store(table, pools), declared, flags, feature)
    assert (asked.number, asked.events) == (number, said), (declared, flags, table, pools, number, asked)
    counts["trees"] += 1
    return number, said


# Cases.

counts = collections.Counter()
# What trees are read under, one after the other, where no number is given.
features = itertools.cycle((0, 1, TOP, 0x04030201))


def description(data, head=0, group=0, tail=0):
    """Without a group the row is all head."""
    row = struct.unpack(f"<{len(data) // 4}I", data)
    if not group:
        head = len(row)
    turns = row[head:len(row) - tail]
    steps = [second - first for first, second in zip(turns, turns[group:2 * group])]
    assert all(n == turns[i % group] + i // group * steps[i % group] for i, n in enumerate(turns))
    assert len(steps) == group and all(step in (0, 1, 2, 4) for step in steps)
    numbers = (head, group, len(turns), tail, *row[:head], *turns[:group], *steps, *row[len(row) - tail:])
    return struct.pack(f"<{len(numbers)}I", *numbers)


def reading_of(number, said, length, sort):
    room = length // 64
    if len(said) > room:
        number, said, sort = LOG_FULL, said[:room], LARGE if sort == LARGE else CUT
    counts[sort, number] += 1
    return sort, length, number, len(said)


def log_lengths(events):
    """Exactly enough, more, one too few, none, and some between; with and without a remainder."""
    rest = lambda: pick.choice((0, 0, 1, 63, pick.randrange(64)))
    rooms = [events, events + pick.randrange(1, 3)]
    rooms += sorted({max(events - 1, 0), 0, pick.randint(0, events), pick.randint(0, events)} - {events})
    return [64 * room + rest() for room in rooms]


def case(table, pools, declared=0, flags=0, sort=WHOLE, lengths=log_lengths, shape={}, feature=None):
    """`shape` has the head, group and tail of what is not described as a head alone."""
    feature = next(features) if feature is None else feature
    number, said = answer(table, pools, declared, flags, feature)
    sort = BAD if sort == WHOLE and number == BAD_RECORD else sort
    readings = [reading_of(number, said, length, sort) for length in lengths(len(said))]
    packed = [struct.pack(f"<{len(pool)}{'I' if i == 1 else 'Q'}", *pool) for i, pool in enumerate(pools)]
    rows = dict(table=table + bytes(-len(table) % 4), ends=packed[1], **{LISTS[i]: packed[i] for i in WORD_POOLS}, events=b"".join(said))
    places = list(itertools.accumulate([0] + [len(pools[i]) for i in WORD_POOLS]))
    assert max(len(table) - 262272, places[-1] - 262208, len(pools[1]) - 65540) <= 0
    descriptions = [description(row, *shape.get(name, ())) for name, row in rows.items()]
    where = itertools.accumulate([25 + 4 * len(readings)] + [len(description) // 4 for description in descriptions])
    lent = [[len(table)], [len(pools[1])], *[[place, len(pools[i])] for place, i in zip(places, WORD_POOLS)], []]
    lists = [n for numbers, at in zip(lent, where) for n in (*numbers, at)]
    framed = frame(TREE, declared, flags, feature, *lists, len(readings), *itertools.chain(*readings), *descriptions)
    assert len(framed) <= 65540
    return framed


# Trees.

SPECIAL = [0, 1 << 63, 0x7FF0 << 48, 0xFFF0 << 48, 0x7FF0000000000001, 0xFFF8123456789ABC, 0x7FF7FFFFFFFFFFFF, 1, 2**64 - 1]


def words(count):
    return [pick.choice(SPECIAL) if pick.random() < 0.1 else pick.getrandbits(64) for _ in range(count)]


def noise(i):
    count = pick.choice((0, 0, 1, 2))
    return [pick.randrange(9) for _ in range(count)] if i == 1 else words(count)


def record(kind, present, pairs):
    """`pairs` are the start and count of each list."""
    return struct.pack("<BBH14II", kind, present, 0, *pairs, 0)


def laid(root, gaps=0.15):
    """Table and pools of a tree of dicts, breadth first. A list that two records have in common (the same object) stands there once.
    Around the lists are words, and between the records bad ones, that no reading may come to."""
    nodes, pools, places, table = [root], [noise(i) for i in range(6)], {}, []
    for n in itertools.count():
        if n == len(nodes):
            return b"".join(table), [pool + noise(i) for i, pool in enumerate(pools)]
        if nodes[n] is None:
            table.append(pick.randbytes(64))
            continue
        present, pairs = 0, []
        for i, name in enumerate(LISTS):
            given = nodes[n].get(name)
            if given is None:
                pairs += [0, 0]
                continue
            pool, between = (nodes, [None] * (pick.random() < gaps)) if name == "parts" else (pools[i], noise(i))
            place = places.get((name, id(given)))
            if place is None or name == "parts" and place <= n:
                pool += between
                place = places[name, id(given)] = len(pool)
                pool += given
            present |= 1 << i
            pairs += [place, len(given)]
        table.append(record(nodes[n]["type"], present, pairs))


def some_ends(pairs):
    def rising():
        return sorted(pick.randint(0, pairs) for _ in range(pick.randint(2, 4)))
    choice = pick.random()
    if choice < 0.4:
        return rising()
    if choice < 0.5:
        return [pick.randint(0, pairs) for _ in range(pick.randint(2, 4))]
    if choice < 0.6:
        return rising() + [pairs + pick.randint(1, 3)]
    if choice < 0.65:
        return rising() + [pick.choice((TOO_LARGE - 1, TOO_LARGE, TOO_LARGE + pairs, TOP))]
    if choice < 0.75:
        return [pick.randint(0, 2 * pairs)]
    return [] if choice < 0.8 else None


def some_values(pairs):
    choice = pick.random()
    if choice < 0.25:
        return None
    if choice < 0.35:
        return words(pick.randrange(pairs + 1))
    return words(pairs + pick.choice((0, 0, 1)))


def node(kind, pairs=None, **lists):
    """A record with lists of its own, at random where they are not given."""
    if pairs is None:
        pairs = pick.choice((0, 1, 1, 2, 3, 4, 5))
    choice = pick.random()
    xy = None if choice < 0.06 else words(max(2 * pairs + (choice < 0.15) - 2 * (choice < 0.1), 0))
    own = dict(type=kind, xy=xy, ends=some_ends(pairs), **{name: some_values(pairs) for name in VALUES})
    own.update(lists)
    return own


def some_flags():
    return pick.choice((0, 0, pick.randrange(16)))


def some_tree(levels, kind):
    parts = None
    if kind in PARENTS and pick.random() < 0.95:
        parts = [some_tree(levels - 1, some_part(kind)) for _ in range(pick.choice((0, 1, 2, 2, 3)) if levels > 1 else 0)]
    if kind in OWN or pick.random() < 0.1:
        return node(kind, parts=parts)
    return dict(type=kind, parts=parts)


USUAL_PARTS = {
    MULTI_POLYGON: (POLYGON, POLYGON, 0),
    COLLECTION: (*OWN, *PARENTS),
    COMPOUND: (LINE, CIRCULAR),
    CURVE_POLYGON: (LINE, CIRCULAR, COMPOUND),
    MULTI_CURVE: (LINE, CIRCULAR, COMPOUND),
    MULTI_SURFACE: (LINE, CIRCULAR, COMPOUND, POLYGON, CURVE_POLYGON),
    SURFACE: (POLYGON, LINE),
}


def some_part(kind):
    if pick.random() < 0.06:
        return pick.randrange(19)
    return pick.choice(USUAL_PARTS[kind])


def pair():
    return words(2)


def good_node(kind):
    """Two pairs, and parts for whoever needs some: read in any role."""
    lines = [dict(type=LINE, xy=pair())]
    return dict(type=kind, xy=words(4), ends=pick.choice((None, [1, 2])), parts=lines if kind in PARENTS else None)


ENDS = [[0], [3], [9], [TOO_LARGE], [], [0, 0], [0, 3], [3, 3], [1, 3], [2, 1], [3, 2], [1, 1, 3], [0, 0, 3], [1, 2], [2, 2, 2],
        [1, 4], [4, 4], [5, 6], [3, 4], [3, 3, 4], [4, 3], [3, 1, 2], [0, 2, 1, 3], [1, 2, 3, 3], [TOO_LARGE - 1] * 2,
        [1, TOO_LARGE - 1], [1, TOO_LARGE], [TOO_LARGE, 1], [TOO_LARGE + 1, 3], [3, TOO_LARGE + 3], [1, TOO_LARGE + 2, 3], [TOP, 0],
        [0, TOP]]


def trees():
    """Each with the declared type and the flags."""
    # Every type at the root, under every set of flags.
    for kind, flags in itertools.product((*OWN, *PARENTS), range(16)):
        yield some_tree(pick.choice((2, 3)), kind), pick.choice((0, kind)), flags
    # Lists absent, empty, odd and even, with no end, one and two.
    for kind, xy, ends in itertools.product(OWN, (None, 0, 1, 2, 5, 6), (None, [], [1], [2, 3])):
        yield node(kind, 3, xy=None if xy is None else words(xy), ends=ends), 0, some_flags()
    # Ends: rising, repeated, falling, past the list, too large.
    for kind, ends in itertools.product((POLYGON, MULTI_LINE, TIN, TRIANGLE), ENDS):
        yield node(kind, 3, xy=words(6), ends=ends, **{name: words(3) for name in VALUES}), 0, some_flags()
    for ends in ENDS:
        part = dict(type=POLYGON, xy=words(6), ends=ends, z=words(3))
        yield dict(type=MULTI_POLYGON, parts=[dict(type=POLYGON, xy=pair()), part]), 0, pick.choice((0, 1))
        yield dict(type=pick.choice((POLYGON, MULTI_LINE, TIN, TRIANGLE)), ends=ends), 0, some_flags()
    # Every set of flags over values that are absent, short, enough, too many; in stretches too.
    for kind, flags in itertools.product((POINT, LINE, MULTI_LINE, TRIANGLE), range(16)):
        yield node(kind, 3, xy=words(6), ends=[1, 1, 3]), 0, flags
        yield node(kind, 3, xy=words(6), ends=[1, 3], **{name: words(3) for name in VALUES}), 0, flags
        values = {name: pick.choice((None, words(2), words(3), words(4))) for name in VALUES}
        yield node(kind, 3, xy=words(6), ends=[2, 3], **values), 0, flags
    # Every type as a part of every type that has parts, and again beside parts that are read.
    for parent, kind in itertools.product(PARENTS, (*range(19), 255)):
        yield dict(type=parent, parts=[good_node(kind)]), 0, 0
        yield dict(type=parent, parts=[dict(type=LINE, xy=pair()), some_tree(2, kind), dict(type=CIRCULAR, xy=pair())]), 0, some_flags()
    # No part, and an empty list of them.
    for parent, parts, flags in itertools.product(PARENTS, (None, []), (0, 1)):
        yield dict(type=parent, xy=[], parts=parts), 0, flags
        yield dict(type=COLLECTION, parts=[good_node(POINT), dict(type=parent, parts=parts), good_node(POINT)]), 0, flags
    # Every declared type over some stored ones, and every unknown type.
    for declared, stored in itertools.product((*range(20), 128, 255), (0, POINT, POLYGON, COLLECTION, COMPOUND, MULTI_SURFACE, 14)):
        yield dict(type=stored, xy=words(4), ends=[1, 2], parts=[good_node(pick.choice((LINE, POLYGON)))]), declared, 0
    for kind in (0, 13, 14, *range(18, 256, 7), 255):
        yield node(kind), 0, some_flags()
        yield node(LINE, 2), kind, some_flags()
    # The rules of curves go by the stored type.
    for declared, stored, kind in itertools.product((0, *CURVES), (*CURVES, COLLECTION), USUAL_PARTS[MULTI_SURFACE]):
        yield dict(type=stored, parts=[good_node(kind), good_node(LINE)]), declared, 0
    for outer, inner, kind in itertools.product(CURVES, (COMPOUND, CURVE_POLYGON), (LINE, POLYGON, COMPOUND, CURVE_POLYGON)):
        yield dict(type=outer, parts=[dict(type=inner, parts=[good_node(kind)])]), 0, 0
    # Deeper ones.
    for _ in range(150):
        kind = pick.choice((COLLECTION, COLLECTION, COLLECTION, MULTI_SURFACE, MULTI_POLYGON))
        yield some_tree(pick.choice((3, 4, 5)), kind), 0, some_flags()
    yield from shared_trees()
    yield from chains()


def shared_trees():
    for flags in range(16):
        # Lists and parts that several records have in common.
        lines = [node(LINE, 2), node(POLYGON, 3)]
        coordinates = dict(xy=words(6), z=words(3), ends=[1, 3])
        group = lambda kind: dict(type=kind, parts=lines)
        yield dict(type=COLLECTION, parts=[group(COLLECTION), group(MULTI_SURFACE), group(MULTI_POLYGON)]), 0, flags
        yield dict(type=COLLECTION, parts=[dict(type=kind, **coordinates) for kind in (POLYGON, MULTI_LINE, LINE, TIN)]), 0, flags
        # One list of words for xy and for what stands beside it.
        both = words(6)
        yield dict(type=COLLECTION, parts=[dict(type=LINE, xy=both, m=both[:3]), dict(type=MULTI_POINT, xy=both, tm=both)]), 0, flags
    level = [dict(type=POINT, xy=pair())] * 2
    for _ in range(5):
        level = [dict(type=COLLECTION, parts=level)] * 2
    yield level[0], 0, 0


def chain(levels, last, beside=False):
    tree = last
    for _ in range(levels - 1):
        tree = dict(type=COLLECTION, parts=[tree] + [dict(type=POINT, xy=pair())] * beside)
    return tree


def chains():
    for levels in (1, 2, 8, 14, 15, 16, 17, 18):
        for last in (dict(type=POINT, xy=pair()), dict(type=COLLECTION), dict(type=COLLECTION, parts=[]), dict(type=0), node(POLYGON, 3)):
            yield chain(levels, last), pick.choice((0, 0 if levels == 1 else COLLECTION)), 0
        yield chain(levels, dict(type=POINT, xy=pair()), beside=True), 0, 0
    for levels in (13, 14, 15, 16):
        yield chain(levels, dict(type=MULTI_POLYGON, parts=[node(POLYGON, 2)])), 0, 0
        yield chain(levels, dict(type=SURFACE, parts=[])), 0, 0
        compound = dict(type=COMPOUND, parts=[dict(type=LINE, xy=pair()), dict(type=CIRCULAR, xy=words(4))])
        yield chain(levels, dict(type=MULTI_CURVE, parts=[compound])), 0, 0
        yield chain(levels, dict(type=MULTI_SURFACE, parts=[dict(type=CURVE_POLYGON, parts=[compound])])), 0, 0


# Bad records and tables.

def changed(table, at, width, value):
    return table[:at] + value.to_bytes(width, "little") + table[at + width:]


def spoiled(table, n, pools):
    """A table with record n bad in one way, and at the bounds just not."""
    at = 64 * n
    _, present, _, *pairs, _ = struct.unpack_from("<BBH14II", table, at)
    yield changed(table, at + 1, 1, present | 128)
    for spare in (2, 3, 60, 61, 62, 63):
        yield changed(table, at + spare, 1, 1)
    for i, end in enumerate([len(pool) for pool in pools] + [len(table) // 64]):
        start, count = pairs[2 * i:2 * i + 2]
        here = at + 4 + 8 * i
        if present >> i & 1:
            yield changed(table, here + 4, 4, end - start)
            yield changed(table, here + 4, 4, end - start + 1)
            yield changed(table, here, 8, end)
            yield changed(table, here, 8, end + 1)
            yield changed(table, here, 8, TOP << 32 | 1)
            yield changed(table, at + 1, 1, present ^ 1 << i)
        else:
            yield changed(table, here, 4, 1)
            yield changed(table, here + 4, 4, 1)
    yield from (changed(changed(table, at + 1, 1, present | 64), at + 52, 8, start) for start in {0, max(n - 1, 0), n, n + 1})


def small_trees():
    """Each with the number of the record to spoil."""
    yield dict(type=POLYGON, xy=words(4), z=words(2), m=words(2), t=words(2), tm=words(2), ends=[1, 2]), 0
    for kind in (COLLECTION, MULTI_POLYGON, MULTI_SURFACE):
        yield dict(type=kind, parts=[dict(type=LINE, xy=pair())] * 2), 0
        yield dict(type=kind, parts=[dict(type=LINE, xy=pair()), dict(type=LINE, xy=pair(), tm=words(1), parts=[])]), 2
    yield chain(16, dict(type=POINT, xy=pair())), 15
    yield chain(17, dict(type=POINT, xy=pair())), 16


def bad_cases():
    for tree, n in small_trees():
        table, pools = laid(tree, gaps=0)
        for spoilt in spoiled(table, n, pools):
            yield case(spoilt, pools)
        if n == 0:
            for length in (0, 4, 60, 68, 124):
                yield case((table + bytes(64))[:length], pools)
            yield case(table + bytes(1), pools)
            yield case(table + bytes(63), pools)
            yield case(table + bytes(64), pools)
    for _ in range(100):
        table, pools = laid(some_tree(3, pick.choice((*OWN, *PARENTS))))
        at = pick.randrange(min(len(table), 192))
        yield case(changed(table, at, 1, pick.randrange(256)), pools, 0, some_flags())
    # The usable room, and one more.
    empty = [[] for _ in USABLE]
    for i, usable in enumerate(USABLE):
        pools = empty[:i] + [[0] * (usable + 2)] + empty[i + 1:]
        for pair_of_list in ((usable, 0), (usable - 1, 1), (usable, 1), (usable + 1, 0), (0, usable + 1)):
            pairs = [0] * 14
            pairs[2 * i:2 * i + 2] = pair_of_list
            yield case(record(TIN, 1 << i, pairs), pools, shape={LISTS[i]: (0, 2, 0)})
    parts = ((4095, 1), (4096, 0), (4096, 1), (4097, 0), (1, 4096))
    for records, (start, count) in itertools.product((4096, 4097), parts):
        root = record(COLLECTION, 64, [0] * 12 + [start, count])
        yield case(root + record(POINT, 1, [0, 2] + [0] * 12) * (records - 1), [pair()] + empty[1:], shape=dict(table=(16, 16, 0)))


# Large trees.

def pair_words(n):
    """Pairs by their number, in both halves of each word."""
    return [word for i in range(n) for word in ((0x3FF00000 + i << 32) + i, (0xC0000000 + i << 32) + 0x10000 + i)]


def value_words(n, high):
    return [(high + i << 32) + 2 * i for i in range(n)]


def large_lengths(events):
    return [64 * events, 64 * events + 63, 64 * events - 64, 64 * events - 1, events // 2 * 64 + 1, 64, 63]


def large(table, pools, shape, per_turn, flags=0, tail=1):
    """Of the events so many repeat, after the first and before the last."""
    return case(table, pools, 0, flags, LARGE, large_lengths, dict(shape, events=(16, 16 * per_turn, 16 * tail)))


def large_cases():
    most = 65536
    empty = [[] for _ in USABLE]
    each_pair, each_record = dict(xy=(0, 4, 0)), dict(table=(16, 16, 0))
    line = [pair_words(most)] + empty[1:]
    yield large(record(LINE, 1, [0, 2 * most] + [0] * 12), line, each_pair, 1)
    # A word short: the last pair is not there.
    yield large(record(LINE, 1, [0, 2 * most - 1] + [0] * 12), line, each_pair, 1, tail=0)
    pools = [pair_words(most), [], value_words(most, 7), [], [], value_words(most, 9)]
    for flags in (0, 1, 8, 15):
        given = record(MULTI_POINT, 37, [0, 2 * most, 0, 0, 0, most, 0, 0, 0, 0, 0, most, 0, 0])
        yield large(given, pools, dict(each_pair, z=(0, 2, 0), tm=(0, 2, 0)), 1, flags)
    # Two rings to each of 4,095 parts.
    parts = b"".join(record(POLYGON, 3, [4 * i, 4, 2 * i, 2] + [0] * 10) for i in range(4095))
    table = record(MULTI_POLYGON, 64, [0] * 12 + [1, 4095]) + parts
    yield large(table, [pair_words(2 * 4095), [1, 2] * 4095] + empty[2:], dict(each_record, xy=(0, 8, 0), ends=(0, 2, 0)), 8)
    parts = b"".join(record(POINT, 1, [2 * i, 2] + [0] * 12) for i in range(4095))
    table = record(COLLECTION, 64, [0] * 12 + [1, 4095]) + parts
    yield large(table, [pair_words(4095)] + empty[1:], dict(each_record, **each_pair), 3)
    # A pair to each end.
    for kind, per_end, count in ((MULTI_LINE, 3, 21000), (TIN, 5, 13000)):
        given = record(kind, 3, [0, 2 * count, 0, count] + [0] * 10)
        yield large(given, [pair_words(count), list(range(1, count + 1))] + empty[2:], dict(each_pair, ends=(0, 1, 0)), per_end)
    # As many empty lines as the log has room for.
    yield large(record(POLYGON, 3, [0, 0, 0, most // 2] + [0] * 10), [[], [0] * (most // 2)] + empty[2:], dict(ends=(0, 1, 0)), 2)


def difference_cases():
    """The smallest inputs of docs/DIFFERENCES.md, and a bad record under every sort of declared type."""
    for given in differences.inputs_of(differences.Reading):
        made = store(given.tree)
        yield case(made.table, made.pools, given.declared, given.flags)
    point = store(dict(type=POINT, xy=pair()))
    for declared in (0, POINT, COLLECTION, 13, 255):
        yield case(changed(point.table, 2, 1, 1), point.pools, declared)


def silent_trees():
    """A MultiLineString or Triangle of which nothing is said, and a TIN of which only begin and end are, in a collection: alone, beside
    parts that are read, beside each other, before a refusal, in a collection of its own, and at the last level and past it."""
    for kind, ends in itertools.product((MULTI_LINE, TRIANGLE, TIN), (None, [], [1], [TOO_LARGE], [0, 0])):
        silent, other = dict(type=kind, ends=ends, z=words(1)), dict(type=TRIANGLE if kind == MULTI_LINE else MULTI_LINE)
        for parts in ([silent], [silent, good_node(POINT)], [good_node(LINE), silent, good_node(TRIANGLE)],
                      [silent, other, silent, good_node(MULTI_LINE)], [silent, dict(type=POINT)], [silent, dict(type=13)],
                      [dict(type=COLLECTION, parts=[silent]), good_node(POLYGON)], [dict(type=COLLECTION, parts=[silent, other])] * 2):
            yield dict(type=COLLECTION, parts=parts), pick.choice((0, COLLECTION)), some_flags()
        for levels in (16, 17):
            yield chain(levels, silent, beside=True), 0, 0


def higher_flag_trees():
    """The byte's higher four bits: every set of them over no flag; one of them, and all, over every set of flags."""
    for flags in (*range(16, 256, 16), *range(17, 32), *range(241, 256)):
        for absent in ([], [None]):
            values = {name: pick.choice([words(3), *absent]) for name in VALUES}
            yield node(pick.choice(OWN), 3, xy=words(6), ends=[1, 3], **values), 0, flags


def numbered_cases():
    """Each type, with no flag and with all, read under each of these numbers; and a bad record."""
    for kind, flags in itertools.product((*OWN, *PARENTS), (0, 15)):
        tree = laid(dict(good_node(kind), **{name: words(2) for name in VALUES}))
        yield from (case(*tree, 0, flags, feature=feature) for feature in (0, 1, 256, 2**24, TOP))
    yield from (case(changed(record(LINE, 0, [0] * 14), 3, 1, 1), [[]] * 6, feature=feature) for feature in (0, 1, TOP))


def main():
    write = sys.stdout.buffer.write
    for tree, declared, flags in trees():
        table, pools = laid(tree)
        write(case(table, pools, declared, flags))
    for framed in itertools.chain(bad_cases(), large_cases(), difference_cases()):
        write(framed)
    for tree, declared, flags in itertools.chain(silent_trees(), higher_flag_trees()):
        write(case(*laid(tree), declared, flags))
    for framed in numbered_cases():
        write(framed)
    for what, count in sorted(counts.items(), key=str):
        print(what, count, file=sys.stderr)


main()
