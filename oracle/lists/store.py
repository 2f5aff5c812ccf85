#!/usr/bin/env python3
"""The cases of crates/store_cases: event records, logs, geometry records, boxes.

    oracle/lists/store.py ORACLE > LIST

ORACLE is the oracle's program, the crate's own Rust. Its client's builders lay out the events and the trees (`ev`, `store`). Each
expected number, list and edge is this script's own reading of SPEC 3 and 8 (of boxes boxes.py's). The oracle is asked too where it has an
answer, and this script stops where the two differ: whether an event of 64 bytes is malformed, and the box that a writer keeps over the
same pairs, those of all parts joined. It has none for refusals 9, 10 and 13, and knows no feature numbers. The seed is fixed: the same
list comes out every time.

The numbers of a case, by their index; a word takes two.
  event    0: sort 0, 1: number, 2: the feature's number, 0 where the event has not 64 bytes; the event
  said     0: sort 1, 1: number, 2: log length, 3: count (word), 5: count after (word), 7: place; the event, with the number of the feature
           that it is said under in its place, the bytes at that place of the log after
  record   0: sort 2, 1: number, 2: record (word), 4: table length, 5: place, 6: type, 7: lent of each pool,
           13: each list (present, start, count); the bytes at that place
  box      0: sort 3, 1: number, 2: record (word), 4: table length, 5: place, 6: bytes of the table, 7: lent of xy, 8: place of the
           words, 9: lent of the other pools, 14: four edges (words); so many bytes of the table at their place, the words at theirs
"""
import itertools, random, struct, sys

from boxes import ARC, ABSENT, BAD_RECORD, DONE, INFINITY, SIGN, USABLE, Lent, Walk, judged
from cases import BOX, HEARD, RECORD, SAID, frame, word
from client import Oracle, begin, bits, ev, feature_of, store, under

LOG_FULL, MALFORMED = 9, 11
TOP = 2**32 - 1
oracle = Oracle(sys.argv[1])
pick = random.Random(1)


# Events.

TYPES = set(range(1, 18)) - {13, 14}
KINDS = sorted(TYPES | {t + 32 for t in TYPES} | {64, 65})
TAGGED_TYPES = {2, 3, 17}


def event_number(event):
    if len(event) != 64 or event[0] not in KINDS:
        return MALFORMED
    kind, tagged, present, spare, size, _, _, x, y, z, m, t, tm = struct.unpack("<BBBBIII6Q", event)
    unused = [spare, tagged // 2, present // 16]
    if kind >= 64 or kind % 32 not in TAGGED_TYPES:
        unused.append(tagged)
    if kind >= 32 or kind == 1:
        unused.append(size)
    if kind < 64:
        unused += [x, y]
    if kind != 65:
        unused.append(present)
    unused += [value for i, value in enumerate((z, m, t, tm)) if not present >> i & 1]
    return MALFORMED if any(unused) else DONE


def full_event(kind):
    """A well-formed event, of feature 0, in which no byte of another used number is zero."""
    filled = lambda size: int.from_bytes(pick.choices(range(1, 256), k=size), "little")
    fields = dict(idx=filled(4))
    if kind < 64 and kind % 32 in TAGGED_TYPES:
        fields.update(tagged=pick.randrange(2))
    if 1 < kind < 32:
        fields.update(size=filled(4))
    if kind >= 64:
        fields.update(x=filled(8), y=filled(8))
    if kind == 65:
        present = pick.randrange(16)
        fields.update(present=present)
        fields.update({name: filled(8) for i, name in enumerate(("z", "m", "t", "tm")) if present >> i & 1})
    return ev(kind, **fields)


def altered(record, at, value):
    return record[:at] + bytes([value]) + record[at + 1:]


def events():
    single = [{}, dict(tagged=1), dict(tagged=2), dict(size=1), dict(idx=TOP)]
    single += [dict(present=1 << i) for i in range(5)] + [{name: 1} for name in ("x", "y", "z", "m", "t", "tm")]
    for kind in range(256):
        yield from (ev(kind, **fields) for fields in single)
        yield altered(ev(kind), 3, 1)
        yield altered(ev(kind), pick.randrange(12, 16), 1)
    for kind, at in itertools.product(KINDS, range(64)):
        event = full_event(kind)
        yield altered(event, at, event[at] ^ pick.randrange(1, 256))
    for present, at in itertools.product(range(16), range(4)):
        values = {name: 1 << 8 * at for i, name in enumerate(("z", "m", "t", "tm")) if present >> i & 1}
        yield ev(65, present=present, **values)
        yield ev(65, present=present ^ 1 << at, **values)
    for length in range(81):
        yield (full_event(pick.choice(KINDS)) + bytes(16))[:length]
    for _ in range(400):
        yield full_event(pick.choice(KINDS))
        yield pick.randbytes(64)


# Numbers of features: of one byte, of each other byte alone, and of all four.
FEATURES = (0, 1, 255, 256, 65536, 2**24, 2**31, 0x04030201, TOP)


def numbered_events():
    """Every kind under each number: as it is, malformed in each way that the head can be, and a byte too short or too long."""
    for kind, feature in itertools.product(KINDS, FEATURES):
        event = under(feature, full_event(kind))
        yield event
        yield from (altered(event, at, value) for at, value in ((0, 13), (1, 2), (2, 16), (3, 1)))
        yield event[:63]
        yield event + b"\0"


def event_case(event):
    number = event_number(event)
    if len(event) == 64:
        answered = oracle.write([event]).numbers[0]
        assert (answered == MALFORMED) == (number == MALFORMED), event
    return frame(HEARD, number, feature_of(event) if len(event) == 64 else 0, event)


def said_case(event, length, count):
    if count < min(length // 64, 1048576):
        return frame(SAID, DONE, length, word(count), word(count + 1), 64 * count, event, event)
    return frame(SAID, LOG_FULL, length, word(count), word(count), 0, event)


def said_in_turn(good):
    for event in good:
        records = pick.randrange(1, 6)
        yield said_case(event, 64 * records + pick.randrange(64), pick.randrange(records))


def said_cases(good):
    yield from said_in_turn(good)
    for records, rest in itertools.product((0, 1, 2, 3, 4, 4097), (0, 1, 63)):
        for count in sorted({0, 1, max(records - 1, 0), records, records + 1, 1048575, 1048576, 2**32, 2**58, 2**58 + 1, 2**64 - 1}):
            yield said_case(pick.choice(good), 64 * records + rest, count)


# Geometry records.

def record(kind=0, lists=(), spare=0, last=0, top=0):
    """`lists` by number: (1, start, count), or (0, start, count) for a list that is absent and should be zeros."""
    rows = [dict(lists).get(i, ABSENT) for i in range(7)]
    present = sum(row[0] << i for i, row in enumerate(rows)) | top << 7
    return struct.pack("<BBH14II", kind, present, spare, *(n for row in rows for n in row[1:]), last)


def record_case(given, n=0, records=1, lent=(9,) * 6, rest=0):
    length, place = 64 * records + rest, min(64 * n, TOP)
    found = judged(length, given, n, lent)
    kind, rows = found or (0, [ABSENT] * 7)
    head = (RECORD, DONE if found else BAD_RECORD, word(n), length, place, kind)
    return frame(*head, *lent, *(part for row in rows for part in row), given)


def bound_pairs(end):
    """Starts and counts that end at a bound, and the first ones that pass it; the last would be 0 in 32 bits."""
    pairs = [(0, end), (end, 0), (end // 2, end - end // 2), (0, end + 1), (end + 1, 0), (end, 1), (1, end)]
    return pairs + [(TOP, TOP), (1, TOP), (TOP, 1)]


def some_record(lent, n, records):
    rows = {}
    for i, end in enumerate(list(lent) + [records]):
        low = n + 1 if i == 6 else 0
        if pick.random() < 0.6 and low <= end:
            start = pick.randint(low, end)
            rows[i] = (1, start, pick.randint(0, end - start))
    return record(pick.randrange(256), rows)


def record_cases():
    yield from (record_case(record(kind)) for kind in range(256))
    for pool, usable in enumerate(USABLE):
        for lent in (0, 1, 10, usable - 1, usable, usable + 1, TOP):
            others = [7] * 6
            others[pool] = lent
            for pair in bound_pairs(min(lent, usable)):
                yield record_case(record(3, {pool: (1, *pair)}), lent=others)
    for n, records in ((0, 1), (0, 2), (0, 9), (3, 9), (0, 4095), (0, 4096), (0, 4097), (4094, 4096), (4095, 4096), (4095, 4098)):
        for pair in bound_pairs(min(records, 4096)):
            yield record_case(record(7, {6: (1, *pair)}), n, records)
        for start in sorted({0, max(n - 1, 0), n, n + 1, n + 2}):
            yield record_case(record(7, {6: (1, start, 0)}), n, records)
            yield record_case(record(7, {6: (1, start, max(records - start, 0))}), n, records)
    for row, at in itertools.product(range(7), range(8)):
        pair = struct.unpack("<II", altered(bytes(8), at, 1))
        yield record_case(record(2, {row: (0, *pair)}))
        yield record_case(record(2, {other: (0, *pair) if other == row else (1, 1, 0) for other in range(7)}), records=2)
    for spare in (1, 255, 256, 65535):
        yield record_case(record(5, spare=spare))
    for last in [1 << i for i in range(32)]:
        yield record_case(record(5, last=last))
    yield record_case(record(5, top=1))
    yield record_case(record(5, {row: (1, 1, 0) for row in range(7)}, top=1), records=2)
    for records, rest in itertools.product((0, 1, 2), (0, 1, 32, 63)):
        for n in (0, 1, 2, 3, 4095, 4096, 2**26, 2**32, 2**58, 2**58 + 1, 2**64 - 1):
            yield record_case(record(4), n, records, rest=rest)
    for n, records in ((4094, 4095), (4095, 4095), (4095, 4096), (4096, 4097), (4097, 4098), (4095, 4097)):
        yield record_case(record(4), n, records)
    for _ in range(300):
        lent, records = [pick.randrange(40) for _ in USABLE], pick.randrange(1, 12)
        n = pick.randrange(records)
        good = some_record(lent, n, records)
        yield record_case(good, n, records, lent)
        at = pick.randrange(64)
        yield record_case(altered(good, at, good[at] ^ pick.randrange(1, 256)), n, records, lent)
    for _ in range(60):
        tree = store(some_tree(3))
        for n in range(tree.n()):
            given, lent = tree.table[64 * n:64 * n + 64], [len(pool) for pool in tree.pools]
            yield record_case(given, n, tree.n(), lent)
            yield record_case(given, n, tree.n(), [max(words - 1, 0) for words in lent])


def some_tree(levels):
    tree = dict(type=pick.randrange(18))
    for name in ("xy", "ends", "z", "m", "t", "tm"):
        if pick.random() < 0.5:
            tree[name] = [pick.randrange(100) for _ in range(pick.randrange(6))]
    if levels > 1 and pick.random() < 0.6:
        tree["parts"] = [some_tree(levels - 1) for _ in range(pick.randrange(4))]
    return tree


# Boxes.

MAGNITUDES = [0, 1, 2, (1 << 52) - 1, 1 << 52, 1023 << 52, (1023 << 52) + 1, 1075 << 52, INFINITY - 1, INFINITY]
NANS = [INFINITY + payload for payload in (1, 2, 1 << 51, (1 << 51) - 1, (1 << 51) + 1, (1 << 52) - 1, 0x123456789ABCD)]
DOUBLES = [magnitude | sign for magnitude in MAGNITUDES + NANS for sign in (0, SIGN)]


def oracle_box(words):
    pairs = [ev(64, x=x, y=y) for x, y in zip(words[::2], words[1::2])]
    return oracle.write([begin(4), *pairs], declared=4).state["box"]


def box_case(given, words, n=0, records=1, lent=(0,) * 6, words_at=0, rest=0, place=None):
    """`given` is a run of records; without a place for it, it is record n."""
    length, place = 64 * records + rest, 64 * n if place is None else place
    walk = Walk(Lent(length, place, given, lent, words_at, words))
    number, edges = walk.answer(n)
    assert number != DONE or edges == oracle_box(walk.joined), words
    head = (BOX, number, word(n), length, place, len(given), lent[0], words_at)
    return frame(*head, *lent[1:], *map(word, edges), given, *map(word, words))


def whole_list(words, start=0, **more):
    """A box over just these words."""
    return box_case(record(3, {0: (1, start, len(words))}), words, lent=(start + len(words), 0, 0, 0, 0, 0), words_at=start, **more)


def box_cases():
    for first, second in itertools.product(DOUBLES, repeat=2):
        if pick.random() < 0.3 or first == second ^ SIGN:
            yield whole_list([first, second, second, first])
    for one in DOUBLES:
        yield whole_list([one, 0])
        yield whole_list([0, one])
        yield whole_list([one, one, one, one])
    for count in range(14):
        for _ in range(8):
            words = [pick.choice(DOUBLES) if pick.random() < 0.5 else pick.getrandbits(64) for _ in range(count)]
            yield whole_list(words, start=pick.randrange(9))
    for _ in range(60):
        words = [pick.getrandbits(64) for _ in range(8)]
        start, count, lent = pick.randrange(12), pick.randrange(12), pick.randrange(24)
        yield box_case(record(2, {0: (1, start, count)}), words, n=pick.randrange(3), records=3, lent=(lent, 1, 1, 1, 1, 1), words_at=2)
    at_the_end = ((0, 131072), (131070, 2), (131071, 1), (131072, 0), (131071, 2), (131072, 2))
    for lent, pair in itertools.product((131071, 131072, 131073, 131074), at_the_end):
        yield box_case(record(2, {0: (1, *pair)}), [1, 2], lent=(lent, 0, 0, 0, 0, 0), words_at=131070)
    for row in range(1, 6):
        for lent, count in ((3, 3), (3, 4), (65536, 65536), (65537, 65536), (65537, 65537)):
            pools = [4, 0, 0, 0, 0, 0]
            pools[row] = lent
            yield box_case(record(2, {0: (1, 0, 4), row: (1, 0, count)}), [1, 2, 3, 4], lent=pools)
    for row in range(7):
        yield box_case(record(2, {row: (1, 1, 0)}), [1, 2, 3, 4], records=2, lent=(4,) * 6)
        yield box_case(record(2, {row: (0, 1, 0)}), [1, 2, 3, 4], records=2, lent=(4,) * 6)
    for records, rest, n in ((0, 0, 0), (1, 1, 0), (1, 63, 0), (2, 0, 2), (2, 0, 1), (4096, 0, 4095), (4097, 0, 4096)):
        yield whole_list([1, 2, 3, 4], n=n, records=records, rest=rest)
    yield box_case(record(8, {0: (1, 0, len(ARC))}), ARC, lent=(len(ARC), 0, 0, 0, 0, 0))


# Boxes over parts. A table's links are a range for each record, the numbers of its parts.

NONE = range(0)


def continued(links, width):
    """All records without parts have so many new records for theirs."""
    new = range(len(links), len(links) + width)
    return [parts or new for parts in links] + [NONE] * width


def layers(count, width):
    """Every record of a layer has the whole next layer for its parts."""
    links = [NONE] * width
    for _ in range(count - 1):
        links = continued(links, width)
    return links


def last_of(links, branch):
    n = 1 + branch
    while links[n]:
        n = links[n][0]
    return n


def branches(*lengths):
    """A root with so many branches, each a chain of so many records."""
    links = continued([NONE], len(lengths))
    for branch, length in enumerate(lengths):
        for _ in range(length - 1):
            links[last_of(links, branch)] = range(len(links), len(links) + 1)
            links.append(NONE)
    return links


def to_the_end(links):
    return [range(parts.start, len(links)) if parts else parts for parts in links]


def table_case(links, n=0, lists=None, kind=1, bad=(), first=0, **more):
    """A table with these links, that begins as record `first`; without lists each record has a pair, farther out than those before it."""
    lists = lists or [[bits(float(i)), bits(float(-i))] for i in range(len(links))]
    given, words = [], []
    for i, (xy, parts) in enumerate(zip(lists, links)):
        rows = {0: (1, len(words), len(xy))} if xy is not None else {}
        if parts.start:
            rows[6] = (1, first + parts.start, len(parts))
        given.append(record(kind, rows, spare=int(i in bad)))
        words += xy or []
    place = dict(n=first + n, records=first + len(links), place=64 * first)
    return box_case(b"".join(given), words, lent=(len(words), 0, 0, 0, 0, 0), **place, **more)


def level_cases():
    """Chains, layers and parts to the table's end, from records about which level 16 is reached and passed."""
    for length, n in itertools.product((15, 16, 17, 18), (0, 1, 2)):
        yield table_case(layers(length, 1), n)
    for links in (layers(16, 2), layers(17, 2), to_the_end(layers(32, 1)), to_the_end(layers(7, 2))):
        for n in (0, 1, 2, len(links) // 2 - 1, len(links) // 2, len(links) - 1, len(links)):
            yield table_case(links, n, first=n % 3)
    for lengths in (range(1, 13), range(12, 0, -1), range(1, 14)):
        links = branches(*lengths)
        for _ in range(3):
            links = continued(links, 2)
        yield table_case(links)
    yield table_case(branches(1, 1), rest=1)


def twice_cases():
    """A chain that is come to at one level and then at another, and just ends within the last level or passes it."""
    for first, second in itertools.product((1, 2, 7, 13, 14), repeat=2):
        for length in (15 - max(first, second), 16 - max(first, second)):
            links = branches(first, second)
            for _ in range(length):
                links = continued(links, 1)
            yield table_case(links)


def refused_cases():
    """Two branches that are well, end in a bad record at level 2, 16 or 17, or end well at level 17."""
    sorts = list(itertools.product((1, 15, 16), (False, True)))
    for first, second in itertools.product(sorts, repeat=2):
        links = branches(first[0], second[0])
        bad = [last_of(links, branch) for branch, (_, is_bad) in enumerate((first, second)) if is_bad]
        yield table_case(links, bad=bad)


def list_cases():
    """Absent and empty lists and odd last words in each of three records; doubles that are easily misjudged in two of them."""
    for counts in itertools.product((None, 0, 2, 3), repeat=3):
        lists = [count if count is None else [pick.choice(DOUBLES) for _ in range(count)] for count in counts]
        yield table_case(branches(2), lists=lists)
        yield table_case(branches(1, 1), lists=lists)
    special = [magnitude | sign for magnitude in (0, 1023 << 52, INFINITY, INFINITY + 1) for sign in (0, SIGN)]
    for first, second in itertools.product(special, repeat=2):
        yield table_case(branches(1), lists=[[first, second], [second, first]])
        yield table_case(branches(1, 1), lists=[None, [first, second], [second, first]])
    for kind in (*range(19), 255):
        yield table_case(branches(2, 1), kind=kind)


def some_links(records):
    """Mostly present parts, few of many, so that records are shared and come to at several levels."""
    for n in range(records):
        start = pick.randint(n + 1, records)
        yield range(start, pick.randint(start, min(start + 3, records))) if pick.random() < 0.7 else NONE


def some_table_cases():
    for _ in range(100):
        records = pick.randrange(1, 20)
        links = list(some_links(records))
        lists = [[pick.choice(DOUBLES) for _ in range(pick.randrange(6))] if pick.random() < 0.8 else None for _ in links]
        for bad in ((), (pick.randrange(records),)):
            yield table_case(links, pick.randrange(1 + records // 3), lists, pick.randrange(18), bad, first=pick.randrange(3))


def part_cases():
    return itertools.chain(level_cases(), twice_cases(), refused_cases(), list_cases(), some_table_cases())


def numbered_cases():
    """What is heard of each number, and what is said under it."""
    numbered = list(numbered_events())
    yield from map(event_case, numbered)
    yield from said_in_turn(event for event in numbered if event_number(event) == DONE)


def main():
    events_heard = list(events())
    good = [event for event in events_heard if event_number(event) == DONE and not feature_of(event)]
    write = sys.stdout.buffer.write
    for case in itertools.chain(map(event_case, events_heard), said_cases(good), record_cases(), box_cases(), part_cases(), numbered_cases()):
        write(case)


main()
