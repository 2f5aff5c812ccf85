"""What is read: fixed geometries, and the ways in which they are cut, damaged, nested and said in other dialects."""
import struct

from events import COLLECTION, LINE, MULTI_LINE, MULTI_POINT, MULTI_POLYGON, NAMES, POINT, POLYGON, SINGLE_OF
from shapes import (BIG, BIG_FIRST, EXTENDED, LITTLE, LITTLE_FIRST, ODD_WORDS, OTHERS, PLAIN, THOUSANDS, bits, head, nested, number_of,
                    wkb)

MARKS = (BIG, LITTLE, BIG_FIRST, LITTLE_FIRST)
BYTES = (0, 1, 2, 3, 4, 6, 7, 8, 9, 32, 127, 128, 255)
NUMBERS = (0, *range(8, 36), 255, 256, 257, 1000, 1008, 1017, 2000, 3015, 65536, 1 << 29, 1 << 31, (1 << 32) - 1)


def pairs(*numbers):
    return list(zip(map(bits, numbers[::2]), map(bits, numbers[1::2])))


SHELL = pairs(0, 0, 9, 0, 9, 9, -0.0, 0)
HOLE = pairs(1, 1, 2, 1.5, 2, 2, 1, 1)
ODD_PAIRS = list(zip(ODD_WORDS, ODD_WORDS[1:] + ODD_WORDS[:1]))
OF_EACH_TYPE = [
    (POINT, pairs(1, 2)[0]),
    (LINE, pairs(1, 2, 3, 4, 5, 6)),
    (POLYGON, [SHELL, HOLE]),
    (MULTI_POINT, [(POINT, each) for each in pairs(1, 2, 3, 4, 5, 6)]),
    (MULTI_LINE, [(LINE, pairs(1, 2, 3, 4)), (LINE, []), (LINE, pairs(5, 6, 7, 8))]),
    (MULTI_POLYGON, [(POLYGON, [SHELL]), (POLYGON, []), (POLYGON, [HOLE, []])]),
    (COLLECTION, [(POINT, pairs(1, 2)[0]), (LINE, pairs(3, 4, 5, 6)), (POLYGON, [SHELL])]),
]
EMPTY_ONES = [(POINT, None)] + [(kind, []) for kind in NAMES if kind != POINT]
ODD_ONES = [
    (LINE, ODD_PAIRS),
    (POLYGON, [[SHELL[0], *ODD_PAIRS, SHELL[0]]]),
    *((kind, [(POINT, each) for each in ODD_PAIRS]) for kind in (MULTI_POINT, COLLECTION)),
    (COLLECTION, [(POINT, None), (MULTI_POINT, [(POINT, None), (POINT, None)])]),
]
# What we read and GEOS does not, or not as we do.
LOOSE_ONES = [
    (LINE, pairs(1, 2)),
    *((POLYGON, [pairs(*[1, 2] * size)]) for size in (1, 2, 3)),
    (POLYGON, [pairs(1, 2, 3, 4, 5, 6, 7, 8)]),
    (POLYGON, [pairs(float("nan"), 0, 3, 4, 5, 6, float("nan"), 0)]),
    (POLYGON, [[]]),
    (POLYGON, [[], []]),
    (POLYGON, [[], HOLE]),
    (POLYGON, [SHELL, [], HOLE]),
]
DEEP_ONES = [nested(levels, each) for levels in (2, 3, 14, 15, 16) for each in OF_EACH_TYPE + EMPTY_ONES]
FOREST = COLLECTION, [*OF_EACH_TYPE, *EMPTY_ONES, (COLLECTION, [(COLLECTION, OF_EACH_TYPE[4:]), *EMPTY_ONES])]
LARGE_ONES = [
    (LINE, [(i, i << 40) for i in range(65536)]),
    (MULTI_POLYGON, [(POLYGON, [[(i, j % 15) for j in range(16)]]) for i in range(4000)]),
]
# For what goes byte by byte: a dozen, with collections of 16 and 17 levels, and members of a Multi at either.
SAMPLES = [*OF_EACH_TYPE, ODD_ONES[4], nested(2, (COLLECTION, [*EMPTY_ONES, OF_EACH_TYPE[3]])), nested(15, OF_EACH_TYPE[1]),
           nested(16, OF_EACH_TYPE[0]), nested(15, OF_EACH_TYPE[3])]


def written_samples(*ways):
    return [wkb(each, marks) for each in SAMPLES for marks in ways]


def cut(data):
    return (data[:length] for length in range(len(data) + 1))


def damaged(data):
    """With each byte set to each of a few values."""
    for place in range(len(data)):
        for value in BYTES:
            yield data[:place] + bytes([value]) + data[place + 1:]


def with_marks():
    """Every order mark, outermost and in a collection, with either order behind it, and with a type that is cut short."""
    for mark in range(256):
        yield bytes([mark])
        for order in (0, 1):
            point = bytes([mark]) + wkb(OF_EACH_TYPE[0], [order])[1:]
            yield point
            for outer in (0, 1):
                yield head(outer, COLLECTION) + number_of(outer, 2) + wkb(OF_EACH_TYPE[1], BIG) + point


def with_types():
    """Numbers that are no type, and every type in every Multi."""
    for order in (0, 1):
        for number in NUMBERS:
            yield head(order, number) + bytes(64)
            for around in (*SINGLE_OF, COLLECTION):
                yield head(order, around) + number_of(order, 1) + head(order, number) + bytes(64)
        for around in SINGLE_OF:
            for member in OF_EACH_TYPE + EMPTY_ONES:
                yield head(order, around) + number_of(order, 1) + wkb(member, [order])


def with_bytes_left(data):
    return (data + more for more in (b"\0", b"\1", bytes(5), data, b"\xFF" * 16))


def in_dialects():
    """The dialects of others at the outermost geometry, at its members, and at both."""
    for dialect in EXTENDED + THOUSANDS + OTHERS:
        for where in (lambda level: level == 1, lambda level: level > 1, lambda level: True):
            for shape in OF_EACH_TYPE + EMPTY_ONES + [FOREST]:
                for marks in MARKS:
                    data = wkb(shape, marks, lambda level: dialect if where(level) else PLAIN)
                    if data != wkb(shape, marks):
                        yield data


def refused_samples():
    """With every number but 9, for logs that end before and behind the refused place."""
    whole = wkb(OF_EACH_TYPE[6], BIG_FIRST)
    yield whole[:-1]
    yield whole + b"\0"
    yield whole[:9] + b"\2" + whole[10:]
    yield wkb(nested(16, OF_EACH_TYPE[0]), LITTLE)
    yield wkb(OF_EACH_TYPE[0], BIG)[:13]
    yield wkb((MULTI_POINT, [OF_EACH_TYPE[0], OF_EACH_TYPE[1]]), BIG)


def filling_lines():
    """Lines with as many events as a log has usable records, and with one more."""
    return (head(1, LINE) + number_of(1, size) + bytes(16 * size) for size in ((1 << 20) - 2, (1 << 20) - 1))


def at_random(random, data):
    """The bytes with up to three changes."""
    changed = bytearray(data)
    for _ in range(random.randint(1, 3)):
        place = random.randrange(len(changed) + 1)
        way = random.randrange(6)
        if way == 0:
            changed[place:place + 1] = bytes([random.choice(BYTES)])
        elif way == 1:
            changed[place:place + 1] = bytes([random.getrandbits(8)])
        elif way == 2:
            del changed[place:place + random.choice((1, 4, 8, 9, 16, 21))]
        elif way == 3:
            changed[place:place] = changed[:random.choice((1, 4, 5, 8, 9, 21))]
        elif way == 4:
            changed[place:place + 4] = struct.pack(random.choice("<>") + "I", random.choice(NUMBERS + (1, 2, 3)))
        else:
            del changed[place:]
    return bytes(changed)
