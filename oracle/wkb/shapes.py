"""Geometries to be read, as pairs of a type and what it holds: of a Point a pair of words or None, of a LineString its pairs, of a Polygon
the pairs of its rings, of all others their members. A writer of WKB for them, and a maker of random ones.
"""
import collections, itertools, struct

from events import COLLECTION, LINE, POINT, POLYGON, SINGLE_OF, is_nan
from peer import EMPTY, M_BIT, SRID_BIT, Z_BIT

BIG, LITTLE, BIG_FIRST, LITTLE_FIRST = (0,), (1,), (0, 1), (1, 0)
SIGNS = "><"
Dialect = collections.namedtuple("Dialect", "added words srid", defaults=(0, 0, 0))
PLAIN = Dialect()
# What is added to a type's number, how many words stand behind each pair, and how many bytes of SRID behind the type.
EXTENDED = [Dialect(z * Z_BIT | m * M_BIT | srid * SRID_BIT, z + m, 4 * srid) for z in (0, 1) for m in (0, 1) for srid in (0, 1)][1:]
THOUSANDS = [Dialect(1000, 1), Dialect(2000, 1), Dialect(3000, 2)]
OTHERS = [Dialect(1 << bit) for bit in range(8, 29)] + [Dialect(4000), Dialect(64000), Dialect(Z_BIT + 1000, 1)]


def head(order, number):
    return struct.pack(SIGNS[order] + "BI", order, number)


def number_of(order, number):
    return struct.pack(SIGNS[order] + "I", number)


def pairs_of(order, pairs, dialect):
    words = [word for each in pairs for word in (*each, *[0] * dialect.words)]
    return struct.pack(f"{SIGNS[order]}{len(words)}Q", *words)


def line_of(order, pairs, dialect):
    return number_of(order, len(pairs)) + pairs_of(order, pairs, dialect)


def wkb(shape, marks, dialect=lambda level: PLAIN):
    """The shape as WKB. Each geometry takes the next of the order marks, over and over, and each level has its dialect."""
    return geometry_of(shape, itertools.cycle(marks), dialect, 1)


def geometry_of(shape, marks, dialect, level):
    (kind, content), order, own = shape, next(marks), dialect(level)
    start = head(order, kind + own.added) + bytes(own.srid)
    if kind == POINT:
        return start + pairs_of(order, [content or (EMPTY, EMPTY)], own)
    if kind == LINE:
        return start + line_of(order, content, own)
    if kind == POLYGON:
        return start + number_of(order, len(content)) + b"".join(line_of(order, ring, own) for ring in content)
    return start + number_of(order, len(content)) + b"".join(geometry_of(each, marks, dialect, level + 1) for each in content)


def nested(levels, innermost):
    """So many levels of collections around it."""
    for _ in range(levels):
        innermost = COLLECTION, [innermost]
    return innermost


def levels(shape):
    kind, content = shape
    return 1 + max(map(levels, content), default=0) if kind > POLYGON else 1


def bits(number):
    return struct.unpack("<Q", struct.pack("<d", number))[0]


INFINITY = 0x7FF << 52
SIGN = 1 << 63
ODD_WORDS = [0, SIGN, INFINITY, INFINITY | SIGN, EMPTY, EMPTY | SIGN, EMPTY | 0x123, INFINITY | 1, INFINITY | SIGN | 0xBEEF,
             1, SIGN | 1, (1 << 52) - 1, 1 << 52, INFINITY - 1, (1 << 64) - 1]


class Maker:
    """Random shapes. Those of a proper maker are such as GEOS can hold."""

    def __init__(self, random, is_proper):
        self.random, self.is_proper = random, is_proper

    def word(self):
        way = self.random.random()
        if way < 0.6:
            return bits(self.random.uniform(-180, 180))
        return self.random.choice(ODD_WORDS) if way < 0.9 else self.random.getrandbits(64)

    def pair(self):
        return self.word(), self.word()

    def size(self):
        return self.random.choice((0, 1, 2, 2, 3, 3, 4, 5, 7))

    def line(self):
        size = self.size()
        return [self.pair() for _ in range(size + (size == 1 and self.is_proper))]

    def ring(self):
        """Closed, but for one in six of a maker that is not proper."""
        if not self.is_proper and self.random.random() < 1 / 6:
            return self.line()
        first = [word if not is_nan(word) else 0 for word in self.pair()]
        return [tuple(first), *(self.pair() for _ in range(self.random.randint(1, 5))), tuple(first)]

    def rings(self):
        rings = [self.ring() for _ in range(self.random.choice((0, 1, 1, 2, 3)))]
        if len(rings) > 1 and self.random.random() < 0.2:
            rings[self.random.randrange(int(self.is_proper), len(rings))] = []
        return rings

    def shape(self, kind, depth):
        """A shape of that type, with so many levels below it at most."""
        if kind == POINT:
            return kind, None if self.random.random() < 0.1 else self.pair()
        if kind == LINE:
            return kind, self.line()
        if kind == POLYGON:
            return kind, self.rings()
        return kind, [self.shape(self.member(kind, depth), depth - 1) for _ in range(self.size())]

    def member(self, kind, depth):
        if kind in SINGLE_OF:
            return SINGLE_OF[kind]
        return self.random.randint(POINT, COLLECTION if depth > 1 else POLYGON)

    def any_shape(self):
        """One in six lies in many collections."""
        shape = self.shape(self.random.randint(POINT, COLLECTION), self.random.randint(1, 4))
        return nested(self.random.randint(10, 16), shape) if self.random.random() < 1 / 6 else shape
