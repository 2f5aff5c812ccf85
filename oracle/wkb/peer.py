"""Where the reading of WKB by GEOS 3.11 is known to part from ours, as a reading of its own: laxer in the methods of `PeerReading`,
stricter in `fault`, and with fewer geometries told apart in `as_geos_tells`. In all else GEOS is to read as SPEC 14 has it.
"""
import sys

from events import END, LINE, MULTI_POINT, PAIR, POINT, POLYGON, begin, double, is_nan, pair
from model import BAD_MARK_OR_TYPE, DONE, ORDERS, Reading, Refused

# laxer: we refuse, GEOS reads on
MARK = "an order mark above 1 is taken for the order that was last in force, at first the machine's"
EXTENDED_TYPE = "a type with bits for z, m or SRID, as PostGIS writes it (and GDAL z)"
THOUSANDS = "a type with thousands for z, m or both (ISO, GDAL)"
OTHER_BITS = "a type with other bits or thousands, which are not looked at"
DEPTH = "a geometry at level 17"
LEFT_OVER = "bytes left over"
LAXER = (MARK, EXTENDED_TYPE, THOUSANDS, OTHER_BITS, DEPTH, LEFT_OVER)
# stricter: we read, GEOS refuses
SHORT_LINE = "a LineString of one pair"
SHORT_RING = "a ring of one or two pairs"
OPEN_RING = "a ring whose last pair is not its first, as doubles"
NO_SHELL = "a Polygon with an empty first ring and a ring that is not"
STRICTER = (SHORT_LINE, SHORT_RING, OPEN_RING, NO_SHELL)
# both read
EMPTY_POINT = "a Point of two NaN is an empty point, and its NaN are not kept"
EMPTY_SHELL = "a Polygon whose first ring is empty is an empty polygon, and its rings are not written"
ALIKE = (EMPTY_POINT, EMPTY_SHELL)

Z_BIT, M_BIT, SRID_BIT = 1 << 31, 1 << 30, 1 << 29
# As GEOS writes an empty point.
EMPTY = 0x7FF8 << 48


class PeerReading(Reading):
    """`noted` has what we would have refused, in order, and `beyond` the number of words behind each pair."""
    deepest = float("inf")

    def __init__(self, data):
        super().__init__(data, float("inf"))
        self.order, self.beyond, self.noted = sys.byteorder, 0, []

    def mark(self):
        mark = self.field("little", 1)
        if mark > 1:
            self.noted.append(MARK)
        else:
            self.order = ORDERS[mark]
        return self.order

    def kind(self, order, allowed):
        number = self.field(order, 4)
        thousands, kind = divmod(number & 0xFFFF, 1000)
        if kind not in allowed:
            raise Refused(BAD_MARK_OR_TYPE)
        if number != kind:
            self.noted.append(dialect(number, thousands))
        self.beyond = bool(number & Z_BIT or thousands in (1, 3)) + bool(number & M_BIT or thousands in (2, 3))
        if number & SRID_BIT:
            self.field(order, 4)
        return kind

    def head(self, level, allowed):
        order, kind = super().head(level, allowed)
        if level > Reading.deepest:
            self.noted.append(DEPTH)
        return order, kind

    def pair(self, order, index):
        x, y, *_ = [self.field(order, 8) for _ in range(2 + self.beyond)]
        self.say(pair(index, x, y))

    def close(self):
        if self.at < len(self.data):
            self.noted.append(LEFT_OVER)


def dialect(number, thousands):
    """The name of the first thing that makes a type none of 1 to 7."""
    if number & (Z_BIT | M_BIT | SRID_BIT):
        return EXTENDED_TYPE
    return THOUSANDS if thousands in (1, 2, 3) and number < 0x10000 else OTHER_BITS


def lines_and_polygons(events):
    """Each line that is no ring with its pairs, and each polygon with the pairs of its rings."""
    rings, pairs = None, []
    for kind, _, _, _, x, y in events:
        if kind == POLYGON:
            rings = []
        elif kind == LINE:
            pairs = []
        elif kind == PAIR:
            pairs.append((x, y))
        elif kind == LINE + END and rings is not None:
            rings.append(pairs)
        elif kind == LINE + END:
            yield LINE, pairs
        elif kind == POLYGON + END:
            yield POLYGON, rings
            rings = None


def is_closed(ring):
    return all(double(first) == double(last) for first, last in zip(ring[0], ring[-1]))


def fault_of_ring(ring):
    if len(ring) == 1:
        return SHORT_RING
    if ring and not is_closed(ring):
        return OPEN_RING
    return SHORT_RING if len(ring) == 2 else None


def fault(events):
    """What GEOS refuses of these events, or None."""
    for kind, content in lines_and_polygons(events):
        if kind == LINE:
            faults = [SHORT_LINE] if len(content) == 1 else []
        else:
            faults = [each for each in map(fault_of_ring, content) if each]
            faults += [NO_SHELL] if content and not content[0] and any(content) else []
        if faults:
            return faults[0]
    return None


def peer_answer(data):
    """GEOS's answer as these rules have it: what it is refused for, or None; the events; what we would have refused."""
    reading = PeerReading(data)
    number, events = reading.answer()
    return number if number != DONE else fault(events), events, reading.noted


def as_geos_tells(events):
    """The events without what GEOS does not keep, and the names of what that was."""
    told, lost, within, in_empty_polygon = [], set(), 0, False
    for i, event in enumerate(events):
        kind, tagged, size, index, x, y = event
        within = kind if kind < END else within
        if kind == POLYGON and size and events[i + 1][2] == 0:
            in_empty_polygon, event = True, begin(kind, 0, index, tagged)
            lost.add(EMPTY_SHELL)
        elif kind == POLYGON + END:
            in_empty_polygon = False
        elif in_empty_polygon:
            continue
        elif kind == PAIR and within in (POINT, MULTI_POINT) and is_nan(x) and is_nan(y):
            event = pair(index, EMPTY, EMPTY)
            lost.add(EMPTY_POINT)
        told.append(event)
    return told, lost
