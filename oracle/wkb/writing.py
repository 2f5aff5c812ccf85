"""A writing of WKB by the words of the request, made without our code: from the bytes of a list of event records and the room that is lent
to a number and the bytes that are laid down, which are none where the list is refused.

Each refusal goes over the whole list before the next is asked: 11 (a malformed record, or a rest under one record), 21 (the records are not
the events of exactly one geometry), 13 (a geometry at level 17), 12 (no room).
"""
import functools, struct, sys

from events import COLLECTION, END, LINE, MULTI_POINT, NAMES, PAIR, POINT, POLYGON, SINGLE_OF
from model import DONE, TOO_DEEP, UNTOUCHED

MALFORMED, NO_ROOM, BADLY_NESTED = 11, 12, 21
NUMBERS = (DONE, MALFORMED, NO_ROOM, TOO_DEEP, BADLY_NESTED)
# Lists are nested deeper than Python goes by itself.
sys.setrecursionlimit(40000)

RECORD_BYTES = 64
FIELDS = struct.Struct("<4B3I6Q")
COORDINATE = 65
TRIANGLE = 17
WITH_EVENTS = set(range(1, 18)) - {13, 14}
KINDS = WITH_EVENTS | {END + kind for kind in WITH_EVENTS} | {PAIR, COORDINATE}
TAGGED = {kind + part for kind in (LINE, POLYGON, TRIANGLE) for part in (0, END)}
SIZED = WITH_EVENTS - {POINT}


@functools.lru_cache(1 << 16)
def heard(record):
    """A record's kind, tag, size, index, feature's number, x and y, or None where it is malformed (SPEC 3.3). A list's rest is no record."""
    if len(record) != RECORD_BYTES:
        return None
    kind, tagged, present, spare, size, index, feature, x, y, *values = FIELDS.unpack(record)
    is_whole = (kind in KINDS and tagged <= (kind in TAGGED) and present <= (15 if kind == COORDINATE else 0) and not spare
                and (kind in SIZED or not size) and (kind >= PAIR or not x and not y)
                and not any(value for bit, value in enumerate(values) if not present >> bit & 1))
    return (kind, tagged, size, index, feature, x, y) if is_whole else None


class BadlyNested(Exception):
    pass


class Writing:
    """One list, heard in order and laid down on the way. `at` is the next event, `level` the deepest that a geometry was met at."""
    deepest = 16
    first_index = 0
    order = "<"
    mark = 1

    def __init__(self, data):
        self.events = [heard(data[at:at + RECORD_BYTES]) for at in range(0, len(data), RECORD_BYTES)]
        self.at, self.level, self.laid = 0, 0, []

    def answer(self, room):
        if None in self.events:
            return MALFORMED, b""
        if not self.is_geometry():
            return BADLY_NESTED, b""
        if self.level > self.deepest:
            return TOO_DEEP, b""
        written = b"".join(self.laid)
        return (NO_ROOM, b"") if len(written) > room else (DONE, written)

    def is_geometry(self):
        """Whether the events are those of exactly one geometry, all of one feature."""
        try:
            self.geometry(0, COLLECTION, 1)
            self.close()
        except BadlyNested:
            return False
        return self.is_one_feature()

    def close(self):
        self.must(self.at == len(self.events))

    def is_one_feature(self):
        return len({event[4] for event in self.events}) == 1

    # ---- events, and what is laid down for them

    def must(self, holds):
        if not holds:
            raise BadlyNested

    def take(self, kind, index, tagged=0):
        """The next event, which is to be of that kind, index and tag."""
        self.must(self.at < len(self.events))
        event = self.events[self.at]
        self.must(self.is_due(event, kind, index, tagged))
        self.at += 1
        return event

    def is_due(self, event, kind, index, tagged):
        return event[:2] == (kind, tagged) and event[3] == index

    def lay(self, form, *numbers):
        self.laid.append(struct.pack(self.order + form, *numbers))

    def head(self, kind):
        self.lay("BI", self.mark, kind)

    def count(self, size):
        self.lay("I", size)

    # ---- geometries, and what they hold

    def pair(self, index):
        *_, x, y = self.take(PAIR, index)
        self.lay("QQ", x, y)

    def group(self, kind, index, tagged, each):
        """A begin, so many of what it holds as its size says, and the end, which repeats its index and tag."""
        size = self.take(kind, index, tagged)[2]
        self.count(size)
        for i in range(self.first_index, self.first_index + size):
            each(i)
        self.end(kind, index, tagged)

    def end(self, kind, index, tagged):
        self.take(kind + END, index, tagged)

    def point(self, index):
        self.take(POINT, index)
        self.pair(self.first_index)
        self.end(POINT, index, 0)

    def line(self, index, tagged):
        self.group(LINE, index, tagged, self.pair)

    def ring(self, index):
        self.line(index, 0)

    def polygon(self, index, tagged):
        self.group(POLYGON, index, tagged, self.ring)

    def point_in_multi(self, index):
        """Of a member of a MultiPoint there is the pair alone."""
        self.head(POINT)
        self.pair(index)

    def kind(self, around):
        """The next begin's type, which may stand inside that one. The outermost is as one in a collection."""
        self.must(self.at < len(self.events))
        kind = self.events[self.at][0]
        self.must(kind in ([SINGLE_OF[around]] if around in SINGLE_OF else NAMES))
        return kind

    def is_tagged(self, around):
        return int(around == COLLECTION)

    def entered(self, level):
        self.level = max(self.level, level)

    def geometry(self, index, around, level):
        self.entered(level)
        if around == MULTI_POINT:
            return self.point_in_multi(index)
        kind = self.kind(around)
        self.head(kind)
        if kind == POINT:
            self.point(index)
        elif kind == LINE:
            self.line(index, self.is_tagged(around))
        elif kind == POLYGON:
            self.polygon(index, self.is_tagged(around))
        else:
            self.group(kind, index, 0, lambda i: self.geometry(i, kind, level + 1))

    # ---- what comes of a call

    @classmethod
    def called(cls, data, room, memory_length):
        """The number, the length and the memory behind a call, of which so many bytes were lent to be written."""
        number, written = cls(data).answer(room)
        return number, len(written), written + UNTOUCHED * (memory_length - len(written))
