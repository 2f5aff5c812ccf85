"""A reading of WKB by SPEC 14, made without our code: the events, and the number of what is refused.

At each field 18 (cut short) stands first, then 19 (bad order mark or type); 13 (level 17) stands behind a member's type, 9 (log full) at
each record, 20 (bytes left over) at the end. Records before the refused place stay, and the log behind them is untouched.
"""
from events import COLLECTION, LINE, MULTI_POINT, NAMES, POINT, POLYGON, SINGLE_OF, begin, end, pair, record

DONE, LOG_FULL, TOO_DEEP, CUT_SHORT, BAD_MARK_OR_TYPE, LEFT_OVER = 0, 9, 13, 18, 19, 20
NUMBERS = (DONE, LOG_FULL, TOO_DEEP, CUT_SHORT, BAD_MARK_OR_TYPE, LEFT_OVER)
ORDERS = ("big", "little")
UNTOUCHED = b"\xA5"


class Refused(Exception):
    def __init__(self, number):
        super().__init__(number)
        self.number = number


class Reading:
    """One reading, with room for so many records."""
    deepest = 16
    usable = 1 << 20

    def __init__(self, data, room):
        self.data, self.room = data, room
        self.at, self.events = 0, []

    def answer(self):
        try:
            self.geometry(1, 0, COLLECTION)
            self.close()
        except Refused as refused:
            return refused.number, self.events
        return DONE, self.events

    # ---- fields, and what is said

    def field(self, order, width):
        behind = self.at + width
        if behind > len(self.data):
            raise Refused(CUT_SHORT)
        value = int.from_bytes(self.data[self.at:behind], order)
        self.at = behind
        return value

    def say(self, event):
        if len(self.events) >= self.room:
            raise Refused(LOG_FULL)
        self.events.append(event)

    def close(self):
        if self.at < len(self.data):
            raise Refused(LEFT_OVER)

    # ---- the head of a geometry

    def mark(self):
        mark = self.field("little", 1)
        if mark > 1:
            raise Refused(BAD_MARK_OR_TYPE)
        return ORDERS[mark]

    def kind(self, order, allowed):
        kind = self.field(order, 4)
        if kind not in allowed:
            raise Refused(BAD_MARK_OR_TYPE)
        return kind

    def head(self, level, allowed):
        order = self.mark()
        kind = self.kind(order, allowed)
        if level > self.deepest:
            raise Refused(TOO_DEEP)
        return order, kind

    # ---- what stands behind it

    def pair(self, order, index):
        x = self.field(order, 8)
        y = self.field(order, 8)
        self.say(pair(index, x, y))

    def point(self, order, index):
        self.say(begin(POINT, 0, index))
        self.pair(order, 0)
        self.say(end(POINT, index))

    def group(self, order, kind, index, tagged, each):
        """A count, the begin, so many of what it holds, and the end."""
        size = self.field(order, 4)
        self.say(begin(kind, size, index, tagged))
        for i in range(size):
            each(i)
        self.say(end(kind, index, tagged))

    def line(self, order, index, tagged):
        self.group(order, LINE, index, tagged, lambda i: self.pair(order, i))

    def ring(self, order, index):
        self.line(order, index, 0)

    def polygon(self, order, index, tagged):
        self.group(order, POLYGON, index, tagged, lambda i: self.ring(order, i))

    def members(self, order, kind, index, level):
        self.group(order, kind, index, 0, lambda i: self.geometry(level + 1, i, kind))

    def is_tagged(self, around):
        return int(around == COLLECTION)

    def geometry(self, level, index, around):
        """The outermost is as one in a collection."""
        order, kind = self.head(level, [SINGLE_OF[around]] if around in SINGLE_OF else NAMES)
        if kind == POINT and around == MULTI_POINT:
            self.pair(order, index)
        elif kind == POINT:
            self.point(order, index)
        elif kind == LINE:
            self.line(order, index, self.is_tagged(around))
        elif kind == POLYGON:
            self.polygon(order, index, self.is_tagged(around))
        else:
            self.members(order, kind, index, level)

    # ---- what comes of a call

    @staticmethod
    def record(event, feature):
        return record(event, feature)

    @classmethod
    def called(cls, data, feature, log_length, memory_length):
        """The number, the count and the memory behind a call, of which so many bytes were lent as the log."""
        number, events = cls(data, min(log_length // 64, cls.usable)).answer()
        log = b"".join(cls.record(event, feature) for event in events)
        return number, len(events), log + UNTOUCHED * (memory_length - len(log))
