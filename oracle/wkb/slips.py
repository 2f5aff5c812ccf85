"""The model with one rule wrong each time. A run is to tell every one of them from the library."""
from events import COLLECTION, END, MULTI_POINT, NAMES, PAIR, POINT, begin, end, is_nan, pair, record
from model import BAD_MARK_OR_TYPE, CUT_SHORT, LEFT_OVER, LOG_FULL, ORDERS, Reading, Refused, TOO_DEEP


class Slip(Reading):
    pass


class SeventeenLevels(Slip):
    deepest = 17


class FifteenLevels(Slip):
    deepest = 15


class LevelBeforeMark(Slip):
    def head(self, level, allowed):
        if level > self.deepest:
            raise Refused(TOO_DEEP)
        return super().head(level, allowed)


class LevelBeforeType(Slip):
    def head(self, level, allowed):
        order = self.mark()
        if level > self.deepest:
            raise Refused(TOO_DEEP)
        return order, self.kind(order, allowed)


class LevelBeforeJudgedType(Slip):
    def head(self, level, allowed):
        order = self.mark()
        kind = self.field(order, 4)
        if level > self.deepest:
            raise Refused(TOO_DEEP)
        if kind not in allowed:
            raise Refused(BAD_MARK_OR_TYPE)
        return order, kind


class MembersOfMultisOnItsLevel(Slip):
    def members(self, order, kind, index, level):
        super().members(order, kind, index, level if kind == COLLECTION else level - 1)


class OneMoreUsableRecord(Slip):
    usable = Reading.usable + 1


class RemainderUsed(Slip):
    def __init__(self, data, room):
        super().__init__(data, room + 1)


class OuterOrderForMembers(Slip):
    outer = None

    def mark(self):
        own = super().mark()
        self.outer = self.outer or own
        return self.outer


class AnyMark(Slip):
    def mark(self):
        return ORDERS[min(self.field("little", 1), 1)]


class MarkJudgedBehindType(Slip):
    def head(self, level, allowed):
        self.field("little", 5)
        self.at -= 5
        return super().head(level, allowed)


class LowBitsOfType(Slip):
    def kind(self, order, allowed):
        kind = self.field(order, 4) & 0xFF
        if kind not in allowed:
            raise Refused(BAD_MARK_OR_TYPE)
        return kind


class ThousandsOfType(Slip):
    def kind(self, order, allowed):
        kind = self.field(order, 4) % 1000
        if kind not in allowed:
            raise Refused(BAD_MARK_OR_TYPE)
        return kind


class AnyMember(Slip):
    def kind(self, order, allowed):
        return super().kind(order, NAMES)


class TaggedEverywhere(Slip):
    def is_tagged(self, around):
        return 1


class TaggedNowhere(Slip):
    def is_tagged(self, around):
        return 0


class TaggedRings(Slip):
    def ring(self, order, index):
        self.line(order, index, 1)


class UntaggedEnds(Slip):
    def say(self, event):
        super().say(end(event[0] - END, event[3]) if END < event[0] < PAIR else event)


class BeginBehindPair(Slip):
    def point(self, order, index):
        self.field(order, 16)
        self.at -= 16
        super().point(order, index)


class BeginBehindX(Slip):
    def point(self, order, index):
        self.field(order, 8)
        self.at -= 8
        super().point(order, index)


class PairsCountedAhead(Slip):
    """A line that is cut short is refused before its begin."""

    def line(self, order, index, tagged):
        size = self.field(order, 4)
        if self.at + 16 * size > len(self.data):
            raise Refused(CUT_SHORT)
        self.at -= 4
        super().line(order, index, tagged)


class RoomBeforePair(Slip):
    def pair(self, order, index):
        if len(self.events) >= self.room:
            raise Refused(LOG_FULL)
        super().pair(order, index)


class LeftOverBeforeLastRecord(Slip):
    """Bytes left over are seen before the outermost end finds no room."""

    def say(self, event):
        if len(self.events) == self.room and self.at < len(self.data) and event[0] == COLLECTION + END:
            raise Refused(LEFT_OVER)
        super().say(event)


class LeftOverTaken(Slip):
    def close(self):
        pass


class PointsOfMultiPointWhole(Slip):
    def geometry(self, level, index, around):
        if around != MULTI_POINT:
            return super().geometry(level, index, around)
        order, _ = self.head(level, [POINT])
        self.point(order, index)


class IndexOfPoint(Slip):
    """A pair of a MultiPoint has the index that its point's pair would have."""

    def geometry(self, level, index, around):
        super().geometry(level, 0 if around == MULTI_POINT else index, around)


class IndicesFromOne(Slip):
    def say(self, event):
        kind, tagged, size, index, x, y = event
        super().say((kind, tagged, size, index + (kind == PAIR), x, y))


class EndsOfIndexZero(Slip):
    def say(self, event):
        super().say(end(event[0] - END, 0, event[1]) if END < event[0] < PAIR else event)


class SizeOfPoint(Slip):
    def say(self, event):
        super().say(begin(POINT, 1, event[3]) if event[0] == POINT else event)


class EmptyPoint(Slip):
    """A Point of two NaN has no pair."""

    def say(self, event):
        kind, *_, x, y = event
        within = self.events[-1][0] if self.events else 0
        if not (kind == PAIR and within == POINT and is_nan(x) and is_nan(y)):
            super().say(event)


class QuietNaN(Slip):
    def say(self, event):
        kind, tagged, size, index, x, y = event
        super().say((kind, tagged, size, index, *(word | (1 << 51) * is_nan(word) for word in (x, y))))


class UnsignedZero(Slip):
    def say(self, event):
        kind, tagged, size, index, x, y = event
        super().say((kind, tagged, size, index, *(0 if word == 1 << 63 else word for word in (x, y))))


class SubnormalAsZero(Slip):
    def say(self, event):
        kind, tagged, size, index, x, y = event
        super().say((kind, tagged, size, index, *(word if word >> 52 & 0x7FF else word & 1 << 63 for word in (x, y))))


class YBeforeX(Slip):
    def pair(self, order, index):
        y = self.field(order, 8)
        x = self.field(order, 8)
        self.say(pair(index, x, y))


class LineOfOnePairRefused(Slip):
    def line(self, order, index, tagged):
        if self.field(order, 4) == 1:
            raise Refused(CUT_SHORT)
        self.at -= 4
        super().line(order, index, tagged)


class EmptyLineLeftOut(Slip):
    def line(self, order, index, tagged):
        if self.field(order, 4):
            self.at -= 4
            super().line(order, index, tagged)


class NoFeature(Slip):
    @staticmethod
    def record(event, feature):
        return record(event, 0)


class FeatureInBeginsAlone(Slip):
    @staticmethod
    def record(event, feature):
        return record(event, feature if event[0] < END else 0)


class RefusedLogEmpty(Slip):
    def answer(self):
        number, events = super().answer()
        return number, [] if number else events


SLIPS = Slip.__subclasses__()
