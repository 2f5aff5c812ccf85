"""The model of writing with one rule wrong each time. A run is to tell every one of them from the library."""
from events import COLLECTION, END, LINE, MULTI_LINE, MULTI_POINT, MULTI_POLYGON, PAIR, POINT, POLYGON, is_nan
from model import DONE, Reading, TOO_DEEP, UNTOUCHED
from peer import EMPTY
from writing import BADLY_NESTED, COORDINATE, MALFORMED, NO_ROOM, RECORD_BYTES, Writing

KIND, TAG, SIZE, INDEX, FEATURE = range(5)


class Slip(Writing):
    def before_malformed(self):
        """Only the events before the first malformed record are left. Whether these begin no geometry."""
        first = self.events.index(None)
        del self.events[first:]
        return not self.is_geometry() and (self.at < first or len({event[FEATURE] for event in self.events}) > 1)

    def next_kind(self):
        return self.events[self.at][KIND] if self.at < len(self.events) else None


# ---- the order of refusals, and what they go over

class NestingBeforeMalformed(Slip):
    def answer(self, room):
        if None not in self.events:
            return super().answer(room)
        return BADLY_NESTED if self.before_malformed() else MALFORMED, b""


class LevelBeforeMalformed(Slip):
    def answer(self, room):
        if None in self.events:
            self.before_malformed()
            return TOO_DEEP if self.level > self.deepest else MALFORMED, b""
        return super().answer(room)


class RoomBeforeMalformed(Slip):
    def answer(self, room):
        if None in self.events:
            self.before_malformed()
            return NO_ROOM if len(b"".join(self.laid)) > room else MALFORMED, b""
        return super().answer(room)


class LevelBeforeNesting(Slip):
    def answer(self, room):
        number, written = super().answer(room)
        return (TOO_DEEP, b"") if number == BADLY_NESTED and self.level > self.deepest else (number, written)


class RoomBeforeNesting(Slip):
    def answer(self, room):
        number, written = super().answer(room)
        return (NO_ROOM, b"") if number == BADLY_NESTED and len(b"".join(self.laid)) > room else (number, written)


class RoomBeforeLevel(Slip):
    def answer(self, room):
        number, written = super().answer(room)
        return (NO_ROOM, b"") if number == TOO_DEEP and len(b"".join(self.laid)) > room else (number, written)


class MalformedAsBadlyNested(Slip):
    def answer(self, room):
        number, written = super().answer(room)
        return BADLY_NESTED if number == MALFORMED else number, written


class RestNotLookedAt(Slip):
    def __init__(self, data):
        super().__init__(data[:len(data) // RECORD_BYTES * RECORD_BYTES])


class RestBadlyNested(Slip):
    def __init__(self, data):
        super().__init__(data)
        self.has_rest = len(data) % RECORD_BYTES > 0

    def answer(self, room):
        is_rest_alone = self.has_rest and None not in self.events[:-1]
        return (BADLY_NESTED, b"") if is_rest_alone else super().answer(room)


class MalformedBehindTheGeometryNotSeen(Slip):
    """Where the records before it are a whole geometry, a malformed one is only one too many."""

    def answer(self, room):
        if None not in self.events:
            return super().answer(room)
        del self.events[self.events.index(None):]
        return BADLY_NESTED if self.is_geometry() else MALFORMED, b""


class UsableRecordsAlone(Slip):
    """Of a list only as many records are looked at as a log has usable ones."""

    def __init__(self, data):
        super().__init__(data[:Reading.usable * RECORD_BYTES])


class EmptyListDone(Slip):
    def answer(self, room):
        return super().answer(room) if self.events else (DONE, b"")


class EmptyListMalformed(Slip):
    def answer(self, room):
        return super().answer(room) if self.events else (MALFORMED, b"")


# ---- which records are malformed

class Lax(Slip):
    """Hears records that are malformed, once `mended` has taken out what is wrong."""

    def __init__(self, data):
        super().__init__(b"".join(self.mended(data[at:at + RECORD_BYTES]) for at in range(0, len(data), RECORD_BYTES)))

    @staticmethod
    def mended(record):
        return record


class SpareByteLetThrough(Lax):
    @staticmethod
    def mended(record):
        return record[:3] + bytes(len(record[3:4])) + record[4:]


class PresentBitsLetThrough(Lax):
    @staticmethod
    def mended(record):
        return record[:2] + b"\0" + record[3:] if record[:1] == bytes([PAIR]) and len(record) > 2 else record


class ValuesLetThrough(Lax):
    @staticmethod
    def mended(record):
        return record[:32] + bytes(len(record[32:]))


class SizeOfPointLetThrough(Lax):
    @staticmethod
    def mended(record):
        return record[:4] + bytes(4) + record[8:] if record[:1] == bytes([POINT]) and len(record) > 8 else record


class SizeOfEndsLetThrough(Lax):
    @staticmethod
    def mended(record):
        return record[:4] + bytes(4) + record[8:] if len(record) > 8 and END < record[0] < PAIR else record


class PairsOfBeginsLetThrough(Lax):
    @staticmethod
    def mended(record):
        return record[:16] + bytes(16) + record[32:] if len(record) > 32 and record[0] < PAIR else record


class TagAboveOneLetThrough(Lax):
    @staticmethod
    def mended(record):
        return record[:1] + b"\1" + record[2:] if record[1:2] > b"\1" else record


class TagOfUntaggedKindsLetThrough(Lax):
    @staticmethod
    def mended(record):
        is_tagged = record[:1] in (b"\2", b"\3", b"\x22", b"\x23")
        return record if is_tagged or record[1:2] != b"\1" else record[:1] + b"\0" + record[2:]


class TypesAboveSevenMalformed(Slip):
    def __init__(self, data):
        super().__init__(data)
        self.events = [event if event and (event[KIND] >= PAIR or event[KIND] % END <= COLLECTION) else None for event in self.events]


class CoordinateMalformed(Slip):
    def __init__(self, data):
        super().__init__(data)
        self.events = [event if event and event[KIND] != COORDINATE else None for event in self.events]


# ---- what is badly nested, tagged, indexed or sized

class CoordinateTaken(Slip):
    def is_due(self, event, kind, index, tagged):
        return super().is_due((PAIR, *event[1:]) if event[KIND] == COORDINATE else event, kind, index, tagged)


class IndicesFromOne(Slip):
    first_index = 1


class BeginIndexNotLookedAt(Slip):
    def is_due(self, event, kind, index, tagged):
        return super().is_due(event, kind, event[INDEX] if kind < END else index, tagged)


class PairIndexNotLookedAt(Slip):
    def is_due(self, event, kind, index, tagged):
        return super().is_due(event, kind, event[INDEX] if kind == PAIR else index, tagged)


class EndIndexNotLookedAt(Slip):
    def end(self, kind, index, tagged):
        self.must(self.next_kind() == kind + END)
        self.take(kind + END, self.events[self.at][INDEX], tagged)


class EndTagNotLookedAt(Slip):
    def end(self, kind, index, tagged):
        self.must(self.next_kind() == kind + END)
        self.take(kind + END, index, self.events[self.at][TAG])


class EndOfAnyType(Slip):
    def end(self, kind, index, tagged):
        self.must(self.next_kind() is not None and END < self.next_kind() < PAIR)
        self.take(self.next_kind(), index, self.events[self.at][TAG])


class OutermostIndexNotLookedAt(Slip):
    def geometry(self, index, around, level):
        super().geometry(self.events[0][INDEX] if level == 1 and self.events else index, around, level)


class TagsNotLookedAt(Slip):
    def is_due(self, event, kind, index, tagged):
        return super().is_due(event, kind, index, event[TAG])


class TaggedInMultis(Slip):
    def is_tagged(self, around):
        return 1


class UntaggedInCollections(Slip):
    def is_tagged(self, around):
        return 0


class TaggedRings(Slip):
    def ring(self, index):
        self.line(index, 1)


class Uncounted(Slip):
    """Of these types the size is not held to what follows."""
    kinds = ()

    def group(self, kind, index, tagged, each):
        if kind not in self.kinds:
            return super().group(kind, index, tagged, each)
        self.count(self.take(kind, index, tagged)[SIZE])
        i = 0
        while self.next_kind() not in (None, kind + END):
            each(i)
            i += 1
        self.end(kind, index, tagged)


class PairsUncounted(Uncounted):
    kinds = (LINE,)


class RingsUncounted(Uncounted):
    kinds = (POLYGON,)


class PointsUncounted(Uncounted):
    kinds = (MULTI_POINT,)


class LinesUncounted(Uncounted):
    kinds = (MULTI_LINE,)


class PolygonsUncounted(Uncounted):
    kinds = (MULTI_POLYGON,)


class CollectionsUncounted(Uncounted):
    kinds = (COLLECTION,)


class EmptyRefused(Slip):
    """Of this type an empty one is refused."""
    empty = None

    def group(self, kind, index, tagged, each):
        self.must(kind != self.empty or self.at < len(self.events) and self.events[self.at][SIZE] > 0)
        super().group(kind, index, tagged, each)


class EmptyLineRefused(EmptyRefused):
    empty = LINE


class EmptyPolygonRefused(EmptyRefused):
    empty = POLYGON


class EmptyMultiPointRefused(EmptyRefused):
    empty = MULTI_POINT


class EmptyMultiLineRefused(EmptyRefused):
    empty = MULTI_LINE


class EmptyMultiPolygonRefused(EmptyRefused):
    empty = MULTI_POLYGON


class EmptyCollectionRefused(EmptyRefused):
    empty = COLLECTION


class PointWithoutPair(Slip):
    def point(self, index):
        self.take(POINT, index)
        if self.next_kind() == PAIR:
            self.pair(0)
        else:
            self.lay("QQ", EMPTY, EMPTY)
        self.end(POINT, index, 0)


class PointOfTwoPairs(Slip):
    def point(self, index):
        self.take(POINT, index)
        self.pair(0)
        if self.next_kind() == PAIR:
            self.take(PAIR, 1)
        self.end(POINT, index, 0)


class WholePointsInMultiPoint(Slip):
    def point_in_multi(self, index):
        self.head(POINT)
        self.point(index)


class AnyMember(Slip):
    def kind(self, around):
        return super().kind(COLLECTION)


class SecondGeometryLetThrough(Slip):
    def close(self):
        self.must(self.at == len(self.events) or 0 < self.next_kind() <= COLLECTION)


class LastEndLetThrough(Slip):
    def end(self, kind, index, tagged):
        if self.at < len(self.events):
            super().end(kind, index, tagged)


class SecondFeatureLetThrough(Slip):
    def is_one_feature(self):
        return True


class FeatureOfEndsNotLookedAt(Slip):
    def is_one_feature(self):
        return len({event[FEATURE] for event in self.events if not END < event[KIND] < PAIR}) == 1


class FeatureOfPairsNotLookedAt(Slip):
    def is_one_feature(self):
        return len({event[FEATURE] for event in self.events if event[KIND] != PAIR}) == 1


class FeatureOfLastAlone(Slip):
    def is_one_feature(self):
        return self.events[0][FEATURE] == self.events[-1][FEATURE]


class FeatureZeroRefused(Slip):
    def is_one_feature(self):
        return super().is_one_feature() and self.events[0][FEATURE] > 0


# ---- levels

class SeventeenLevels(Slip):
    deepest = 17


class FifteenLevels(Slip):
    deepest = 15


class PointsOfMultiPointOnItsLevel(Slip):
    def geometry(self, index, around, level):
        super().geometry(index, around, level - (around == MULTI_POINT))


class MembersOfMultisOnItsLevel(Slip):
    def geometry(self, index, around, level):
        super().geometry(index, around, level - (around in (MULTI_LINE, MULTI_POLYGON)))


class Within(Slip):
    """`inside` is the level of the geometry in hand."""
    inside = 0

    def geometry(self, index, around, level):
        before, self.inside = self.inside, level
        super().geometry(index, around, level)
        self.inside = before


class LevelsAtBegins(Within):
    """A Multi or a collection counts as two levels, whether it has members or none."""

    def group(self, kind, index, tagged, each):
        self.entered(self.inside + (kind > POLYGON))
        super().group(kind, index, tagged, each)


class LevelsAtRings(Within):
    def ring(self, index):
        self.entered(self.inside + 1)
        super().ring(index)


class LevelsAtPairs(Within):
    def pair(self, index):
        self.entered(self.inside + 1)
        super().pair(index)


class JudgedTo(Within):
    """Nesting is judged to this level; of what lies deeper the kinds alone are looked at."""
    last = None

    def is_due(self, event, kind, index, tagged):
        return event[KIND] == kind if self.inside > self.last else super().is_due(event, kind, index, tagged)


class JudgedToLevel16(JudgedTo):
    last = 16


class JudgedToLevel17(JudgedTo):
    last = 17


class JudgedToLevel255(JudgedTo):
    last = 255


class JudgedToLevel256(JudgedTo):
    last = 256


class JudgedToLevel257(JudgedTo):
    last = 257


class JudgedToLevel512(JudgedTo):
    last = 512


# ---- room, and what is laid down

class NoRoomForTheLastByte(Slip):
    def answer(self, room):
        return super().answer(max(room - 1, 0))


class RoomNotLookedAt(Slip):
    def answer(self, room):
        return super().answer(float("inf"))


class WrittenUntilNoRoom(Slip):
    @classmethod
    def called(cls, data, room, memory_length):
        number, length, memory = super().called(data, room, memory_length)
        if number != NO_ROOM:
            return number, length, memory
        written = super().called(data, memory_length + 21 * len(data), 0)[2][:room]
        return number, length, written + UNTOUCHED * (memory_length - len(written))


class LengthThatIsMissing(Slip):
    @classmethod
    def called(cls, data, room, memory_length):
        number, length, memory = super().called(data, room, memory_length)
        return number, length if number != NO_ROOM else super().called(data, 21 * len(data), 0)[1], memory


class RoomLaidWithZeros(Slip):
    """What is lent and not written is made zero."""

    @classmethod
    def called(cls, data, room, memory_length):
        number, length, memory = super().called(data, room, memory_length)
        return number, length, memory[:length] + bytes(max(room - length, 0)) + memory[max(room, length):]


class BigEndian(Slip):
    order, mark = ">", 0


class BigMarkAlone(Slip):
    mark = 0


class PointsOfMultiPointWithoutHeads(Slip):
    def point_in_multi(self, index):
        self.pair(index)


class MembersWithoutHeads(Slip):
    def geometry(self, index, around, level):
        laid = len(self.laid)
        super().geometry(index, around, level)
        if around in (MULTI_LINE, MULTI_POLYGON):
            del self.laid[laid]


class RingsWithHeads(Slip):
    def ring(self, index):
        self.head(LINE)
        super().ring(index)


class CountOfPoint(Slip):
    def point(self, index):
        self.count(1)
        super().point(index)


class MultiPointAsLine(Slip):
    def head(self, kind):
        super().head(LINE if kind == MULTI_POINT else kind)


class YBeforeX(Slip):
    def pair(self, index):
        *_, x, y = self.take(PAIR, index)
        self.lay("QQ", y, x)


class QuietNaN(Slip):
    def pair(self, index):
        *_, x, y = self.take(PAIR, index)
        self.lay("QQ", *(word | (1 << 51) * is_nan(word) for word in (x, y)))


class UnsignedZero(Slip):
    def pair(self, index):
        *_, x, y = self.take(PAIR, index)
        self.lay("QQ", *(0 if word == 1 << 63 else word for word in (x, y)))


class SubnormalAsZero(Slip):
    def pair(self, index):
        *_, x, y = self.take(PAIR, index)
        self.lay("QQ", *(word if word >> 52 & 0x7FF else word & 1 << 63 for word in (x, y)))


def leaves(slip):
    """Those that have none below them: the others only gather what several have."""
    below = slip.__subclasses__()
    return [leaf for each in below for leaf in leaves(each)] if below else [slip]


SLIPS = leaves(Slip)
