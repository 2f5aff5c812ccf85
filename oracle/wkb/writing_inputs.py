"""Lists of events to be written: of geometries, deep ones, and the ways in which they are damaged. An event here is a list of its record's
fields, so that each of them can be changed by its name; a list of events is laid down by `packed`.
"""
import inputs
from events import COLLECTION, END, LINE, MULTI_POINT, MULTI_POLYGON, NAMES, PAIR, POINT, POLYGON
from model import Reading
from peer import EMPTY
from shapes import INFINITY, SIGN, levels, nested
from writing import COORDINATE, FIELDS, RECORD_BYTES, TRIANGLE

KIND, TAG, PRESENT, SPARE, SIZE, INDEX, FEATURE, X, Y, Z, M, T, TM = range(13)
FEATURES = (0, 1, 256, 65536, 1 << 24, 0xA5A5A5A5, (1 << 32) - 1)
TOP, FAR = (1 << 32) - 1, (1 << 64) - 1
# The fields' widths in bits, and values that are next to each other, small, and large, of which those that fit are tried.
WIDTHS = dict(zip(range(13), [8] * 4 + [32] * 3 + [64] * 6))
VALUES = (0, 1, 2, 3, 4, 7, 8, 15, 16, 17, 32, 33, 64, 65, 128, 255, 256, 1 << 16, 1 << 24, TOP, 1 << 32, 1 << 63, FAR)


# ---- the events of a shape

def event(kind, size=0, index=0, tagged=0, feature=0, x=0, y=0):
    return [kind, tagged, 0, 0, size, index, feature, x, y, 0, 0, 0, 0]


def told(shape, feature=0):
    """The events of a shape (SPEC 14.4). A Point without a pair has none for it, which is badly nested."""
    events = []

    def pairs(all_pairs):
        events.extend(event(PAIR, 0, i, 0, feature, x, y) for i, (x, y) in enumerate(all_pairs))

    def group(kind, index, tagged, content, each):
        events.append(event(kind, len(content), index, tagged, feature))
        for i, one in enumerate(content):
            each(i, one)
        events.append(event(kind + END, 0, index, tagged, feature))

    def line(index, all_pairs, tagged):
        events.append(event(LINE, len(all_pairs), index, tagged, feature))
        pairs(all_pairs)
        events.append(event(LINE + END, 0, index, tagged, feature))

    def geometry(index, one, around):
        (kind, content), tagged = one, int(around == COLLECTION)
        if around == MULTI_POINT:
            events.extend(event(PAIR, 0, index, 0, feature, *each) for each in [content] if each)
        elif kind == POINT:
            events.append(event(POINT, 0, index, 0, feature))
            pairs([] if content is None else [content])
            events.append(event(POINT + END, 0, index, 0, feature))
        elif kind == LINE:
            line(index, content, tagged)
        elif kind == POLYGON:
            group(kind, index, tagged, content, lambda i, ring: line(i, ring, 0))
        else:
            group(kind, index, 0, content, lambda i, member: geometry(i, member, kind))

    geometry(0, shape, COLLECTION)
    return events


def packed(events):
    return b"".join(FIELDS.pack(*each) for each in events)


def has_points_without_pair(shape):
    kind, content = shape
    return content is None if kind == POINT else kind > POLYGON and any(map(has_points_without_pair, content))


# ---- which geometries

PROPER_EMPTY_ONES = [shape for shape in inputs.EMPTY_ONES if shape[0] != POINT]
# GEOS takes a Polygon whose first ring is empty for one without rings,
EMPTY_SHELLS = [(POLYGON, [[]]), (POLYGON, [[], []]), (MULTI_POLYGON, [(POLYGON, [[]]), (POLYGON, [])])]
# and any two NaN of a Point for an empty one, and has its own for them.
NAN_POINTS = [(kind, content) for x, y in ((EMPTY, EMPTY), (EMPTY | 0x123, EMPTY), (EMPTY, INFINITY | SIGN | 0xBEEF))
              for kind, content in ((POINT, (x, y)), (MULTI_POINT, [(POINT, (x, y))]))]
OF_NO_EVENTS = [shape for shape in inputs.EMPTY_ONES + inputs.ODD_ONES if has_points_without_pair(shape)]
SHAPES = [shape for shape in (*inputs.OF_EACH_TYPE, *inputs.EMPTY_ONES, *inputs.ODD_ONES, *inputs.LOOSE_ONES, *NAN_POINTS, *inputs.DEEP_ONES)
          if not has_points_without_pair(shape)]
FOREST = COLLECTION, [*inputs.OF_EACH_TYPE, *PROPER_EMPTY_ONES, (COLLECTION, [(COLLECTION, inputs.OF_EACH_TYPE[4:]), *PROPER_EMPTY_ONES])]
# For what goes byte by byte and record by record: every type, empty ones, and the last levels.
SAMPLES = [*inputs.OF_EACH_TYPE, *PROPER_EMPTY_ONES, nested(2, (COLLECTION, [*PROPER_EMPTY_ONES, inputs.OF_EACH_TYPE[3]])),
           nested(15, inputs.OF_EACH_TYPE[0]), nested(16, inputs.OF_EACH_TYPE[0]), nested(15, (MULTI_POINT, [inputs.OF_EACH_TYPE[0]]))]


def about_the_last_level():
    """Geometries of 14 to 18 levels, by every type and every empty one, with others beside them."""
    for around in (13, 14, 15, 16, 17):
        for shape in (*inputs.OF_EACH_TYPE, *PROPER_EMPTY_ONES):
            yield nested(around, shape)
            yield COLLECTION, [inputs.OF_EACH_TYPE[0], nested(around - 1, shape), inputs.OF_EACH_TYPE[1]]


def longer_than_a_log():
    """A line with as many pairs as a log has usable records, one record after the other, since there are many."""
    size = Reading.usable
    pairs = b"".join(FIELDS.pack(PAIR, 0, 0, 0, 0, i, 1, i, i << 40, 0, 0, 0, 0) for i in range(size))
    return packed([event(LINE, size, 0, 1, 1)]) + pairs + packed([event(LINE + END, 0, 0, 1, 1)])


# ---- one fault

def with_each_byte(events):
    """Every byte of every record, each with a few values; a record's kind with all."""
    data = packed(events)
    for place, byte in enumerate(data):
        is_kind = place % RECORD_BYTES == 0
        for value in range(256) if is_kind else {0, 1, 2, 255, byte ^ 1, byte ^ 32, byte ^ 64, byte + 1 & 255, byte - 1 & 255}:
            if value != byte:
                yield data[:place] + bytes([value]) + data[place + 1:]


def with_each_field(events):
    """Every field of every record with other values, as whole numbers."""
    for place, each in enumerate(events):
        for field, width in WIDTHS.items():
            for value in {value for value in (*VALUES, each[field] + 1, each[field] - 1) if 0 <= value < 1 << width}:
                if value != each[field]:
                    yield changed(events, place, {field: value})


def changed(events, place, values):
    other = list(events[place])
    for field, value in values.items():
        other[field] = value
    return [*events[:place], other, *events[place + 1:]]


def without(events, place):
    return events[:place] + events[place + 1:]


def moved(events):
    """Records dropped, doubled, swapped with each other one, put elsewhere, turned round, and the list cut or begun anywhere."""
    for place, each in enumerate(events):
        yield without(events, place)
        yield events[:place] + [each] + events[place:]
        yield events[:place]
        yield events[place:]
        for other in range(place + 1, len(events)):
            yield [*events[:place], events[other], *events[place + 1:other], each, *events[other + 1:]]
        for other in range(len(events)):
            left = without(events, place)
            yield left[:other] + [each] + left[other:]
    yield events[::-1]
    yield events + events


def ends_of(events):
    """The place of each begin with that of its end, outermost first."""
    open_ones, found = [], []
    for place, each in enumerate(events):
        if each[KIND] < END:
            open_ones.append(place)
        elif each[KIND] < PAIR:
            found.append((open_ones.pop(), place))
    return sorted(found)


def begins_with_ends(events):
    """A begin and its end changed alike: index, tag, type. Whole geometries doubled or taken out, with sizes that follow and that do not."""
    for first, last in ends_of(events):
        kind, tag, index = (events[first][field] for field in (KIND, TAG, INDEX))
        for other in (index + 1, index + 2, index - 1, 255, TOP):
            if 0 <= other:
                yield changed(changed(events, first, {INDEX: other}), last, {INDEX: other})
        yield changed(changed(events, first, {TAG: 1 - tag}), last, {TAG: 1 - tag})
        for other in (*NAMES, 8, 9, 12, 15, 16, TRIANGLE):
            if other != kind:
                yield changed(changed(events, first, {KIND: other}), last, {KIND: other + END})
        yield events[:first] + events[last + 1:]
        yield events[:last + 1] + events[first:]
        yield without(without(events, last), first)
        if first:
            yield from with_size_that_follows(events, first, last)


def with_size_that_follows(events, first, last):
    """A member taken out or doubled, and the size of what holds it is true again; its index may not be."""
    around = max(begin for begin, end in ends_of(events) if begin < first and end > last)
    size = events[around][SIZE]
    yield changed(events, around, {SIZE: size - 1})[:first] + events[last + 1:]
    more = changed(events, around, {SIZE: size + 1})
    yield more[:last + 1] + events[first:]
    yield more[:last + 1] + changed(changed(events, first, {INDEX: size}), last, {INDEX: size})[first:last + 1] + events[last + 1:]


def with_pairs(events):
    """Pairs taken out, doubled and put into everything, with the size of what holds them made true; as coordinates; under other indices."""
    for first, last in ends_of(events):
        size = events[first][SIZE]
        for place in {first + 1, last}:
            for index in (0, size, size + 1):
                for more in (0, 1):
                    if events[first][KIND] != POINT or not more:
                        longer = changed(events, first, {SIZE: size + more})
                        yield longer[:place] + [event(PAIR, 0, index, 0, events[first][FEATURE])] + longer[place:]
    for place, each in enumerate(events):
        if each[KIND] == PAIR:
            yield changed(events, place, {KIND: COORDINATE})
            yield changed(events, place, {KIND: COORDINATE, PRESENT: 1, Z: 5})
            around = max(begin for begin, end in ends_of(events) if begin < place < end)
            if events[around][SIZE]:
                yield without(changed(events, around, {SIZE: events[around][SIZE] - 1}), place)


def from_one(events):
    """All indices from one; those of pairs alone, of begins and ends alone, of ends alone; all zero."""
    for kinds in (range(PAIR + 1), (PAIR,), range(PAIR), range(END, PAIR)):
        yield [changed([each], 0, {INDEX: each[INDEX] + 1})[0] if each[KIND] in kinds else each for each in events]
    yield [changed([each], 0, {INDEX: 0})[0] for each in events]


def with_tags(events):
    """All tags the other way, all set, none set, and at begins or ends alone."""
    for to in (lambda each: 1 - each[TAG], lambda each: 1, lambda each: 0):
        for kinds in ((LINE, POLYGON, LINE + END, POLYGON + END), (LINE, POLYGON), (LINE + END, POLYGON + END), (LINE, LINE + END)):
            yield [changed([each], 0, {TAG: to(each)})[0] if each[KIND] in kinds else each for each in events]


def with_features(events):
    """Another feature's number in each record, from each record on, and in all of one kind."""
    for feature in (0, 1, TOP):
        for place, each in enumerate(events):
            if feature != each[FEATURE]:
                yield changed(events, place, {FEATURE: feature})
                yield events[:place] + [changed([later], 0, {FEATURE: feature})[0] for later in events[place:]]
        for kind in {each[KIND] for each in events}:
            yield [changed([each], 0, {FEATURE: feature})[0] if each[KIND] == kind else each for each in events]


def badly_nested(events):
    """All of the above that leave every record well-formed or nearly so, in one row."""
    for way in (moved, begins_with_ends, with_pairs, from_one, with_tags, with_features):
        yield from way(events)


# ---- two faults

MALFORMED_RECORDS = (
    bytes(64),
    FIELDS.pack(*changed([event(PAIR)], 0, {SPARE: 1})[0]),
    FIELDS.pack(*changed([event(POINT)], 0, {SIZE: 1})[0]),
    FIELDS.pack(*changed([event(LINE)], 0, {TAG: 2})[0]),
    FIELDS.pack(*changed([event(COORDINATE)], 0, {TM: 1})[0]),
    FIELDS.pack(*event(13)),
)
RESTS = (b"\0", b"\1", bytes(63), FIELDS.pack(*event(POINT))[:63])
ODD_RECORDS = [FIELDS.pack(*each) for each in (event(COORDINATE), event(8), event(8 + END), event(POINT), event(COLLECTION, TOP),
                                               event(PAIR))]


def with_malformed(events):
    """A malformed record, or a rest, in front of, behind and between good records and other faults."""
    data = packed(events)
    for bad in MALFORMED_RECORDS:
        for place in range(0, len(data) + 1, RECORD_BYTES):
            yield data[:place] + bad + data[place:]
            yield data[:place] + bad + data[place + RECORD_BYTES:]
    for rest in RESTS:
        yield data + rest
        yield data[:-RECORD_BYTES] + rest
    yield from (data[:length] for length in range(0, len(data), 7))
    for odd in ODD_RECORDS:
        yield odd + data + MALFORMED_RECORDS[0]
        yield MALFORMED_RECORDS[1] + odd + data
        yield odd + data + RESTS[1]
        yield data[:RECORD_BYTES] + odd + data[RECORD_BYTES:] + RESTS[3]
        yield odd + data
        yield data + odd


def with_malformed_about(events):
    """In front of all, behind all, in the middle, and as a rest."""
    data = packed(events)
    middle = len(events) // 2 * RECORD_BYTES
    for bad in MALFORMED_RECORDS[:2]:
        yield bad + data
        yield data + bad
        yield data[:middle] + bad + data[middle:]
    yield data + RESTS[1]


# ---- deep ones

DEPTHS = (255, 256, 257, 258, 300, 513, 600)
INNERMOST = [(COLLECTION, []), inputs.OF_EACH_TYPE[0], inputs.OF_EACH_TYPE[3], (POLYGON, [[]])]


def deep(depth, innermost):
    """Collections around it, of so many levels in all."""
    return nested(depth - levels(innermost), innermost)


def levels_about(depth):
    """The outermost and the deepest level, the middle, and those about the places where a window of 256 could end."""
    wanted = {1, 2, 15, 16, 17, 18, depth // 2, 254, 255, 256, 257, 258, 259, 511, 512, 513, 514, depth - 2, depth - 1, depth}
    return sorted(level for level in wanted if 0 < level <= depth)


def with_one_fault(events, first, last):
    """One fault at a begin or its end."""
    index, size = events[first][INDEX], events[first][SIZE]
    yield changed(events, first, {INDEX: index + 1})
    yield changed(events, last, {INDEX: index + 1})
    yield changed(changed(events, first, {INDEX: index + 1}), last, {INDEX: index + 1})
    yield changed(events, first, {FEATURE: 9})
    yield changed(events, last, {FEATURE: 9})
    yield without(events, first)
    yield without(events, last)
    yield events[:last] + [event(PAIR, feature=events[0][FEATURE])] + events[last:]
    yield changed(events, last, {KIND: POLYGON + END})
    if events[first][KIND] != POINT:
        yield changed(events, first, {SIZE: size + 1})
        yield changed(events, first, {SIZE: 0 if size else 256})
    if events[first][KIND] in (LINE, POLYGON):
        yield changed(events, first, {TAG: 1 - events[first][TAG]})


def with_one_fault_each(events):
    """One fault at the two outermost begins and at the last five, or their ends."""
    brackets = ends_of(events)
    for first, last in brackets[:2] + brackets[2:][-5:]:
        yield from with_one_fault(events, first, last)


def deep_lists_for_malformed():
    """Good ones, and with a fault at the outermost, in the middle and at the deepest."""
    for depth in (17, 20, *DEPTHS):
        events = told(deep(depth, inputs.OF_EACH_TYPE[0]), 3)
        yield events
        for place in (0, depth // 2, depth - 1):
            yield changed(events, place, {INDEX: 1})


def twenty():
    """Twenty collections, well nested; with a wrong index at level 19; and with one end missing, of each in turn."""
    events = told(nested(19, (COLLECTION, [])), 1)
    yield events
    yield changed(events, 18, {INDEX: 1})
    yield from (without(events, place) for place in range(20, 40))


def deep_lists():
    """Good ones, and those with one fault at one level."""
    for depth in DEPTHS:
        for innermost in INNERMOST:
            yield told(deep(depth, innermost), 3)
        events = told(deep(depth, INNERMOST[1]), 3)
        brackets = ends_of(events)
        for level in levels_about(depth):
            yield from with_one_fault(events, *brackets[level - 1])


def deep_forests():
    """Several deep ones beside each other, of which the last has a fault, or the first: what was judged of one says nothing of the next."""
    for depths in ((300, 300), (20, 300, 257), (257, 20, 600), (513, 256, 258)):
        events = told((COLLECTION, [nested(depth - 2, (COLLECTION, [inputs.OF_EACH_TYPE[0], (LINE, [])])) for depth in depths]), TOP)
        yield events
        brackets = ends_of(events)
        for place in (1, 19, 255, 256, 257, 258, len(brackets) // 2, len(brackets) - 258, len(brackets) - 20, len(brackets) - 2):
            yield from with_one_fault(events, *brackets[place])


def very_deep():
    """Of 5,000 levels, good and with a fault at the deepest and in the middle."""
    events = told(nested(4999, inputs.OF_EACH_TYPE[0]), 1)
    brackets = ends_of(events)
    yield events
    for place in (2499, 4999):
        yield from with_one_fault(events, *brackets[place])


# ---- a few of many

def spread(given, count):
    """So many of them at most, at even distances."""
    given = list(given)
    return given[::-(-len(given) // count) or 1]


# ---- at random

def at_random(random, events):
    """The records with up to three changes."""
    for _ in range(random.randint(1, 3)):
        if not events:
            return events
        place, way = random.randrange(len(events)), random.randrange(7)
        each = events[place]
        if way == 0:
            events = without(events, place)
        elif way == 1:
            events = events[:place] + [each] + events[place:]
        elif way == 2:
            other = random.randrange(len(events))
            events = changed(changed(events, place, dict(enumerate(events[other]))), other, dict(enumerate(each)))
        elif way == 3:
            field = random.choice((KIND, TAG, SIZE, INDEX, FEATURE))
            events = changed(events, place, {field: max(each[field] + random.choice((-1, 1)), 0) & (1 << WIDTHS[field]) - 1})
        elif way == 4:
            field = random.randrange(13)
            events = changed(events, place, {field: random.choice([value for value in VALUES if value < 1 << WIDTHS[field]])})
        elif way == 5:
            events = events[:place] + [event(random.choice((*NAMES, PAIR, COORDINATE)), feature=each[FEATURE])] + events[place:]
        else:
            events = events[:place] + [event(random.choice((*NAMES,)) + END, feature=each[FEATURE])] + events[place:]
    return events
