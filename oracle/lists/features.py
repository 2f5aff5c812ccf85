"""What the writer's list must have of the numbers of features (SPEC 6.28): sorts of calls that coverage.py looks for in it.

The first event that is accepted puts its feature in hand, until next. One of another number is refused with 17, behind 11 and 15 and
before 5 and 12. In a state the mark 8 says that a feature is in hand, and word 3 has its number; marks above 8 are not looked at.
"""
import collections

from cases import EVENT, EVENTS, FINISH, NEXT, PROPERTY, WORDS
from client import feature_of, under

DONE, MIXED, MALFORMED, NO_ROOM, NOT_ITS_TURN, OTHER_FEATURE = 0, 5, 11, 12, 15, 17
TOP = 2**32 - 1
TYPES = set(range(1, 18)) - {13, 14}
TAGGED_TYPES = {2, 3, 17}
# The kind and the tag of each event.
HEADS = {(kind + end, tagged) for kind in TYPES for end in (0, 32) for tagged in (0, 1) if not tagged or kind in TAGGED_TYPES}
HEADS |= {(64, 0), (65, 0)}
NUMBERED, SPARE_MARKS = 8, (16, 32, 64, 128)

# An event of a call: its answer, the number in hand before it, or None, and the call before.
Given = collections.namedtuple("Given", "event number in_hand call before")


def in_hand(call):
    """The number of the feature that is in hand after a call, or None."""
    return call.third if call.marks & NUMBERED else None


def each_event(row):
    for before, call in zip(row, row[1:]):
        if call.what == EVENT:
            yield Given(call.event, call.number, in_hand(before), call, before)
        elif call.what == EVENTS:
            held = in_hand(before)
            for i in range(call.count + (call.number != DONE)):
                event = call.event[64 * i:64 * i + 64]
                yield Given(event, call.number if i == call.count else DONE, held, call, before)
                held = feature_of(event)


def is_of_another(given):
    return len(given.event) == 64 and given.in_hand not in (None, feature_of(given.event))


def head_of(given):
    return given.event[0], given.event[1]


def apart(given):
    """The bytes in which its number differs from the one in hand."""
    return tuple(byte for byte in range(4) if (given.in_hand ^ feature_of(given.event)) >> 8 * byte & 255)


def first_refusals(events):
    """With no feature in hand an event is refused, and the next that is accepted is of another."""
    for i, given in enumerate(events):
        if given.in_hand is None and given.number != DONE and len(given.event) == 64:
            accepted = [feature_of(later.event) for later in events[i + 1:] if later.number == DONE]
            if accepted and accepted[0] != feature_of(given.event):
                yield given.number


def answers_behind(events):
    """The kind of an event that was refused with 17 and is given again, under the number in hand and on the same memory; and what it is
    answered then."""
    for given, again in zip(events, events[1:]):
        if given.number == OTHER_FEATURE and again.event == under(given.in_hand, given.event) and again.call.lent == given.call.lent:
            yield again.event[0], again.number


def numbers_behind_next(row):
    """Whether a feature has the number of the one before it, and whether words were carried into it."""
    before_next = carried = None
    for before, call in zip(row, row[1:]):
        if call.what == NEXT and call.number == DONE:
            before_next, carried = in_hand(before), any(call.state[9::2])
        elif before_next is not None and in_hand(call) is not None:
            yield in_hand(call) == before_next, carried
            before_next = None


def run_before(call):
    """The kind of all events up to the one that was refused, or None where there are several, and how many were taken."""
    kinds = {call.event[64 * i] for i in range(call.count + 1)}
    return kinds.pop() if len(kinds) == 1 else None, call.count


def keeps(before, call):
    return in_hand(before) is not None and in_hand(before) == in_hand(call)


def shown_of_events(events, name):
    others = [given for given in events if given.number == OTHER_FEATURE]
    first = [given for given in events if given.number == DONE and given.in_hand is None]
    more = [given for given in events if given.number == DONE and given.in_hand is not None]
    yield f"{name} of another feature", HEADS, map(head_of, others)
    yield f"{name} that puts its feature in hand", HEADS, map(head_of, first)
    yield f"{name} of the feature in hand", HEADS, map(head_of, more)
    yield f"{name} of another feature, by the bytes that differ", [(0,), (1,), (2,), (3,), (2, 3), (0, 1, 2), (1, 2, 3)], map(apart, others)
    yield f"{name} of another feature, after the one in hand", [(0, 1), (1, 0), (0, TOP), (TOP, 0)], \
        [(given.in_hand, feature_of(given.event)) for given in others]
    yield f"{name} that puts its feature in hand, by number", (0, 1, TOP), [feature_of(given.event) for given in first]
    yield f"{name} of another feature, refused for what comes before 17", (MALFORMED, NOT_ITS_TURN), \
        [given.number for given in events if is_of_another(given)]
    # The words that are handed over are with the mark 8 or without, and the event has the number of word 3 or another.
    yield f"{name} on words that were handed over", [(1, 1, DONE), (1, 0, OTHER_FEATURE), (0, 1, DONE), (0, 0, DONE)], \
        [(int(given.in_hand is not None), int(feature_of(given.event) == given.before.third), given.number)
         for given in events if given.before.what == WORDS]


def shown(rows):
    """What is looked for, which of it must be there, and what is there."""
    by_row = [list(each_event(row)) for row in rows]
    calls = [pair for row in rows for pair in zip(row, row[1:])]
    for what, name in ((EVENT, "event"), (EVENTS, "event among many")):
        yield from shown_of_events([given for events in by_row for given in events if given.call.what == what], name)
    yield "refusal of an event that then puts no feature in hand", (MIXED, MALFORMED, NO_ROOM, NOT_ITS_TURN), \
        [number for events in by_row for number in first_refusals(events)]
    yield "answer that 17 comes before, to an event of a kind", \
        [(4, MIXED), *((kind, number) for kind in (2, 3, 34, 35, 64, 65) for number in (DONE, NO_ROOM))], \
        [answer for events in by_row for answer in answers_behind(events)]
    yield "run of one kind before an event of another feature", [(kind, taken) for kind in (64, 65) for taken in range(6)], \
        [run_before(call) for _, call in calls if call.what == EVENTS and call.number == OTHER_FEATURE]
    yield "call that is done and keeps the number", (PROPERTY, FINISH), \
        [call.what for before, call in calls if call.number == DONE and keeps(before, call)]
    yield "call that is refused and keeps the number", (EVENT, EVENTS, PROPERTY, FINISH, NEXT), \
        [call.what for before, call in calls if call.number != DONE and keeps(before, call)]
    yield "call before an event of another feature, refused or done", \
        [(EVENT, 0), (EVENT, 1), (PROPERTY, 0), (PROPERTY, 1), (FINISH, 0), (NEXT, 0)], \
        [(before.what, int(before.number == DONE)) for before, call in calls if call.what == EVENT and call.number == OTHER_FEATURE]
    yield "feature behind next, of the same number or not, with words carried into it or not", \
        [(same, carried) for same in (True, False) for carried in (True, False)], \
        [pair for row in rows for pair in numbers_behind_next(row)]
    yield "feature of properties alone, which has no number", [True], \
        [call.state[7] > 0 for _, call in calls if call.what == FINISH and call.number == DONE and in_hand(call) is None]
    yield "words handed over, with the mark 8 or not, and a word 3 or 0", [(8, True), (8, False), (0, True), (0, False)], \
        [(call.marks & NUMBERED, call.third > 0) for _, call in calls if call.what == WORDS]
    yield "mark above 8", SPARE_MARKS, [call.marks & mark for _, call in calls if call.what == WORDS for mark in SPARE_MARKS]
    yield "call on marks above 8, refused or done", [(what, done) for what in (EVENT, EVENTS, PROPERTY, FINISH, NEXT) for done in (0, 1)], \
        [(call.what, int(call.number == DONE)) for before, call in calls if before.marks > 15]
