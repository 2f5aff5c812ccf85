#!/usr/bin/env python3
"""The cases of crates/writer_cases: rows of calls to the geometry writer.

    oracle/lists/writer.py ORACLE > LIST

ORACLE is the oracle's program, the crate's own Rust. A row is a start and then events, properties, finishes and nexts, each on memory
lent as long as the row says at that call. What each call answers and leaves behind is given by `Writer`, this script's own reading of
SPEC 6. Every row is then written by the oracle too (request W; it is not given what SPEC alone refuses,
with 12, 15, 16 or 17, or with 11 for its length), and this script stops where the two differ: in a number, in the place at which a
property's text goes bad, in the state after a call, in a finished tree, record by record and word by word, in a feature's property bytes,
or in the lists still pending at the row's end. From SPEC alone come 12, 15, 16, 17, the feature's number in the state, where the pending
lists stand, and the words that stay as they were. Each row is then given again, with its events many in a call, up to the first that is
refused and then on from the one behind it, and here and there with a tail that is no whole record: the same states must come of it. A
call that is given no event at all is made both times. The seeds are fixed: the same list comes out every time. How many rows of each sort
there are, and how often each number is answered, is written to standard error.

The events of a feature have one number, which a row picks anew after each next; rows about numbers give each event its own. In some of
these the state is handed over with other marks above 4 and another word 3: that is no call, and the oracle sees nothing of it.

A case has a head of two bytes, the state's first word, numbers, a checksum of eight bytes, and what the call is given: an event, or
events, or a property's value (a word) and its text.
  head     how many bytes each number has, 1 or 4; what is called: 0 start, 1 event, 2 events, 3 property, 4 finish, 5 next, 6 nothing:
           the state's words are from here on those of the case
  state    its first word: declared type, current type, mode, marks (1 detect, 2 promote, 4 waiting, 8 numbered)
  numbers  0: number, 1: how many events are taken of many, or a property's place, 2: how often the call is made, 3: lent records,
           4: lent bytes after them, 5: lent of each pool, 11: the other words of the state after, 26: column, 27: type
A property's lent bytes are those of its buffer; where the feature has no property bytes yet, canaries are laid down in it before the
call. A start lays them down in all that it is lent. The checksum is that of all that is lent, after the call.
"""
import collections, copy, itertools, random, struct, sys

import differences, texts
from cases import EVENT, EVENTS, FINISH, NEXT, PROPERTY, START, WORDS, canary, canary_end, canary_word, frame, word
from client import FINISH as FINISH_ITEM, Oracle, begin, end, ev, feature_of, prop, store, under

DONE, MIXED, NOT_UTF8, MALFORMED, NO_ROOM, NOT_ITS_TURN, COLUMN_TOO_LARGE, OTHER_FEATURE = 0, 5, 6, 11, 12, 15, 16, 17
NORMAL, COLLECTION, FORCE_MULTI = range(3)
MODES = ("Normal", "GeometryCollection", "ForceMulti")
POOLS = ("xy", "ends", "z", "m", "t", "tm")
XY, ENDS = 0, 1
USABLE_RECORDS, USABLE, USABLE_BYTES = 4096, (131072, 65536, 65536, 65536, 65536, 65536), 65536
WIDTHS, BOOL, STRING, BINARY = (1, 1, 1, 2, 2, 4, 4, 8, 8, 4, 8), 2, 11, 14
BUFFER = 1024
TYPES = sorted(set(range(1, 18)) - {13, 14})
TAGGED_TYPES = (2, 3, 17)
KINDS = TYPES + [kind + 32 for kind in TYPES] + [64, 65]
ALL_BITS, TOP = 2**64 - 1, 2**32 - 1
NUMBERED = 8
oracle = Oracle(sys.argv[1])
pick = random.Random(3)
# What is added to the rows goes by a source of its own, so that the rows stay as they are.
added = random.Random(4)
numbering = random.Random(5)


# The writer, as SPEC 6 has it.

def is_malformed(event):
    if len(event) != 64 or event[0] not in KINDS:
        return True
    kind, tagged, present, spare, size, _, _, x, y, *values = struct.unpack("<BBBBIII6Q", event)
    unused = [spare, tagged // 2, present // 16]
    unused += [tagged] if kind >= 64 or kind % 32 not in TAGGED_TYPES else []
    unused += [size] if kind >= 32 or kind == 1 else []
    unused += [x, y] if kind < 64 else []
    unused += [present] if kind != 65 else []
    return any(unused + [value for i, value in enumerate(values) if not present >> i & 1])


class Writer:
    def __init__(self, declared, detect, promote, held):
        self.declared, self.detect, self.promote = declared, detect, promote
        self.current, self.mode, self.waiting, self.parts = 0, NORMAL, 0, 0
        self.start, self.count, self.properties = [0] * 6, [0] * 6, 0
        # The number of the feature in hand, and words that were handed over and that no accepted call has written since.
        self.feature, self.words = None, None
        self.table = bytearray(map(canary, range(64 * held[0] + held[1])))
        self.pools = [list(map(canary_end if pool == ENDS else canary_word, range(n))) for pool, n in enumerate(held[2:])]
        self.buffer = bytearray()

    def state(self):
        """The bytes of the first word, and the other words."""
        if self.words:
            return self.words
        marks = self.detect | self.promote << 1 | self.waiting << 2 | (0 if self.feature is None else NUMBERED)
        pending = [n for pair in zip(self.start, self.count) for n in pair]
        return bytes([self.declared, self.current, self.mode, marks]), [self.parts, self.properties, self.feature or 0, *pending]

    def hand_over(self, marks, third):
        """The state comes with other marks above 4, and another word 3."""
        (*typing, low), (parts, properties, _, *pending) = self.state()
        self.words = bytes([*typing, low & 7 | marks]), [parts, properties, third, *pending]
        self.feature = third if marks & NUMBERED else None

    def accepted(self):
        self.words = None
        return DONE

    def used(self):
        """Of the table's records and of each pool's words."""
        records = self.parts + 1 if self.parts or self.waiting else 0
        return [records] + [start + count for start, count in zip(self.start, self.count)]

    def has_room(self, lent, records, more=(0,) * 6):
        if records > min(lent[0], USABLE_RECORDS):
            return False
        needed = [start + count + n for start, count, n in zip(self.start, self.count, more)]
        return all(n <= min(pair) for n, *pair in zip(needed, lent[2:], USABLE))

    def typed(self, kind):
        """Declared type, current type and mode after a begin, or None where types are mixed."""
        declared, current, mode = self.declared, self.current, self.mode
        if kind != declared:
            lifted = self.promote and kind in (2, 3)
            if declared == 0:
                found = kind + 3 if lifted else kind
                mode = FORCE_MULTI if lifted else mode
                if not self.detect:
                    current = found
                elif mode != COLLECTION or found == 7:
                    declared = found
            elif declared == 7 and mode == COLLECTION:
                pass
            elif lifted and declared == kind + 3 and mode != COLLECTION:
                mode = FORCE_MULTI
            else:
                return None
            current = kind if mode == COLLECTION else current
        return declared, current, COLLECTION if kind == 7 else mode

    def event(self, event, lent):
        if is_malformed(event):
            return MALFORMED
        if self.waiting:
            return NOT_ITS_TURN
        if self.feature not in (None, feature_of(event)):
            return OTHER_FEATURE
        kind, tagged, present = event[:3]
        typing, words, part = (self.declared, self.current, self.mode), [[] for _ in POOLS], False
        calmed = (self.declared, self.current, NORMAL if tagged and self.mode == FORCE_MULTI else self.mode)
        if kind < 32 and (tagged or kind not in TAGGED_TYPES):
            typing = self.typed(kind)
        elif kind == 33:
            part = self.mode == COLLECTION
        elif kind == 34:
            typing, part = calmed, self.mode == COLLECTION
            words[ENDS] = [self.count[XY] // 2] if not tagged or self.mode == FORCE_MULTI else []
        elif kind == 35:
            typing, part = calmed, not tagged or self.mode != NORMAL
        elif kind == 39:
            typing = (self.declared, self.current, NORMAL)
        elif kind >= 64:
            x, y, *values = struct.unpack("<6Q", event[16:])
            words[XY] = [x, y]
            words[2:] = [[value] if present >> i & 1 else [] for i, value in enumerate(values)]
        if typing is None:
            return MIXED
        if not self.has_room(lent, self.parts + 2 if part else self.used()[0], [len(more) for more in words]):
            return NO_ROOM
        for pool, more in enumerate(words):
            at = self.start[pool] + self.count[pool]
            self.pools[pool][at:at + len(more)] = more
            self.count[pool] += len(more)
        if part:
            self.parts += 1
            self.put_part(self.parts)
        self.declared, self.current, self.mode = typing
        self.feature = feature_of(event)
        return self.accepted()

    def events(self, records, lent):
        """The number, and how many records are taken. A rest that is no whole record is an event too, and malformed."""
        starts = range(0, len(records), 64)
        for taken, at in enumerate(starts):
            number = self.event(records[at:at + 64], lent)
            if number != DONE:
                return number, taken
        return DONE, len(starts)

    def property(self, column, kind, bits, text, lent):
        """The number, and the place in the text, which is 0 with every number but 6."""
        if self.properties == 0:
            self.buffer = bytearray(map(canary, range(BUFFER)))
        if self.waiting:
            return NOT_ITS_TURN, 0
        if column > 65535:
            return COLUMN_TOO_LARGE, 0
        if kind > BINARY or kind < STRING and bits >= (2 if kind == BOOL else 256 ** WIDTHS[kind]):
            return MALFORMED, 0
        place = texts.bad_place(text) if STRING <= kind < BINARY else None
        if place is not None:
            return NOT_UTF8, place
        value = bits.to_bytes(WIDTHS[kind], "little") if kind < STRING else struct.pack("<I", len(text)) + text
        laid = struct.pack("<H", column) + value
        if self.properties + len(laid) > min(lent, USABLE_BYTES):
            return NO_ROOM, 0
        self.buffer[self.properties:self.properties + len(laid)] = laid
        self.properties += len(laid)
        return self.accepted(), 0

    def put_part(self, number):
        """The pending lists as a record; they are pending no longer."""
        kept = [count > (1 if pool == ENDS else 0) or pool == XY for pool, count in enumerate(self.count)]
        pairs = [pair if there else (0, 0) for there, pair in zip(kept, zip(self.start, self.count))]
        self.put_record(number, sum(there << pool for pool, there in enumerate(kept)), *pairs, (0, 0))
        self.start = [start + there * count for there, start, count in zip(kept, self.start, self.count)]
        self.count = [0] * 6

    def put_record(self, number, present, *pairs):
        record = struct.pack("<BBH14II", self.current, present, 0, *itertools.chain(*pairs), 0)
        self.table[64 * number:64 * number + 64] = record

    def finish(self, lent):
        if self.waiting:
            return NOT_ITS_TURN
        if not self.has_room(lent, self.parts + 1):
            return NO_ROOM
        if self.parts == 0:
            self.put_part(0)
        else:
            self.put_record(0, 64, *[(0, 0)] * 6, (1, self.parts))
        self.waiting = 1
        return self.accepted()

    def next(self, lent):
        if not self.waiting:
            return NOT_ITS_TURN
        if not self.has_room(lent, self.parts + 1):
            return NO_ROOM
        for pool, start, count in zip(self.pools, self.start, self.count):
            pool[:count] = pool[start:start + count]
        self.start, self.parts, self.waiting, self.properties, self.feature = [0] * 6, 0, 0, 0, None
        return self.accepted()

    def checksum(self, lent):
        pools = [pool[:n] for pool, n in zip(self.pools, lent[2:])]
        return checksum(itertools.chain(self.table[:64 * lent[0] + lent[1]], *pools))


def checksum(words):
    mix = 1
    for n in words:
        mix ^= n
        mix ^= mix << 13 & ALL_BITS
        mix ^= mix >> 7
        mix ^= mix << 17 & ALL_BITS
    return mix


# A row: its calls are made on the writer, laid out as cases, and given to the oracle.

# Records, bytes after them, words of each pool.
SLICES = (0, 2, 3, 4, 5, 6, 7)
HELD = (9, 24, 48, 16, 16, 16, 16, 16)
counted = collections.Counter()


def some_number():
    """Most are small, so that a case's numbers have one byte each."""
    return numbering.choice((0, 1, 7, 255)) if numbering.random() < 0.8 else numbering.choice((256, 2**24, TOP, numbering.getrandbits(32)))


class Row:
    def __init__(self, declared, detect=0, promote=0, held=HELD, most=None):
        self.writer, self.held, self.cases = Writer(declared, detect, promote, held), held, []
        # The number of the feature in hand, and how many events are given in a call, where that is said.
        self.number, self.most = some_number(), most
        # What is asked of the oracle, and what it is to answer; and each call, with the state after it.
        self.items, self.answers, self.trees, self.property_bytes, self.calls = [], [], [], [], []
        self.counted = collections.Counter()
        self.typing = dict(declared=declared, detect=detect, promote=promote)
        self.lay_out(START, DONE, held)

    def lay_out(self, what, number, lent, *given, count=0, times=1, column=0, kind=0, sum=None):
        head, state = self.writer.state()
        numbers = [number, count, times, *lent, *state, column, kind]
        width = 4 if max(numbers) > 255 else 1
        laid = b"".join(n.to_bytes(width, "little") for n in numbers)
        sum = self.writer.checksum(lent) if sum is None else sum
        self.cases.append(frame(bytes([width, what]), head, laid, word(sum), *given))
        self.counted[what, number] += 1
        return number

    def called(self, *call):
        self.calls.append((call, self.writer.state()))

    def numbered(self, event):
        """The event under the number of the feature in hand; if it has one itself, under another."""
        number = self.number if self.writer.feature is None else self.writer.feature
        return under(number ^ feature_of(event), event)

    def event(self, event, lent=None, times=1):
        return self.given(self.numbered(event), lent, times)

    def given(self, event, lent=None, times=1):
        """An event under the number that it has."""
        lent = lent or self.held
        for _ in range(times):
            number = self.writer.event(event, lent)
            if not self.writer.waiting and len(event) == 64 and number not in (NO_ROOM, OTHER_FEATURE):
                self.ask(event, number)
        self.called(EVENT, lent, event, times)
        return self.lay_out(EVENT, number, lent, event, times=times)

    def events(self, events):
        for event in events:
            self.event(event)

    def many(self, records, lent, times=1):
        """Records in one call, so many times over."""
        for _ in range(times):
            number, taken = self.writer.events(records, lent)
        self.lay_out(EVENTS, number, lent, records, count=taken, times=times)
        return taken

    def no_events(self, lent=None):
        """A call for many events that is given none: the oracle has no such call."""
        self.called(EVENTS, lent)
        return self.many(b"", lent or self.held)

    def property(self, column, kind, bits=0, text=b"", lent=BUFFER):
        number, place = self.writer.property(column, kind, bits, text, lent)
        if number not in (NOT_ITS_TURN, COLUMN_TOO_LARGE, NO_ROOM):
            self.ask(prop(column, kind, bits, text), number, place)
        self.called(PROPERTY, column, kind, bits, text, lent)
        bytes_lent = (lent // 64, lent % 64, 0, 0, 0, 0, 0, 0)
        left = checksum(self.writer.buffer[:lent])
        return self.lay_out(PROPERTY, number, bytes_lent, word(bits), text, count=place, column=column, kind=kind, sum=left)

    def finish(self, lent=None):
        number = self.writer.finish(lent or self.held)
        if number == DONE:
            self.ask(FINISH_ITEM, number)
            lists = [pool[:start] for pool, start in zip(self.writer.pools, self.writer.start)]
            self.trees.append((bytes(self.writer.table[:64 * self.writer.parts + 64]), lists))
            self.property_bytes.append(bytes(self.writer.buffer[:self.writer.properties]))
        self.called(FINISH, lent)
        return self.lay_out(FINISH, number, lent or self.held)

    def next(self, lent=None):
        number = self.writer.next(lent or self.held)
        if number == DONE:
            self.number = some_number()
        self.called(NEXT, lent)
        return self.lay_out(NEXT, number, lent or self.held)

    def hand_over(self, marks, third):
        self.writer.hand_over(marks, third)
        self.called(WORDS, marks, third)
        return self.lay_out(WORDS, DONE, self.held)

    def feature(self, events):
        self.events(events)
        if added.random() < 0.3:
            some_property(self)
        self.finish()
        self.next()

    def ask(self, item, number, place=0):
        """What the oracle is to answer. Its finish is a finish and a next."""
        writer = self.writer
        parts, properties = (0, 0) if item == FINISH_ITEM else (writer.parts, writer.properties)
        self.items.append(item)
        self.answers.append((number, place, [writer.declared, writer.current, MODES[writer.mode], parts, *writer.count, properties]))

    def done(self):
        answer = oracle.write(self.items, **self.typing)
        names = ("declared", "current", "mode", "parts", *POOLS, "properties")
        states = [[state[name] for name in names] for state in answer.states]
        assert self.answers == list(zip(answer.numbers, answer.places, states)), self.typing
        assert self.trees == [(feature.tree.table, feature.tree.pools) for feature in answer.features], self.typing
        assert self.property_bytes == [feature.properties for feature in answer.features], self.typing
        pending = zip(self.writer.pools, self.writer.start, self.writer.count)
        assert answer.pending.pools == [pool[start:start + count] for pool, start, count in pending], self.typing
        counted.update(self.counted)
        return self.cases + self.again()

    def again(self):
        """The cases of the same calls, with the events many in a call: as many as are lent the same, up to some number."""
        row = Row(**self.typing, held=self.held)
        make_again = {EVENTS: row.no_events, PROPERTY: row.property, FINISH: row.finish, NEXT: row.next, WORDS: row.hand_over}
        together = Together(row, self.most)
        for (what, *given), state in self.calls:
            if what == EVENT:
                together.add(*given)
                continue
            together.give()
            make_again[what](*given)
            assert row.writer.state() == state, self.typing
        together.give()
        assert row.writer.state() == self.writer.state() and row.writer.pools == self.writer.pools, self.typing
        counted.update(row.counted)
        return row.cases


class Together:
    """Events that are still to be given to a row, many in a call."""

    def __init__(self, row, most):
        self.row, self.events, self.lent, self.most, self.all_most = row, [], None, 0, most

    def add(self, lent, event, times):
        if self.events and (lent != self.lent or len(self.events) == self.most or len(self.events[-1]) < 64):
            self.give()
        if not self.events:
            self.lent, self.most = lent, self.all_most or added.randrange(1, 25)
        if times > 1:
            self.give()
            for records, turns in ((64, times // 64), (times % 64, 1)):
                if records * turns:
                    self.row.many(event * records, lent, turns)
        elif 0 < len(event) <= 64:
            # One that is longer would be an event and a rest, and none at all is no event.
            self.events.append(event)

    def give(self):
        """A call ends with the first that is refused: the next one begins behind it."""
        while self.events:
            whole = len(self.events[-1]) == 64
            tail = added.choice([b"", b"", b"", b"", b"\x40", self.events[0][:63], bytes(added.randrange(1, 64))]) if whole else b""
            taken = self.row.many(b"".join(self.events) + tail, self.lent)
            self.events = self.events[taken + 1:]


# Events: well nested, wild and malformed.

DOUBLES = [0, 1 << 63, 1, 0x7FF << 52, 0xFFF << 52, 0x7FF0000000000001, 0xFFF8123456789ABC, 0x3FF << 52]


def value():
    return pick.choice(DOUBLES) if pick.random() < 0.3 else pick.getrandbits(64)


def pair(present=None):
    if present is None:
        return ev(64, idx=pick.randrange(9), x=value(), y=value())
    values = {name: value() for i, name in enumerate(POOLS[2:]) if present >> i & 1}
    return ev(65, idx=pick.randrange(9), present=present, x=value(), y=value(), **values)


def pairs(most=3):
    present = pick.choice([None, None, pick.randrange(16)])
    return [pair(present) for _ in range(pick.randrange(most + 1))]


def wrapped(kind, inside, tagged=0):
    tagged = tagged if kind in TAGGED_TYPES else 0
    size = 0 if kind == 1 else pick.choice([0, 1, len(inside), 2**32 - 1])
    return [begin(kind, size, pick.randrange(3), tagged), *inside, end(kind, pick.randrange(3), tagged)]


INSIDE = {3: [2], 5: [2], 6: [3], 9: [2, 8], 10: [2, 8, 9], 11: [2, 8, 9], 12: [3, 10], 15: [3], 16: [17], 17: [2]}


def geometry(kind, tagged=1, levels=3):
    """The events of a geometry, as a reader would say them."""
    if kind in (1, 2, 4, 8):
        return wrapped(kind, [pair(pick.choice([None, pick.randrange(16)]))] if kind == 1 else pairs(), tagged)
    some = range(pick.randrange(3))
    if kind == 7:
        inside = [geometry(pick.choice(TYPES if levels > 1 else [1, 2, 3, 4]), 1, levels - 1) for _ in some]
    else:
        inside = [geometry(pick.choice(INSIDE[kind]), 0, levels) for _ in some]
    return wrapped(kind, list(itertools.chain(*inside)), tagged)


def wild_event():
    kind = pick.choice([pick.choice(KINDS), 64, 64, 65, 65, 33, 34, 34, 35, 35, 7, 39, 2, 3])
    if kind >= 64:
        return pair(None if kind == 64 else pick.randrange(16))
    return ev(kind, tagged=pick.randrange(2) if kind % 32 in TAGGED_TYPES else 0, idx=pick.randrange(3))


def stray_event():
    """An event that is malformed: of another length, with a spare byte that is set, or of no kind. Or one of another feature, where the
    byte that is changed is of its number."""
    event = bytearray(wild_event())
    how = pick.randrange(4)
    if how == 0:
        return bytes(event[:pick.choice([0, 1, 32, 63])])
    if how == 1:
        return bytes(event) + bytes(pick.choice([1, 16]))
    event[pick.choice([3, 12, 15]) if how == 2 else 0] = pick.choice([13, 14, 18, 32, 45, 66, 255])
    return bytes(event)


TEXTS = [text.encode() for text in ("", "a", "plough", "äöü €", "\U0010ffff")] + [b"\xff", b"plough\xc3", b"\xed\xa0\x80", b"\xc3\xa4\x80"]


def some_property(row):
    """A property of any type, well given as a rule, to a buffer that is long enough as a rule."""
    kind = added.randrange(15)
    bits = added.choice([0, 1, added.getrandbits(8 * WIDTHS[kind]) if kind < STRING else added.getrandbits(64)])
    column, lent = added.randrange(65536), BUFFER
    how = added.randrange(12)
    if how == 0:
        column = added.choice([65535, 65536, 2**32 - 1])
    elif how == 1:
        kind = added.choice([15, 16, 255])
    elif how == 2:
        bits = added.choice([2, 256, 2**63, 2**64 - 1])
    elif how == 3:
        lent = min(row.writer.properties + added.randrange(12), BUFFER)
    text = added.choice(TEXTS if added.random() < 0.5 else TEXTS[:5])
    row.property(column, kind, bits, text, lent)


# Rows, by sort.

SWITCHES = list(itertools.product((0, 1), repeat=2))


def nested_rows():
    """Each declared type, each detect and promote: features of that type, of the one it is promoted from, and of any other."""
    for declared, (detect, promote), _ in itertools.product(range(18), SWITCHES, range(7)):
        row = Row(declared, detect, promote)
        likely = [kind for kind in (declared, declared - 3) if kind in TYPES] or TYPES
        for _ in range(3):
            row.feature(geometry(pick.choice(likely if pick.random() < 0.7 else TYPES)))
        yield row


def type_rows():
    """Each declared type, each detect and promote, each mode: one begin of each type, and a part of it."""
    for declared, (detect, promote), mode, kind in itertools.product(range(18), SWITCHES, MODES, TYPES):
        row = Row(declared, detect, promote, held=(3, 0, 4, 2, 1, 1, 1, 1))
        if mode == "GeometryCollection":
            row.event(begin(7))
        elif mode == "ForceMulti":
            row.event(begin(3 if declared == 6 else 2, tagged=1))
        if MODES[row.writer.mode] == mode:
            row.event(begin(kind, tagged=int(kind in TAGGED_TYPES)))
            row.event(ev(35, tagged=pick.randrange(2)))
            yield row


def other_declared_rows():
    for declared in range(18, 256):
        row = Row(declared, pick.randrange(2), pick.randrange(2), held=(3, 1, 8, 3, 2, 2, 2, 2))
        row.event(begin(pick.choice(TYPES), tagged=0))
        row.event(begin(2, tagged=1))
        row.feature([pair(), end(2)])
        yield row


def lent_about(row):
    """The row's memory, but for one slice, which is cut near what the state uses."""
    lent = list(row.held)
    at, used = pick.choice(list(zip(SLICES, row.writer.used())))
    lent[at] = min(max(used + pick.choice([-1, 0, 1, 2]), 0), lent[at])
    return lent


def wild_rows(count, calls, tight):
    for _ in range(count):
        row = Row(pick.choice([0, 0, 0, 7, 7, 5, 6, pick.randrange(18)]), pick.randrange(2), pick.randrange(2))
        for _ in range(calls):
            lent = lent_about(row) if pick.random() < tight else None
            if added.random() < 0.1:
                some_property(row)
            chance = pick.random()
            if chance < (0.5 if row.writer.waiting else 0.02):
                row.next(lent)
            elif chance < (0.55 if row.writer.waiting else 0.12):
                row.finish(lent)
            else:
                row.event(stray_event() if pick.random() < 0.03 else wild_event(), lent)
        yield row


def leftover_rows():
    """Lists that are still pending when a feature with parts is finished, over several features."""
    for declared, (detect, promote), _ in itertools.product((0, 3, 6, 7, 15), SWITCHES, range(4)):
        row = Row(declared, detect, promote)
        for _ in range(4):
            events = [pair(pick.randrange(16)), end(2), pair(pick.randrange(16)), end(2)][:pick.randrange(5)]
            row.event(ev(35))
            row.events([pair(pick.randrange(16)) for _ in range(pick.randrange(3))])
            row.event(ev(35))
            row.feature(events)
        row.feature([])
        yield row


# Lent memory that is less than a feature with parts uses.
SHORT = (1, 63, 1, 1, 1, 1, 1, 1)


def order_rows():
    """Every set of reasons to refuse, at each call."""
    for waiting, malformed, mixed, cut in itertools.product((0, 1), repeat=4):
        row = Row(3)
        row.events([begin(3, tagged=1), pair(15), end(2), ev(35), pair(15), end(2)])
        if waiting:
            row.finish()
        event = bytearray(begin(4) if mixed else pair(15))
        event[3] = malformed
        row.event(bytes(event), SHORT if cut else None)
        row.finish(SHORT if cut else None)
        row.next(SHORT if cut else None)
        row.next()
        yield row


def property_rows():
    """Every set of reasons to refuse a property, of a number and of a text, before and after one that is taken; and a full buffer."""
    for kind, (waiting, column, malformed, not_utf8, cut) in itertools.product((0, 10, STRING, BINARY), itertools.product((0, 1), repeat=5)):
        row = Row(1)
        row.events([begin(1), pair(), end(1)])
        row.property(1, 1, 7)
        if waiting:
            row.finish()
        row.property(65536 if column else 65535, 15 if malformed else kind, 1, b"ok\xff" if not_utf8 else b"ok", 4 if cut else BUFFER)
        row.property(2, 1, 9)
        row.finish()
        row.next()
        row.property(3, kind, 1, b"ok")
        yield row
    for size in (BUFFER - 6, BUFFER - 7, BUFFER - 9):
        row = Row(1)
        for _ in range(2):
            row.property(0, BINARY, 0, added.randbytes(size))
            row.property(1, 2, 1)
            row.property(1, 4, 1)
            row.feature([begin(1), pair(), end(1)])
        yield row


def bad_text_rows():
    """Texts that go bad at each place, between properties that are taken: with room for them, and with none; and longer than all the
    buffer. Then one more while the feature waits."""
    spoilt = zip(itertools.cycle(range(STRING, BINARY)), itertools.cycle((BUFFER, 9)), texts.spoilt())
    long = ((STRING, BUFFER, text) for text in texts.long(BUFFER + 9, (0, 255, 256, BUFFER - 1, BUFFER, BUFFER + 8)))
    given = list(itertools.chain(spoilt, long))
    for at in range(0, len(given), 12):
        row = Row(1)
        row.property(1, STRING, 0, "ä".encode())
        for kind, lent, text in given[at:at + 12]:
            row.property(2, kind, 0, text, lent)
        row.property(3, STRING, 0, "€".encode())
        row.feature([begin(1), pair(), end(1)])
        row.property(4, STRING, 0, given[at][2])
        row.finish()
        row.property(5, STRING, 0, b"ok\xff")
        yield row


BEFORE = ([], [pair(15), end(2)], [begin(2, tagged=1), pair(15)], [begin(7), pair(15), end(2)], [begin(7), pair(15), end(2), pair(15)],
          [pair(15), end(2), end(2), ev(35), pair(15), end(2), ev(35), pair(15), end(2)])
CALLS = (*[pair(present) for present in (None, 1, 2, 4, 8, 15)], end(2), end(2, tagged=1), ev(33), ev(35), ev(35, tagged=1), ev(39),
         begin(1), FINISH, NEXT)


def make(call, on, lent):
    return on.finish(lent) if call == FINISH else on.next(lent) if call == NEXT else on.event(call, lent)


def shorter(lent, at):
    return [n - (i == at) for i, n in enumerate(lent)]


def tightest(row, call):
    """The least that can be lent to a call that is taken. The table's remainder stays, and is no room."""
    lent, given = list(row.held), call if call in (FINISH, NEXT) else row.numbered(call)
    for at in SLICES:
        while lent[at] and make(given, copy.deepcopy(row.writer), shorter(lent, at)) == DONE:
            lent[at] -= 1
    return lent


def room_rows():
    """Each call with each slice one short of what it takes, then with all of them just long enough."""
    for events, call, detect in itertools.product(BEFORE, CALLS, (0, 1)):
        row = Row(0, detect, promote=1, held=(5, 63, 8, 5, 4, 4, 4, 4))
        row.events(events)
        if call == NEXT:
            row.finish()
        exact = tightest(row, call)
        for at in SLICES:
            if exact[at]:
                make(call, row, shorter(exact, at))
        make(call, row, exact)
        row.feature([])
        yield row


def bench_rows():
    """B1 to B9 of SPEC 12.1."""
    ring = [begin(2, 4), *[pair() for _ in range(4)], end(2)]
    line = lambda n, tagged=0: [begin(2, n, tagged=tagged), *[pair() for _ in range(n)], end(2, tagged=tagged)]
    polygon = [begin(3, 1, tagged=1), *ring, end(3, tagged=1)]
    for declared, promote, events in (
            (3, 0, polygon), (3, 0, [polygon[0], *ring, *ring, polygon[-1]]), (3, 0, [polygon[0], polygon[-1]]),
            (5, 0, [begin(5, 3), *line(2), *line(0), *line(3), end(5)]), (5, 1, line(2, 1)), (5, 0, line(2, 1)),
            (6, 0, [begin(6), end(6)]), (7, 0, [begin(7, 1), *polygon, end(7)]),
            (0, 0, [begin(7, 1), begin(1), pair(), end(1), end(7)])):
        row = Row(declared, 0, promote)
        for _ in range(3):
            row.feature(events)
        yield row


def difference_rows():
    """The smallest inputs of docs/DIFFERENCES.md: this script stops where one is answered otherwise than its entry says."""
    for given in differences.inputs_of(differences.Row):
        row = Row(given.declared, 0, given.promote)
        for call, number in differences.each_call(given.calls):
            assert make(call, row, None) == number, given
        assert row.trees == [(made.table, made.pools) for made in map(store, given.trees)], given
        yield row


LONG = (4098, 0, 131076, 65538, 65538, 65538, 65538, 65538)


def pair_limit_row():
    """65,536 pairs, in blocks of their own words, and one more; then the last pair of a part, and one more."""
    row = Row(4, held=LONG)
    row.event(begin(4))
    for _ in range(4):
        row.event(pair(15), times=16384)
    row.event(pair())
    row.event(pair(0))
    row.finish()
    row.next()
    row.event(pair())
    row.feature([ev(35)])
    return row


def part_limit_row():
    """4,095 parts and one more; what is pending beside them is carried over."""
    row = Row(7, held=LONG)
    row.event(begin(7))
    for most in (1365, 1365, 1364):
        row.event(pair(), times=3)
        row.event(ev(33), times=most)
    row.events([pair(), pair(), ev(33), ev(33), pair(), ev(34), ev(35, tagged=1), ev(39), end(2)])
    row.finish()
    row.next()
    row.feature([ev(35)])
    return row


def end_limit_row():
    """65,536 ends and one more: refused in a collection too, where the end would be dropped again."""
    row = Row(7, held=LONG)
    for _ in range(4):
        row.event(pair())
        row.event(end(2), times=16384)
    row.events([end(2), begin(7), end(2), ev(34, tagged=1), end(2)])
    row.finish()
    row.next()
    row.feature([end(2)])
    return row


def limit_rows():
    yield from (pair_limit_row(), part_limit_row(), end_limit_row())


NOTHING_LENT = (0,) * 8


def no_event_rows():
    """Calls with no event, before and behind each event and while a finished feature waits, on all the memory and on none. While it
    waits, a rest that is no whole record is malformed, and an event is not in its turn."""
    for declared, (detect, promote), events in itertools.product((0, 7), SWITCHES, BEFORE):
        row = Row(declared, detect, promote)
        row.no_events()
        for event in events:
            row.event(event)
            row.no_events()
        row.property(1, 1, 7)
        row.no_events(NOTHING_LENT)
        row.finish()
        row.no_events()
        row.no_events(NOTHING_LENT)
        row.events([pair()[:63], pair()])
        row.no_events()
        row.next()
        row.no_events(NOTHING_LENT)
        yield row


OPENINGS = (begin(7), begin(2, tagged=1), begin(3, tagged=1))
ENDS_THAT_ACT = (ev(33), end(2), end(2, tagged=1), ev(35), ev(35, tagged=1), ev(39))


def open_rows():
    """A mode that was left open, in a feature that begins nothing: each end that does something, and one that does not."""
    for declared, (detect, promote), opening, event in itertools.product((0, 5, 6, 7), SWITCHES, OPENINGS, (*ENDS_THAT_ACT, ev(36))):
        row = Row(declared, detect, promote)
        row.event(opening)
        if row.writer.mode != NORMAL:
            row.feature([])
            row.feature([event, pair(), event])
            yield row


# Rows about the numbers of features.

# A number, and another: they differ in one byte, in all, in all but the lowest or the highest, or in the two higher ones.
APART = ((0, 1), (1, 0), (0, TOP), (TOP, 0), (7, 7 + 256), (7 + 256, 7), (7, 7 + 65536), (7, 7 + 2**24), (2**24, 0), (TOP, 255),
         (0x04030201, 0x01020304), (7, 0x01010007), (0x01000000, 0x01030201))


def every_event():
    for kind, tagged in itertools.product(TYPES, (0, 1)):
        if not tagged or kind in TAGGED_TYPES:
            yield from (begin(kind, tagged=tagged), end(kind, tagged=tagged))
    yield from map(pair, (None, 0, 1, 8, 15))


def other_feature_rows():
    """Each event under another number than the one in hand, and under that one; then as the first of the next feature."""
    for event, (held, other) in zip(list(every_event()) * 4, itertools.cycle(APART)):
        row = Row(0)
        row.given(under(held, pair()))
        for feature in (other, held, other):
            row.given(under(feature, event))
        row.given(under(held, pair()))
        row.finish()
        row.next()
        for feature in (other, held, other):
            row.given(under(feature, event))
        row.given(under(held, pair()))
        row.finish()
        yield row


def number_order_rows():
    """Every set of reasons to refuse an event, another number among them, with a feature in hand and with none; then the same event under
    the number in hand, and pairs under a third one and that one: what was refused has put no feature in hand."""
    held, other, third = 7, 9, 8
    # The first mixes the types.
    asked = (begin(4), pair(15), pair(), begin(3, tagged=1), begin(2), end(2), ev(35))
    for event, (has_number, waiting, malformed, differs, cut) in itertools.product(asked, itertools.product((0, 1), repeat=5)):
        row = Row(3)
        if has_number:
            for taken in (begin(3, tagged=1), pair(15), end(2), ev(35), pair(15), end(2)):
                row.given(under(held, taken))
        if waiting:
            row.finish()
        given = event[:3] + bytes([malformed]) + event[4:]
        for feature in (other, held) if differs else (held,):
            row.given(under(feature, given), SHORT if cut else None)
        if waiting:
            row.next()
        for feature in (third, held, third):
            row.given(under(feature, pair()))
        yield row


def kept_number_rows():
    """Properties, finishes and nexts, done and refused, between events of the feature in hand and of another; a feature with parts, of
    which words are carried into the next one, under its own number; and a feature of properties alone."""
    for held, other in APART:
        row = Row(0)

        def pairs_under(*features):
            for feature in features:
                row.given(under(feature, pair(15)))
        row.property(1, 1, 7)
        for event in (pair(15), end(2), ev(35), pair(15)):
            row.given(under(held, event))
        row.property(2, 1, 9)
        pairs_under(other)
        row.property(65536, 1, 9)
        pairs_under(other)
        row.next()
        row.finish(SHORT)
        pairs_under(other, held)
        row.finish()
        row.property(3, 1, 9)
        row.finish()
        pairs_under(held, other)
        row.next(SHORT)
        pairs_under(held, other)
        row.next()
        row.no_events()
        pairs_under(other, held, other)
        row.finish()
        row.next()
        row.property(4, 1, 9)
        row.finish()
        row.next()
        pairs_under(held, other)
        yield row


RUN = 6


def number_run_rows():
    """Runs of events in one call, in which one event, or all from one on, are of another feature."""
    runs = (lambda: [pair() for _ in range(RUN)], lambda: [pair(i % 16) for i in range(RUN)], lambda: [pair(15) for _ in range(RUN)],
            lambda: [begin(2), end(2), begin(3), begin(17), pair(), end(17)], lambda: [begin(4), pair(), pair(0), end(4), begin(1), ev(35)])
    for (run, at, on), (held, other) in zip(itertools.product(runs, range(RUN), (0, 1)), itertools.cycle(APART)):
        row = Row(0, most=2 * RUN)
        for i, event in enumerate(run() + [pair()]):
            row.given(under(other if i == at or on and i > at else held, event))
        row.finish()
        yield row


MARKS = (0, 8, 16, 0xF0, 0xF8)


def handed_over_rows():
    """States that come with the mark 8 and without it, with any word 3, and with marks above 8, while a feature waits and while none does:
    each call, done and refused; then pairs under the number of word 3 and another one, and the next feature."""
    other, malformed = 0x01000107, bytes([64, 0, 0, 1]) + bytes(60)
    for waiting, marks, third in itertools.product((0, 1), MARKS, (0, 7, TOP)):
        for call in (lambda row: row.given(under(third, pair())), lambda row: row.given(under(other, pair())),
                     lambda row: row.given(under(third, malformed)), lambda row: row.given(under(third, pair()), NOTHING_LENT),
                     lambda row: row.no_events(), lambda row: row.property(1, 1, 7), lambda row: row.property(65536, 1, 7),
                     lambda row: row.finish(), lambda row: row.finish(NOTHING_LENT), lambda row: row.next(),
                     lambda row: row.next(NOTHING_LENT)):
            row = Row(0, held=(3, 1, 12, 2, 1, 1, 1, 1))
            row.given(under(7, pair()))
            if waiting:
                row.finish()
            row.hand_over(marks, third)
            call(row)
            for feature in (other, third, other):
                row.given(under(feature, pair()))
            row.finish()
            row.next()
            row.given(under(other, pair()))
            yield row


def main():
    sorts = dict(nested=nested_rows(), types=type_rows(), declared=other_declared_rows(), wild=wild_rows(350, 30, 0),
                 tight=wild_rows(250, 30, 0.3), leftovers=leftover_rows(), order=order_rows(), room=room_rows(), bench=bench_rows(),
                 limits=limit_rows(), differences=difference_rows(), properties=property_rows(),
                 no_events=no_event_rows(), open=open_rows(), other_feature=other_feature_rows(), number_order=number_order_rows(),
                 kept_number=kept_number_rows(), number_run=number_run_rows(), handed_over=handed_over_rows(), bad_texts=bad_text_rows())
    for name, rows in sorts.items():
        laid = [row.done() for row in rows]
        sys.stdout.buffer.write(b"".join(itertools.chain(*laid)))
        print(name, len(laid), "rows,", sum(map(len, laid)), "cases", file=sys.stderr)
    for (what, number), count in sorted(counted.items()):
        print(("start", "event", "events", "property", "finish", "next", "hand over")[what], "answered", number, count, file=sys.stderr)


main()
