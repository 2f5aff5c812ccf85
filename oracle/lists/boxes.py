"""Boxes by SPEC 8, in the plain way: the pairs that a box is over are gathered in walk order, and a record that is come to again is
walked again. Then the slips that a box is prone to, so that a list can be shown to tell each of them.
"""
import struct

from cases import canary, canary_word, word

DONE, BAD_RECORD, TOO_DEEP = 0, 10, 13
USABLE = (131072, 65536, 65536, 65536, 65536, 65536)
ABSENT = (0, 0, 0)
XY, PARTS = 0, 6
INFINITY = 0x7FF << 52
SIGN = 1 << 63
BEGINNING = [INFINITY, INFINITY, INFINITY | SIGN, INFINITY | SIGN]
# A CircularString whose arc goes beyond its pairs: 0 0, 0 1, 1 1.
ARC = [struct.unpack("<Q", struct.pack("<d", value))[0] for value in (0, 0, 0, 1, 1, 1)]


def judged(table_length, given, n, lent):
    """The record's type and lists, or None for a bad one."""
    records = table_length // 64
    if table_length % 64 or n >= records or n > 4095:
        return None
    kind, present, spare, *pairs, last = struct.unpack("<BBH14II", given)
    rows = [(present >> i & 1, *pairs[2 * i:2 * i + 2]) for i in range(7)]
    ends = [min(pair) for pair in zip(lent, USABLE)] + [min(records, 4096)]
    if spare or last or present >> 7:
        return None
    for (there, start, count), end in zip(rows, ends):
        if start + count > (end if there else 0):
            return None
    if rows[PARTS][0] and rows[PARTS][1] <= n:
        return None
    return kind, rows


def double(bits):
    return struct.unpack("<d", word(bits))[0]


def box_of(words):
    edges = list(BEGINNING)
    for pair in zip(words[::2], words[1::2]):
        for axis, bits in enumerate(pair):
            if double(bits) < double(edges[axis]):
                edges[axis] = bits
            if double(bits) > double(edges[axis + 2]):
                edges[axis + 2] = bits
    return edges


class Lent:
    """What a case lends: a table and an xy pool, each with what the case has at its place and canaries around it, and the lengths of
    all pools."""

    def __init__(self, length, place, given, lent, words_at, words):
        around = bytes(map(canary, range(length)))
        self.table = (around[:place] + given + around[place + len(given):])[:length]
        self.lent, self.words_at, self.words = lent, words_at, words

    def word(self, at):
        i = at - self.words_at
        return self.words[i] if 0 <= i < len(self.words) else canary_word(at)

    def judged(self, n):
        return judged(len(self.table), self.table[64 * n:64 * n + 64], n, self.lent)


class Refused(Exception):
    def __init__(self, number):
        self.number = number


class Walk:
    """The box of a record: a rule of SPEC 7.4 and 8 to each method."""
    last_level = 16

    def __init__(self, lent):
        self.lent, self.joined = lent, []

    def answer(self, n):
        try:
            self.enter(n, 1)
        except Refused as refused:
            return refused.number, self.box_of_refused()
        return DONE, box_of(self.joined)

    def box_of_refused(self):
        return BEGINNING

    def enter(self, n, level):
        kind, rows = self.let_in(n, level)
        self.take(rows[XY])
        self.follow(kind, rows[PARTS], level)

    def let_in(self, n, level):
        if level > self.last_level:
            raise Refused(TOO_DEEP)
        return self.good(n)

    def good(self, n):
        found = self.lent.judged(n)
        if not found:
            raise Refused(BAD_RECORD)
        return found

    def take(self, xy):
        _, start, count = xy
        self.joined += map(self.lent.word, range(start, start + count - count % 2))

    def follow(self, kind, parts, level):
        _, start, count = parts
        for part in range(start, start + count):
            self.enter(part, level + 1)


# Slips. A subclass has one rule wrong.

class OwnListAlone(Walk):
    def follow(self, kind, parts, level):
        pass


class PartsOfReadTypesAlone(Walk):
    def follow(self, kind, parts, level):
        if kind in (6, 7, 9, 10, 11, 12, 15):
            super().follow(kind, parts, level)


class PartsBeforeOwnPairs(Walk):
    def enter(self, n, level):
        kind, rows = self.let_in(n, level)
        self.follow(kind, rows[PARTS], level)
        self.take(rows[XY])


class PartsFromTheLast(Walk):
    def follow(self, kind, parts, level):
        _, start, count = parts
        for part in reversed(range(start, start + count)):
            self.enter(part, level + 1)


class OddWordJoined(Walk):
    def take(self, xy):
        _, start, count = xy
        self.joined += map(self.lent.word, range(start, start + count))


class LevelsFromZero(Walk):
    last_level = 17


class LevelsFromTwo(Walk):
    last_level = 15


class BadBeforeTooDeep(Walk):
    def let_in(self, n, level):
        found = self.good(n)
        if level > self.last_level:
            raise Refused(TOO_DEEP)
        return found


class BoxSoFarWithRefusal(Walk):
    def box_of_refused(self):
        return box_of(self.joined)


class SeenIsSkipped(Walk):
    def __init__(self, lent):
        super().__init__(lent)
        self.seen = set()

    def enter(self, n, level):
        if n not in self.seen:
            self.seen.add(n)
            super().enter(n, level)


class GreatestRefusal(Walk):
    """Not the first one met."""
    choose = max

    def follow(self, kind, parts, level):
        _, start, count = parts
        refusals = []
        for part in range(start, start + count):
            try:
                self.enter(part, level + 1)
            except Refused as refused:
                refusals.append(refused.number)
        if refusals:
            raise Refused(self.choose(refusals))


class LeastRefusal(GreatestRefusal):
    choose = min


SLIPS = [OwnListAlone, PartsOfReadTypesAlone, PartsBeforeOwnPairs, PartsFromTheLast, OddWordJoined, LevelsFromZero, LevelsFromTwo,
         BadBeforeTooDeep, BoxSoFarWithRefusal, SeenIsSkipped, GreatestRefusal, LeastRefusal]
