#!/usr/bin/env python3
"""The cases of crates/property_cases: property lists read, and properties written.

    oracle/lists/property.py ORACLE > LIST

ORACLE is the oracle's program, the crate's own Rust. Every list is read by it (request P), and every property that is written, or
refused for its value or its text, is written by it (request W). From it is the place, too, at which a text goes bad, and on writing
Python's own is held to it. From this script's own reading of SPEC come only what the oracle does not have: 9 for a full log, the usable
65,536 bytes, and on writing 15, 16 and 12. The seed is fixed: the same list comes out every time.

The numbers of a case, by their index; a word takes two.
  read     0: sort 4, 1: number, 2: count, 3: stopped, 4: log length, 5: has columns, 6: how many, 7: stop column, 8: how many bytes,
           9: place; the column types, the bytes, the log's records after
  written  0: sort 5, 1: number, 2: used after, 3: waiting, 4: used, 5: column, 6: type, 7: bits (word), 9: buffer length,
           10: text length, 11: place; the text, the bytes from `used` on after
"""
import itertools, random, struct, sys

import differences, texts
from cases import READ, WRITTEN, frame, word
from client import FINISH, Oracle, begin, end, prop, xy

DONE, NOT_UTF8, LOG_FULL, NO_ROOM, WAITING, COLUMN_TOO_LARGE = 0, 6, 9, 12, 15, 16
WIDTHS = (1, 1, 1, 2, 2, 4, 4, 8, 8, 4, 8)
BOOL, FLOAT, DOUBLE, STRING, BINARY = 2, 9, 10, 11, 14
TEXTS = range(STRING, BINARY + 1)
PLAIN_TEXTS = range(STRING, BINARY)
USABLE = 65536
NO_STOP = 65536
oracle = Oracle(sys.argv[1])
pick = random.Random(2)

GOOD_TEXTS = ["", "a", "plough", "\0", "\x7f", "\x80", "\u07ff", "\u0800", "\ud7ff", "\ue000", "\uffff", "\U00010000", "\U0010ffff", "äöü €"]
BAD_TEXTS = ["80", "bf", "c0", "c080", "c1bf", "c2", "c27f", "c2c0", "df", "e0", "e080", "e08080", "e09fbf", "e0a0", "e0a07f", "e18080ff",
             "ed9f", "eda080", "edbfbf", "ee8080c3", "efbf", "f0", "f0808080", "f08fbfbf", "f090", "f09080", "f0908080c2", "f48fbf", "f4908080",
             "f5808080", "f8888080", "fe", "ff", "61ff62", "e282", "61e282", "e28261", "f09f9861"]
TEXT_BYTES = [text.encode() for text in GOOD_TEXTS] + [bytes.fromhex(text) for text in BAD_TEXTS]
NANS = {FLOAT: (0x7F800001, 0x7FC00000, 0xFFC12345, 0xFFBFFFFF), DOUBLE: (0x7FF0000000000001, 0x7FF8000000000000, 0xFFF8123456789ABC, 0xFFF7FFFFFFFFFFFF)}


def numbers(kind):
    """Values at both ends of a type, NaN patterns, and one that has no two bytes alike."""
    if kind == BOOL:
        return [0, 1]
    top = 256 ** WIDTHS[kind] - 1
    return [0, 1, top // 2, top // 2 + 1, top, 0x8877665544332211 & top, *NANS.get(kind, ())]


# Reading.

def value(kind, content):
    """A value's bytes: of a number, or of a text's or binary's content."""
    if kind in TEXTS:
        return struct.pack("<I", len(content)) + content
    return content.to_bytes(WIDTHS[kind], "little")


def item(column, kind, content):
    return struct.pack("<H", column) + value(kind, content)


def some_content(kind):
    if kind == BINARY:
        return pick.randbytes(pick.randrange(5))
    return pick.choice(GOOD_TEXTS).encode() if kind in TEXTS else pick.choice(numbers(kind))


def read_case(data, columns, stop=NO_STOP, log_length=None, has_columns=True):
    code, stopped, place, records, words = oracle.read_properties(data[:USABLE], columns if has_columns else None, stop)
    assert code <= COLUMN_TOO_LARGE, words
    log_length = 16 * len(records) + pick.randrange(40) if log_length is None else log_length
    room = log_length // 16
    if len(records) > room:
        code, stopped, place, records = LOG_FULL, 0, 0, records[:room]
    head = (READ, code, len(records), stopped, log_length, int(has_columns), len(columns), stop, len(data), place)
    return frame(*head, bytes(columns), data, *records)


def read_cases():
    for kind in range(15):
        contents = TEXT_BYTES if kind in TEXTS else numbers(kind)
        for content in contents:
            yield read_case(item(0, kind, content), [kind])
            yield read_case(item(1, 1, 7) + item(0, kind, content) + item(1, 1, 9), [kind, 1])
        data = item(1, 3, 0x1234) + item(0, kind, b"field" if kind in TEXTS else numbers(kind)[-1]) + item(1, 3, 0x5678)
        for length in range(len(data) + 1):
            yield read_case(data[:length], [kind, 3])
        yield read_case(data + b"\0", [kind, 3])
    for raw in range(256):
        yield read_case(bytes([0, 0, raw]), [BOOL])
    for kind in TEXTS:
        for length in (0, 1, 2, 3, 4, 255, 256, 65535, 65536, 2**31, 2**32 - 1):
            yield read_case(struct.pack("<HI", 0, length) + b"abc", [kind])
    for kind in (15, 16, 127, 128, 255):
        data = item(0, 1, 5) + b"\1\0" + item(0, 1, 6) + b"\1\0"
        for stop in (0, 1, NO_STOP):
            yield read_case(data, [1, kind], stop)
            yield read_case(data + b"\1", [1, kind], stop)
    for columns, column in itertools.product((0, 1, 2, 3, 256, 257), (0, 1, 2, 255, 256, 257, 65535)):
        yield read_case(item(0, 1, 5) + item(column, 1, 6), [1] * columns)
        yield read_case(struct.pack("<H", column), [200] * columns)
    yield read_case(item(65535, 1, 6), [1] * 65536)
    for _ in range(300):
        columns = [pick.randrange(15) if pick.random() < 0.9 else pick.randrange(15, 256) for _ in range(pick.randrange(1, 6))]
        order = [pick.randrange(len(columns)) for _ in range(pick.randrange(7))]
        data = b"".join(item(i, columns[i], some_content(columns[i])) if columns[i] < 15 else struct.pack("<H", i) for i in order)
        yield read_case(data, columns, pick.choice([*range(len(columns) + 1), 65535, NO_STOP, 2**32 - 1]))
        yield read_case(data, columns, log_length=pick.randrange(16 * len(order) + 17))
        yield read_case(data, columns, has_columns=False, log_length=32)
        if data:
            at = pick.randrange(len(data))
            yield read_case(data[:at] + bytes([data[at] ^ pick.randrange(1, 256)]) + data[at + 1:], columns, log_length=160)
            yield read_case(data[:at], columns, stop=pick.randrange(len(columns)))
    full = item(0, 1, 1) + item(0, 1, 2) + item(0, 1, 3)
    for tail, length in itertools.product((b"", b"\7\0", b"\0\0", b"\1\0\1\0\0\0\xff", item(0, 1, 4)), range(0, 81, 5)):
        yield read_case(full + tail, [1, STRING], log_length=length)
        yield read_case(full + tail, [1, STRING], stop=0, log_length=length)
    for place in (USABLE - 3, USABLE - 2, USABLE - 1, USABLE):
        yield read_case(skipping_to(place) + item(1, 1, 77), [255, 1])
    for given in differences.inputs_of(differences.Values):
        yield read_case(bytes.fromhex(given.data), [given.column])
    yield from bad_texts_read()


def bad_texts_read():
    """Texts that go bad: alone, and behind others and in the column to stop at; behind more values than the log has room for; and up to
    the end of all that is usable, and past it, where they are cut."""
    for kind, text in zip(itertools.cycle(PLAIN_TEXTS), texts.spoilt()):
        yield read_case(item(0, kind, text), [kind], log_length=16)
        yield read_case(item(1, STRING, "ä".encode()) + item(2, 7, 9) + item(0, kind, text), [kind, STRING, 7], stop=0, log_length=32)
    for length in range(0, 49, 8):
        yield read_case(item(1, 1, 7) + item(1, 1, 9) + item(0, STRING, b"ok\xff"), [STRING, 1], log_length=length)
    for length in (USABLE - 6, USABLE - 5):
        for text in texts.long(length, (0, 255, 256, length - 1)):
            yield read_case(item(0, STRING, text), [STRING], log_length=16)


def skipping_to(place):
    """Properties of a column that takes no bytes, up to a place; one of three bytes comes first where the place is odd."""
    first = item(1, 1, 5) if place % 2 else b""
    return first + bytes(place - len(first))


# Writing.

CLOSING = [begin(1), xy(1, 2), end(1), FINISH]


def written_by_oracle(column, kind, bits, text):
    """The oracle's number for a property, its place, and its bytes."""
    answer = oracle.write([prop(column, kind, bits, text), *CLOSING], declared=1)
    return answer.numbers[0], answer.places[0], answer.features[0].properties


def written_case(kind, bits=0, text=b"", column=0, waiting=False, used=0, length=64):
    number, place, laid = DONE, 0, b""
    if waiting:
        number = WAITING
    elif column > 65535:
        number = COLUMN_TOO_LARGE
    else:
        number, place, laid = written_by_oracle(column, kind, bits, text)
        assert place == (texts.bad_place(text) if number == NOT_UTF8 else 0), text
        if number == DONE and used + len(laid) > min(length, USABLE):
            number = NO_ROOM
    laid = laid if number == DONE else b""
    head = (WRITTEN, number, used + len(laid), int(waiting), used, column, kind, word(bits), length, len(text), place)
    return frame(*head, text, laid)


def written_cases():
    for kind in range(15):
        for content in TEXT_BYTES if kind in TEXTS else numbers(kind):
            text, bits = (content, pick.getrandbits(64)) if kind in TEXTS else (pick.choice(TEXT_BYTES), content)
            yield written_case(kind, bits, text, column=pick.randrange(65536), used=pick.randrange(20))
        if kind < STRING:
            top = 256 ** WIDTHS[kind]
            for bits in sorted({2, 3, 255, 256, top - 1, min(top, 2**64 - 1), 2**63, 2**64 - 1}):
                yield written_case(kind, bits)
        text = b"field" if kind in TEXTS else b""
        size = 11 if kind in TEXTS else 2 + WIDTHS[kind]
        for room in (0, 64, USABLE, USABLE + 1, USABLE + 64):
            for spare in (-1, 0, 1):
                used = min(room, USABLE) - size - spare
                if used >= 0:
                    yield written_case(kind, 1, text, used=used, length=room)
        for used in (64, 65, 66, 2**31, 2**32 - size, 2**32 - 1):
            yield written_case(kind, 1, text, used=used)
        for length in range(size + 2):
            yield written_case(kind, 1, text, length=length)
        for broken in itertools.product((False, True), repeat=5):
            waiting, column, malformed, not_utf8, full = broken
            yield written_case(kind, 2**64 - 1 if malformed else 1, b"ok\xff" if not_utf8 else b"ok", column=65536 if column else 65535,
                               waiting=waiting, length=5 if full and kind in TEXTS else 2 if full else 64)
    for kind in (15, 16, 127, 255):
        for waiting, column, length in itertools.product((False, True), (0, 65536), (0, 64)):
            yield written_case(kind, 0, b"", column=column, waiting=waiting, length=length)
            yield written_case(kind, 1, b"ok\xff", column=column, waiting=waiting, length=length)
    for column in (0, 1, 255, 256, 65534, 65535, 65536, 65537, 2**31, 2**32 - 1):
        yield written_case(1, 7, column=column)
        yield written_case(STRING, 7, b"abc", column=column)
    for size in (USABLE - 6, USABLE - 5):
        yield written_case(BINARY, 0, pick.randbytes(size), length=USABLE + 9)
    yield from bad_texts_written()


def bad_texts_written():
    """Texts that go bad, with room for them and with too little; and texts that go bad past all that is usable."""
    for kind, text in zip(itertools.cycle(PLAIN_TEXTS), texts.spoilt()):
        for length in (64, 6):
            yield written_case(kind, 0, text, length=length)
    for text in texts.long(70000, (0, 255, 256, USABLE - 7, USABLE - 6, USABLE - 1, USABLE, USABLE + 1, 69999)):
        for length in (64, USABLE + 9):
            yield written_case(STRING, 0, text, length=length)


def main():
    for case in itertools.chain(read_cases(), written_cases()):
        sys.stdout.buffer.write(case)


main()
