"""How a case is laid out, which crates/replay reads.

A case is its numbers (u32 each; a word takes the place of two), then its bytes. All is little-endian. In a list it is a frame: a length
(u32), then so many bytes, which are the case with its zeros packed: a zero has after it how many zeros it stands for.
"""
import re, struct

# What a case of crates/cases begins with: its sort. A tree begins with the first sort of readings, and each of its readings has its own.
HEARD, SAID, RECORD, BOX, READ, WRITTEN, WHOLE, CUT, BAD, LARGE, WKB = range(11)
TREE = WHOLE

# What a case of crates/writer_cases calls; with the last it calls nothing, and hands the state over in other words.
START, EVENT, EVENTS, PROPERTY, FINISH, NEXT, WORDS = range(7)


def number(n):
    return struct.pack("<I", n)


def word(n):
    return struct.pack("<Q", n)


def pack(case):
    return re.sub(rb"\0{1,255}", lambda zeros: bytes([0, len(zeros[0])]), case)


def unpack(packed):
    return re.sub(rb"\0(.)", lambda zeros: bytes(zeros[1][0]), packed, flags=re.DOTALL)


def frame(*parts):
    packed = pack(b"".join(number(p) if isinstance(p, int) else p for p in parts))
    return number(len(packed)) + packed


def frames(path):
    """The cases of a list."""
    data = open(path, "rb").read()
    at = 0
    while at < len(data):
        length, = struct.unpack_from("<I", data, at)
        yield unpack(data[at + 4:at + 4 + length])
        at += 4 + length


# Canaries: what crates/replay lays down in memory that a call is lent.

def canary(at):
    return at % 251


def canary_word(at):
    return (0x7FEF if at % 4 < 2 else 0xFFEF) << 48 | 0xFFFFFFF00000 ^ at % 1048576


def canary_end(at):
    return 0xC0DE << 16 ^ at % 65536
