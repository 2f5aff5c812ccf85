"""The smallest inputs of docs/DIFFERENCES.md, by entry, with the answers that the entry tells of.

The makers put these inputs into the lists, with the oracle's answers; `coverage.py` looks for them there, and holds the answers against
those given here. What an entry tells beyond its inputs (limits, turns, refusals of SPEC's own) is in `coverage.py`.

Calls and events are written as words: a begin is its type's number, an end has a minus before it, `t` is tagged, `@1` is idx 1. A pair
is `1,2`, with a z value `1,2,5`. Among calls `done` is finish and next, and `!5` says that the call is refused with 5.
"""
import collections, struct

from cases import FINISH, NEXT
from client import begin, bits, end, ev

Row = collections.namedtuple("Row", "declared promote calls trees")
Reading = collections.namedtuple("Reading", "declared flags tree said number")
Values = collections.namedtuple("Values", "column data number values place", defaults=[0])


def tree(kind, xy=None, **lists):
    """A record with its parts in it. The words of xy and z are given as numbers."""
    lists.update((name, list(map(bits, given))) for name, given in (("xy", xy), ("z", lists.get("z"))) if given is not None)
    return dict(type=kind, **lists)


def read(root, said, number=0, declared=None, flags=0):
    """Under the root's own type unless another is given."""
    return Reading(root["type"] if declared is None else declared, flags, root, said, number)


def written(declared, calls, *features, promote=0, flags=0):
    """Calls to a writer, and of each finished feature its tree, what is said in reading it, and the number where that is refused."""
    row = Row(declared, promote, calls, [root for root, *_ in features])
    return [row, *[read(*feature, declared=declared, flags=flags) for feature in features]]


def event(word):
    """The event that a word of calls stands for."""
    if "," in word:
        x, y, *z = (bits(int(n)) for n in word.split(","))
        return ev(65, present=1, x=x, y=y, z=z[0]) if z else ev(64, x=x, y=y)
    tagged = int(word.endswith("t"))
    kind = int(word.strip("-t"))
    return end(kind, tagged=tagged) if word.startswith("-") else begin(kind, tagged=tagged)


def each_call(calls):
    """What is called, as the number of finish or next or as the event, and its answer."""
    for word in calls.split():
        if word == "done":
            yield from ((FINISH, 0), (NEXT, 0))
        else:
            word, _, number = word.partition("!")
            yield event(word), int(number or 0)


def word_of(said):
    """The word for an event of a reading."""
    kind, tagged, present, _, _, idx, _, x, y, z, *_ = struct.unpack("<BBBBIII6d", said)
    if kind >= 64:
        return ",".join(f"{n:g}" for n in ((x, y, z) if present & 1 else (x, y)))
    return ("-" if kind >= 32 else "") + str(kind % 32) + "t" * tagged + (f"@{idx}" if idx else "")


def collections_of(levels):
    root = tree(7, parts=[])
    for _ in range(levels - 1):
        root = tree(7, parts=[root])
    return root


PAIR, OTHER, LINE = [1, 2], [3, 4], [1, 2, 3, 4]
EMPTY = tree(0, [])
LEVEL_17 = [read(collections_of(17), " ".join(["7"] * 16), 13)]

INPUTS = {
    # Written: what comes back is another geometry, or nothing.
    "B3": written(3, "3t -3t done", (EMPTY, "3t 2 -2 -3t")),
    "MultiLineString with no line": written(5, "5 -5 done", (EMPTY, "5 2 -2 -5")),
    "TIN with no triangle": written(16, "16 -16 done", (EMPTY, "16 17 2 -2 -17 -16")),
    "MultiPolygon with a polygon of no ring": written(6, "6 3 -3 -6 done", (tree(0, parts=[EMPTY]), "6 3 2 -2 -3 -6")),
    "B7": written(6, "6 -6 done", (EMPTY, "", 2)),
    "PolyhedralSurface with no polygon": written(15, "15 -15 done", (EMPTY, "", 2)),
    "GeometryCollection with no element": written(7, "7 -7 done", (EMPTY, "", 2)),
    "CompoundCurve, CurvePolygon or MultiCurve of one line":
        written(9, "9 2 1,2 3,4 -2 -9 done", (tree(0, LINE), "", 2))
        + written(10, "10 2 1,2 3,4 -2 -10 done", (tree(0, LINE), "", 2))
        + written(11, "11 2 1,2 3,4 -2 -11 done", (tree(0, LINE), "", 2)),
    "CompoundCurve of one CircularString": written(9, "9 8!5 1,2 3,4 -8 -9 done", (tree(0, LINE), "", 2)),
    "MultiSurface of one Polygon": written(12, "12 3t!5 2 1,2 3,4 -2 -3t -12 done", (tree(0, LINE), "", 2)),
    "B8": written(7, "7 3t 2 1,2 3,4 -2 -3t -7 done",
                  (tree(3, parts=[tree(3, LINE), tree(3, [])]), "7 3t 2 1,2 3,4 -2 -3t 3t@1 2 -2 -3t@1 -7")),
    "B9": written(0, "7 1 1,2 -1 -7 done", (tree(1, parts=[tree(1, PAIR)]), "1", 1)),
    "undeclared, not detected, promoted: collection of one LineString":
        written(0, "7 2t 1,2 3,4 -2t -7 done", (tree(5, LINE), "5 2 1,2 3,4 -2 -5"), promote=1),
    "collection of one MultiPoint, or one CircularString":
        written(7, "7 4 1,2 -4 -7 done", (tree(4, PAIR), "", 2)) + written(7, "7 8 1,2 -8 -7 done", (tree(8, PAIR), "", 2)),
    "collection of a MultiPoint (3 4) and a Point (1 2)":
        written(7, "7 4 3,4 -4 1 1,2 -1 -7 done", (tree(1, parts=[tree(1, OTHER + PAIR)]), "7 1 3,4 -1 -7")),
    "collection of a Point and a MultiPoint":
        written(7, "7 1 1,2 -1 4 3,4 -4 -7 done 7 1 1,2 -1 -7 done",
                (tree(4, parts=[tree(1, PAIR)]), "7 1 1,2 -1 -7"), (tree(1, parts=[tree(1, OTHER + PAIR)]), "7 1 3,4 -1 -7")),
    "collection of a MultiLineString of two lines, or a TIN of two triangles":
        written(7, "7 5 2 1,2 -2 2 3,4 -2 -5 -7 done",
                (tree(5, parts=[tree(5, PAIR), tree(5, OTHER)]), "7 5 2 1,2 -2 -5 5@1 2 3,4 -2 -5@1 -7"))
        + written(7, "7 16 17 2 1,2 -2 -17 17 2 3,4 -2 -17 -16 -7 done",
                  (tree(16, parts=[tree(16, PAIR), tree(16, OTHER)]), "7 16 17 2 1,2 -2 -17 -16 16@1 17 2 3,4 -2 -17 -16@1 -7")),
    "collection of a MultiPolygon, or of a CompoundCurve":
        written(7, "7 6 3 2 1,2 -2 -3 -6 -7 done", (tree(6, parts=[tree(6, PAIR), tree(6, [])]), "7", 2))
        + written(7, "7 9 2 1,2 -2 -9 -7 done", (tree(9, parts=[tree(9, PAIR)]), "7", 2)),
    "collection in a collection": written(7, "7 7 1 1,2 -1 -7 -7 done", (tree(1, parts=[tree(1, PAIR)]), "7 1 1,2 -1 -7")),
    "collection of an empty collection and a Point": written(7, "7 7 -7 1!5 1,2 -1 -7 done", (tree(0, PAIR), "", 2)),
    "LineString with a height for one pair of two, read with the flag z":
        written(2, "2t 1,2,5 3,4 -2t done", (tree(0, LINE, z=[5]), "2t 1,2,5", 7), flags=1)
        + written(2, "2t 1,2 3,4,5 -2t done", (tree(0, LINE, z=[5]), "2t 1,2,5", 7), flags=1),

    # Read, though the table means nothing in the format.
    "Point with two pairs": [read(tree(1, LINE), "1 1,2 -1")],
    "MultiLineString with no xy": [read(tree(5), "")],
    "Triangle with no xy": [read(tree(17), "")],
    "TIN with no xy": [read(tree(16), "16 -16")],
    "MultiLineString, two pairs, ends 0, 1": [read(tree(5, LINE, ends=[0, 1]), "5 2 -2 2@1 1,2 -2@1 -5")],
    "Polygon, one pair, ends 7": [read(tree(3, PAIR, ends=[7]), "3t 2 1,2 -2 -3t")],
    "Triangle, two pairs, ends 1, 2": [read(tree(17, LINE, ends=[1, 2]), "17t 2 1,2 -2 -17t 17t@1 2 3,4 -2 -17t@1")],
    "LineString, one pair, two heights, flag z": [read(tree(2, PAIR, z=[5, 6]), "2t 1,2,5 -2t", flags=1)],
    "LineString, one pair, an empty z list, no flag": [read(tree(2, PAIR, z=[]), "2t 1,2 -2t")],
    "MultiSurface with a part of type 2": [read(tree(12, parts=[tree(2, PAIR)]), "12 2 1,2 -2 -12")],
    "read as CompoundCurve: root stored as type 0, with a part of type 9":
        [read(tree(0, parts=[tree(9, parts=[])]), "9 9 -9 -9", declared=9)],

    # Refused, though the table means something in the format.
    "declared MultiSurface, root stored as type 0 (the header has the type), a Polygon in it":
        [read(tree(0, parts=[tree(3, PAIR)]), "12", 4, declared=12)],
    "declared MultiCurve, root stored as type 9, a CompoundCurve in it":
        [read(tree(9, parts=[tree(9, parts=[tree(2, LINE)])]), "11", 4, declared=11)],
    "17 levels": LEVEL_17,

    # Property bytes that are read, though the format has no such buffer.
    "00 00 07, column Bool": [Values(2, "00 00 07", 0, [1])],
    "00 00 05 07, column UByte (B13)": [Values(1, "00 00 05 07", 0, [5])],
    "00 00, column of type 15": [Values(15, "00 00", 0, [])],

    # Written or read as the Rust does, where another might expect something else.
    "one line": written(5, "5 2 1,2 3,4 -2 -5 done", (tree(0, LINE), "5 2 1,2 3,4 -2 -5")),
    "surface parts": written(15, "15 3 2 1,2 -2 -3 -15 done", (tree(0, parts=[tree(0, PAIR)]), "15 3 2 1,2 -2 -3 -15")),
    "member after a nested collection":
        written(7, "7 7 1 1,2 -1 -7 1!5 3,4 -1 -7 done 7 1 1,2 -1 -7 done",
                (tree(1, parts=[tree(1, PAIR)]), "7 1 1,2 -1 -7"), (tree(1, parts=[tree(1, OTHER + PAIR)]), "7 1 3,4 -1 -7")),
    "root's type": written(7, "7 1 1,2 -1 -7 done", (tree(1, parts=[tree(1, PAIR)]), "7 1 1,2 -1 -7")),
    "Unknown MultiPolygon": written(0, "6 3 2 1,2 -2 -3 -6 done", (tree(6, parts=[tree(6, PAIR)]), "6 3 2 1,2 -2 -3 -6")),
    "current type kept": written(0, "1 1,2 -1 done done", (tree(1, PAIR), "1 1,2 -1"), (tree(1, []), "1", 7)),
    "open mode kept":
        written(5, "2t 1,2 done 2 1,2 -2t 2 3,4 -2 done", (tree(0, PAIR), "5 2 1,2 -2 -5"),
                (tree(0, LINE, ends=[1, 2]), "5 2 1,2 -2 2@1 3,4 -2@1 -5"), promote=1)
        + written(7, "7 1 1,2 -1 done 1 3,4 -1 done", (tree(1, parts=[tree(1, PAIR)]), "7 1 1,2 -1 -7"),
                  (tree(1, parts=[tree(1, OTHER)]), "7 1 3,4 -1 -7")),
    "joined lines": written(2, "2t 1,2 -2t 2t 3,4 -2t done", (tree(0, LINE), "2t 1,2 3,4 -2t")),
    "content of a refused begin": written(1, "2t!5 1,2 -2t done", (tree(0, PAIR), "1 1,2 -1")),
    "stray pair":
        written(3, "3t 2 1,2 -2 3,4 -3t done", (tree(0, LINE), "3t 2 1,2 3,4 -2 -3t"))
        + written(3, "3t 2 1,2 -2 2 3,4 -2 5,6 -3t done", (tree(0, LINE + [5, 6], ends=[1, 2]), "3t 2 1,2 -2 2@1 3,4 -2@1 -3t")),
    "triangles in a collection":
        [read(tree(7, parts=[tree(1, PAIR), tree(17, LINE, ends=[1, 2])]),
              "7 1 1,2 -1 17t 2 1,2 -2 -17t 17t@1 2 3,4 -2 -17t@1 -7")],
    "part types": [read(tree(6, parts=[tree(200, PAIR)]), "6 3 2 1,2 -2 -3 -6")],

    # Refusals where the Rust panics, goes on, or cannot be asked.
    "pair past its list (B10)": [read(tree(1, []), "1", 7)],
    "odd last word": [read(tree(2, [1, 2, 3]), "2t 1,2", 7)],
    "value past its list": [read(tree(2, LINE, z=[5]), "2t 1,2,5", 7, flags=1)],
    "falling end (B11)":
        [read(tree(5, LINE + [5, 6], ends=[3, 2]), "5 2 1,2 3,4 5,6 -2", 8),
         read(tree(17, LINE + [5, 6], ends=[3, 2]), "17t 2 1,2 3,4 5,6 -2 -17t 17t@1", 8)],
    "end of 2^31 or more": [read(tree(5, PAIR, ends=[2**31, 1]), "5", 8)],
    "value cut short": [Values(11, "00 00 03 00 00 00 61 62", 14, [])],
    "cut and not UTF-8": [Values(11, "00 00 02 00 00 00 ff", 14, [])],
    "text not UTF-8, read": [Values(11, "00 00 02 00 00 00 61 80", 6, [], 1)],
    "level 17": LEVEL_17,
}


def inputs_of(sort):
    """Each once, though two entries may have it in common."""
    found = []
    for given in INPUTS.values():
        found += [one for one in given if isinstance(one, sort) and one not in found]
    return found
