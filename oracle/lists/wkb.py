#!/usr/bin/env python3
"""The cases of crates/wkb_cases: well-known binary read to a log.

    oracle/lists/wkb.py ORACLE > LIST

The crate has no well-known binary, so ORACLE is not asked. What is expected comes from oracle/wkb/model.py, which `oracle/run wkb` holds
beside GEOS; the geometries, and the ways in which they are cut, damaged and nested, are those of oracle/wkb/inputs.py. The same list
comes out every time.

The numbers of a case, by their index: 0: sort 10, 1: number, 2: count, 3: log length, 4: the feature's number, 5: how many bytes; the
bytes, the log's records after.
"""
import os, sys

from cases import WKB, frame

sys.path.append(os.path.join(os.path.dirname(os.path.abspath(__file__)), "..", "wkb"))
import inputs
from model import Reading
from shapes import BIG, BIG_FIRST, LITTLE, LITTLE_FIRST, nested, wkb

FEATURES = (0, 1, 256, 65536, 1 << 24, (1 << 32) - 1)
ROOMY = 64 * 64
made = 0


def case(data, log_length=ROOMY):
    """One reading; the feature's number goes round."""
    global made
    feature = FEATURES[made % len(FEATURES)]
    made += 1
    number, count, memory = Reading.called(data, feature, log_length, log_length)
    sys.stdout.buffer.write(frame(WKB, number, count, log_length, feature, len(data), data, memory[:64 * count]))


def whole():
    """Every geometry, in all ways of choosing the orders, and with bytes behind it."""
    for shape in (*inputs.OF_EACH_TYPE, *inputs.EMPTY_ONES, *inputs.ODD_ONES, *inputs.LOOSE_ONES, *inputs.DEEP_ONES, inputs.FOREST):
        for marks in (BIG, LITTLE, BIG_FIRST, LITTLE_FIRST):
            data = wkb(shape, marks)
            case(data)
            case(data + b"\0")


def broken():
    """Cut at every byte; every byte damaged; order marks and types that may not stand there."""
    for shape in inputs.OF_EACH_TYPE:
        for marks in (BIG, LITTLE_FIRST):
            for data in inputs.cut(wkb(shape, marks)):
                case(data)
    for data in inputs.damaged(wkb(inputs.OF_EACH_TYPE[6], BIG_FIRST)[:60]):
        case(data)
    for data in inputs.with_types():
        case(data)
    for data in list(inputs.with_marks())[:200]:
        case(data)


def deep():
    """At and below the last level, cut there too."""
    for levels in (15, 16, 17):
        for shape in inputs.OF_EACH_TYPE[:4]:
            data = wkb(nested(levels, shape), LITTLE)
            case(data)
            for length in range(9 * (levels - 1), len(data), 3):
                case(data[:length])


def short_logs():
    """Logs of every length about a record's end, for readings that are done and for each refusal."""
    for data in (*inputs.refused_samples(), wkb(inputs.OF_EACH_TYPE[2], LITTLE), wkb(inputs.OF_EACH_TYPE[3], BIG)):
        for records in range(20):
            for rest in (0, 1, 63):
                case(data, 64 * records + rest)


whole()
broken()
deep()
short_logs()
