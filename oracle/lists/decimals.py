#!/usr/bin/env python3
"""Numbers, and how Python prints them with seven digits: oracle/lists/decimals.py crates/decimal_cases

Writes stdin, a record of nine bytes for each number (d or f, then its bits), and stdout, a line for each.
"""
import math, random, struct, sys

EDGES = [0.0, -0.0, 1.0, -1.5, 5e-8, 4.9999999e-8, 1.5e-7, 2.5e-7, 0.99999995, 9.99999995, 999999.99999995, 0.5 ** 8, 3 * 0.5 ** 9,
         0.5 ** 24, 0.5 ** 25, 2.0 ** 53, 2.0 ** 53 - 1, 2.0 ** 63, 2.0 ** 64, -2.0 ** 64, 5e-324, 2.2250738585072014e-308, 1.7e308,
         math.inf, -math.inf, math.nan, 9.120431, 48.740112, -179.9999999]


def words(x, bits):
    if math.isnan(x):
        return "not a number"
    if math.isinf(x):
        return "infinity" if x > 0 else "-infinity"
    return f"the bits 0x{bits:016x}" if abs(x) >= 2.0 ** 64 else f"{x:.7f}"


def doubles(draw):
    yield from (struct.unpack("<Q", struct.pack("<d", x))[0] for x in EDGES)
    for _ in range(300):
        yield draw.getrandbits(1) << 63 | draw.randrange(990, 1090) << 52 | draw.getrandbits(52)
    for _ in range(200):  # many of them lie half way between two
        yield struct.unpack("<Q", struct.pack("<d", (2 * draw.randrange(10 ** 6) + 1) / 2 ** draw.randrange(1, 30)))[0]


def floats(draw):
    yield from (draw.getrandbits(32) for _ in range(100))
    yield from (struct.unpack("<I", struct.pack("<f", draw.uniform(-200, 200)))[0] for _ in range(100))


def main():
    draw = random.Random(7)
    given, printed = b"", ""
    for bits in doubles(draw):
        given += b"d" + struct.pack("<Q", bits)
        printed += words(struct.unpack("<d", struct.pack("<Q", bits))[0], bits) + "\n"
    for bits in floats(draw):
        given += b"f" + struct.pack("<Q", bits)
        printed += words(struct.unpack("<f", struct.pack("<I", bits))[0], bits) + "\n"
    open(sys.argv[1] + "/stdin", "wb").write(given)
    open(sys.argv[1] + "/stdout", "w").write(printed)


main()
