"""Events as tuples of kind, tagged, size, index, x and y, and their records of 64 bytes. Coordinates are bit patterns throughout."""
import struct

POINT, LINE, POLYGON, MULTI_POINT, MULTI_LINE, MULTI_POLYGON, COLLECTION = range(1, 8)
NAMES = dict(zip(range(1, 8), "Point LineString Polygon MultiPoint MultiLineString MultiPolygon GeometryCollection".split()))
SINGLE_OF = {MULTI_POINT: POINT, MULTI_LINE: LINE, MULTI_POLYGON: POLYGON}
END, PAIR = 32, 64
RECORD = struct.Struct("<BBBBIIIQQ32x")


def begin(kind, size, index, tagged=0):
    return kind, tagged, size, index, 0, 0


def end(kind, index, tagged=0):
    return kind + END, tagged, 0, index, 0, 0


def pair(index, x, y):
    return PAIR, 0, 0, index, x, y


def record(event, feature):
    kind, tagged, size, index, x, y = event
    return RECORD.pack(kind, tagged, 0, 0, size, index, feature, x, y)


def records(events, feature):
    return b"".join(record(event, feature) for event in events)


def events_of(log):
    """The events of whole records. What they do not show, spare bytes and the feature's number, is for a comparison of bytes."""
    return [(kind, tagged, size, index, x, y) for kind, tagged, _, _, size, index, _, x, y in RECORD.iter_unpack(log)]


def double(bits):
    return struct.unpack("<d", struct.pack("<Q", bits))[0]


def is_nan(bits):
    return bits & (1 << 63) - 1 > 0x7FF << 52
