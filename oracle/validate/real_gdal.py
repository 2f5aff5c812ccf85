"""GDAL as a peer: its files read by the crate, and the crate's features read by it.

    real_gdal.py ORACLE FILES FOLDER
"""
import collections, glob, os, struct, sys

from client import FINISH, Oracle, begin, bits, end, ev
from osgeo import ogr

ogr.UseExceptions()
oracle = Oracle(sys.argv[1])
LINE, POLYGON, MULTI_POINT, MULTI_LINE, COLLECTION, SURFACE, TRIANGLE = 2, 3, 4, 5, 7, 15, 17
UNTAGGED_PARTS = {5, 6, 15, 16}
# The crate writes these so that they read back; of the curves, as the crate reads them, its writer refuses some.
WRITTEN_BACK = {1, 2, 3, 4, 5, 6, 15, 16, 17}


def split(path):
    """The magic bytes and the header; then the features."""
    data = open(path, "rb").read()
    places, at = [], 8
    while at < len(data):
        length = 4 + struct.unpack_from("<I", data, at)[0]
        places.append(data[at:at + length])
        at += length
    return data[:8] + places[0], oracle.header(places[0]), places[1:]


def pair(geometry, i, idx, flags):
    x, y = bits(geometry.GetX(i)), bits(geometry.GetY(i))
    if not flags:
        return ev(64, idx=idx, x=x, y=y)
    values = dict(z=bits(geometry.GetZ(i)) if flags & 1 else 0, m=bits(geometry.GetM(i)) if flags & 2 else 0)
    return ev(65, idx=idx, present=flags, x=x, y=y, **values)


def said(geometry, idx, flags, tagged=1):
    """The events of a geometry as GDAL has it."""
    kind = ogr.GT_Flatten(geometry.GetGeometryType())
    parts = [geometry.GetGeometryRef(i) for i in range(geometry.GetGeometryCount())]
    tag = tagged if kind in (LINE, POLYGON, TRIANGLE) else 0
    if kind == MULTI_POINT:
        inside = [pair(part, 0, i, flags) for i, part in enumerate(parts)]
    elif not parts:
        inside = [pair(geometry, i, i, flags) for i in range(geometry.GetPointCount())]
    else:
        inside = [event for i, part in enumerate(parts) for event in said(part, i, flags, tag_inside(kind, part))]
    size = 0 if kind == 1 else len(parts) or geometry.GetPointCount()
    return [begin(kind, size, idx, tag), *inside, end(kind, idx, tag)]


def tag_inside(kind, part):
    if kind == COLLECTION:
        return 1
    is_line = ogr.GT_Flatten(part.GetGeometryType()) == LINE
    return int(not is_line and kind not in UNTAGGED_PARTS)


def geometries(path):
    source = ogr.Open(path)
    return [feature.GetGeometryRef().Clone() for feature in source.GetLayer(0)]


def read_back(head, raw):
    """The text of a file's only feature, or nothing where GDAL refuses it."""
    made = os.path.join(sys.argv[3], "made.fgb")
    with open(made, "wb") as file:
        file.write(head + raw)
    try:
        return geometries(made)[0].ExportToIsoWkt()
    except RuntimeError:
        return None


def is_refused(geometry):
    """GDAL wants ends for a single line, and a type in each part of a surface; the crate writes neither."""
    kind = ogr.GT_Flatten(geometry.GetGeometryType())
    return kind == SURFACE or kind == MULTI_LINE and geometry.GetGeometryCount() == 1


def main():
    lists, back = 0, collections.Counter()
    for path in sorted(glob.glob(sys.argv[2] + "/*.fgb")):
        head, header, raws = split(path)
        found, flags = geometries(path), header["z"] | header["m"] << 1
        assert len(found) == len(raws)
        for geometry, raw in zip(found, raws):
            for given in {0, flags}:
                reading, _, _ = oracle.read_flatbuffer(raw, header["type"], given)
                assert (reading.number, reading.events) == (0, said(geometry, 0, given)), (path, reading)
                lists += 1
            if header["type"] in WRITTEN_BACK:
                feature, = oracle.write([*said(geometry, 0, flags), FINISH], header["type"]).features
                expected = None if is_refused(geometry) else geometry.ExportToIsoWkt()
                assert read_back(head, feature.raw) == expected, path
                back[expected is None] += 1
    print("event lists of GDAL's features equal to GDAL's geometries:", lists)
    print("features of the crate's writer that GDAL reads back equal:", back[False])
    print("that GDAL refuses (a MultiLineString of one line, a PolyhedralSurface):", back[True])


main()
