#!/usr/bin/env python3
"""The FlatGeobuf files beside this script, made by GDAL: every geometry type, with and without z and m, declared and not; and
extents.txt, GDAL's own extent of each of their features.

    oracle/files/make.py        # needs Debian's python3-gdal
"""
import glob, os

from osgeo import gdal, ogr, osr

ogr.UseExceptions()
HERE = os.path.dirname(os.path.abspath(__file__))
VERSION = gdal.VersionInfo("RELEASE_NAME")
EXTENTS_HEAD = f"""\
# GDAL's own extent of each feature of the files beside this, written by make.py: what GetEnvelope of GDAL {VERSION} gives for
# the geometry that GDAL reads from the file. A line is the file, the feature's number from 0, then least x, least y, greatest x,
# greatest y, in decimals that give back the doubles. Types with arcs are left out: GDAL goes round an arc, a box over the pairs
# that are stored. An empty geometry has no extent: the files have none, and make.py stops at one.
"""
TEXTS = {
    "Point": ["POINT (1 2)", "POINT (-3.5 4.25)"],
    "LineString": ["LINESTRING (0 0,1 1,2 0.5)", "LINESTRING (5 5,6 6)"],
    "Polygon": ["POLYGON ((0 0,0 9,9 9,0 0))", "POLYGON ((0 0,0 9,9 9,9 0,0 0),(1 1,2 1,2 2,1 1),(3 3,4 3,4 4,3 3))"],
    "MultiPoint": ["MULTIPOINT ((1 2),(3 4),(5 6))"],
    "MultiLineString": ["MULTILINESTRING ((0 0,1 1),(2 2,3 3,4 4))", "MULTILINESTRING ((0 0,1 1))"],
    "MultiPolygon": ["MULTIPOLYGON (((0 0,0 9,9 9,0 0)),((20 20,20 29,29 29,20 20),(21 22,21 23,22 23,21 22)))",
                     "MULTIPOLYGON (((0 0,0 9,9 9,0 0)))"],
    "GeometryCollection": ["GEOMETRYCOLLECTION (POINT (1 2),LINESTRING (0 0,1 1),POLYGON ((0 0,0 9,9 9,0 0),(1 2,1 3,2 3,1 2)),"
                           "MULTIPOLYGON (((0 0,0 9,9 9,0 0)),((5 5,5 6,6 6,5 5))))",
                           "GEOMETRYCOLLECTION (GEOMETRYCOLLECTION (POINT (1 2),MULTIPOINT ((3 4),(5 6))),"
                           "MULTILINESTRING ((0 0,1 1),(2 2,3 3)))"],
    "CircularString": ["CIRCULARSTRING (0 0,1 1,2 0)"],
    "CompoundCurve": ["COMPOUNDCURVE (CIRCULARSTRING (0 0,1 1,2 0),(2 0,3 0,4 1))"],
    "CurvePolygon": ["CURVEPOLYGON (COMPOUNDCURVE (CIRCULARSTRING (0 0,1 1,2 0),(2 0,0 0)),(0.5 0.1,1 0.2,1 0.1,0.5 0.1))"],
    "MultiCurve": ["MULTICURVE (CIRCULARSTRING (0 0,1 1,2 0),(5 5,6 6),COMPOUNDCURVE ((0 0,1 0),CIRCULARSTRING (1 0,2 1,3 0)))"],
    "MultiSurface": ["MULTISURFACE (CURVEPOLYGON (CIRCULARSTRING (0 0,1 1,2 0,1 -1,0 0)),((0 0,0 9,9 9,0 0),(1 2,1 3,2 3,1 2)))"],
    "PolyhedralSurface": ["POLYHEDRALSURFACE Z (((0 0 0,0 1 0,1 1 0,0 0 0)),((0 0 0,0 1 1,1 1 1,0 0 0)))"],
    "TIN": ["TIN Z (((0 0 0,0 1 0,1 1 0,0 0 0)),((0 0 0,0 1 1,1 1 1,0 0 0)))", "TIN Z (((0 0 0,0 1 0,1 1 0,0 0 0)))"],
    "Triangle": ["TRIANGLE ((0 0,0 1,1 1,0 0))"],
}
NUMBERS = dict(zip(TEXTS, (1, 2, 3, 4, 5, 6, 7, 8, 9, 10, 11, 12, 15, 16, 17)))


def measured(text, z, m):
    """The geometry of a text, with z and m values that tell their point."""
    geometry = ogr.CreateGeometryFromWkt(text)
    geometry.Set3D(bool(z))
    geometry.SetMeasured(bool(m))
    fill(geometry, z, m)
    return geometry


def fill(geometry, z, m):
    for i in range(geometry.GetGeometryCount()):
        fill(geometry.GetGeometryRef(i), z, m)
    for i in range(0 if geometry.GetGeometryCount() else geometry.GetPointCount()):
        x, y = geometry.GetX(i), geometry.GetY(i)
        if z and m:
            geometry.SetPointZM(i, x, y, 10 * x + y, x - y)
        elif z:
            geometry.SetPoint(i, x, y, 10 * x + y)
        elif m:
            geometry.SetPointM(i, x, y, x - y)


def make(path, kind, geometries):
    if os.path.exists(path):
        os.remove(path)
    source = ogr.GetDriverByName("FlatGeobuf").CreateDataSource(path)
    layer = source.CreateLayer("made", osr.SpatialReference(), kind, options=["SPATIAL_INDEX=NO"])
    for name, field in (("depth", ogr.OFTInteger), ("crew", ogr.OFTString), ("slope", ogr.OFTReal), ("laid", ogr.OFTDateTime)):
        layer.CreateField(ogr.FieldDefn(name, field))
    for i, geometry in enumerate(geometries):
        feature = ogr.Feature(layer.GetLayerDefn())
        feature.SetGeometry(geometry)
        for field, value in enumerate((i - 5, "æ" * (i + 1), i / 3, "2024/05/06 07:08:09")):
            feature.SetField(field, value)
        layer.CreateFeature(feature)


def extents(path):
    """A line for each feature of a file that has no arcs."""
    source = ogr.Open(path)
    for number, feature in enumerate(source.GetLayer(0)):
        geometry = feature.GetGeometryRef()
        assert not geometry.IsEmpty(), path
        if not geometry.HasCurveGeometry():
            least_x, greatest_x, least_y, greatest_y = geometry.GetEnvelope()
            yield " ".join(map(str, (os.path.basename(path), number, least_x, least_y, greatest_x, greatest_y))) + "\n"


def make_extents():
    with open(os.path.join(HERE, "extents.txt"), "w") as file:
        file.write(EXTENTS_HEAD)
        for path in sorted(glob.glob(os.path.join(HERE, "*.fgb"))):
            file.writelines(extents(path))


def main():
    for name, texts in TEXTS.items():
        for z, m in ((0, 0), (1, 0), (0, 1), (1, 1)):
            geometries = [measured(text, z, m) for text in texts]
            stem = os.path.join(HERE, name.lower() + "-z" * z + "-m" * m)
            make(stem + ".fgb", ogr.GT_SetModifier(NUMBERS[name], z, m), geometries)
    mixed = [ogr.CreateGeometryFromWkt(text) for texts in TEXTS.values() for text in texts]
    make(os.path.join(HERE, "unknown.fgb"), ogr.wkbUnknown, [geometry for geometry in mixed if not geometry.Is3D()])
    make_extents()


main()
