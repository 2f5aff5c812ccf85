"""GEOS by its C interface: geometries are made, written as WKB, read from WKB, and walked. It needs GEOS 3.10 or later."""
import ctypes, struct

from events import COLLECTION, LINE, MULTI_POINT, POINT, POLYGON, begin, end, pair
from peer import EMPTY

HANDLE, NUMBER, COUNT, TEXT, LENGTH = ctypes.c_void_p, ctypes.c_int, ctypes.c_uint, ctypes.c_char_p, ctypes.c_size_t
HEARS = ctypes.CFUNCTYPE(None, TEXT, HANDLE)
# GEOS numbers Point 0 and LineString 1, has rings as 2, and all others as WKB.
TYPES = {0: POINT, 1: LINE, **{number: number for number in range(POLYGON, COLLECTION + 1)}}
NUMBERS = {kind: number for number, kind in TYPES.items()}
EXTENDED, ISO = 1, 2

# The names between GEOS and _r, with what is given back, and what is taken behind the context.
CALLS = {
    "Context_setErrorMessageHandler": (HANDLE, HEARS, HANDLE),
    "CoordSeq_copyFromBuffer": (HANDLE, TEXT, COUNT, NUMBER, NUMBER),
    "CoordSeq_copyToBuffer": (NUMBER, HANDLE, HANDLE, NUMBER, NUMBER),
    "CoordSeq_getSize": (NUMBER, HANDLE, ctypes.POINTER(COUNT)),
    "Free": (None, HANDLE),
    "GeomTypeId": (NUMBER, HANDLE),
    "Geom_createCollection": (HANDLE, NUMBER, HANDLE, COUNT),
    "Geom_createEmptyPoint": (HANDLE,),
    "Geom_createEmptyPolygon": (HANDLE,),
    "Geom_createLineString": (HANDLE, HANDLE),
    "Geom_createLinearRing": (HANDLE, HANDLE),
    "Geom_createPoint": (HANDLE, HANDLE),
    "Geom_createPolygon": (HANDLE, HANDLE, HANDLE, COUNT),
    "Geom_destroy": (None, HANDLE),
    "Geom_getCoordSeq": (HANDLE, HANDLE),
    "GetExteriorRing": (HANDLE, HANDLE),
    "GetGeometryN": (HANDLE, HANDLE, NUMBER),
    "GetInteriorRingN": (HANDLE, HANDLE, NUMBER),
    "GetNumGeometries": (NUMBER, HANDLE),
    "GetNumInteriorRings": (NUMBER, HANDLE),
    "WKBReader_create": (HANDLE,),
    "WKBReader_read": (HANDLE, HANDLE, TEXT, LENGTH),
    "WKBWriter_create": (HANDLE,),
    "WKBWriter_setByteOrder": (None, HANDLE, NUMBER),
    "WKBWriter_setFlavor": (None, HANDLE, NUMBER),
    "WKBWriter_setIncludeSRID": (None, HANDLE, ctypes.c_char),
    "WKBWriter_setOutputDimension": (None, HANDLE, NUMBER),
    "WKBWriter_write": (HANDLE, HANDLE, HANDLE, ctypes.POINTER(LENGTH)),
    "isEmpty": (ctypes.c_char, HANDLE),
}


class Geos:
    """A geometry is a handle, which is given to `drop` in the end."""

    def __init__(self):
        self.library = ctypes.CDLL("libgeos_c.so.1")
        self.library.GEOSversion.restype = TEXT
        self.version = self.library.GEOSversion().decode()
        self.library.GEOS_init_r.restype = HANDLE
        self.context = self.library.GEOS_init_r()
        self.calls = {name: self.bound(name, *signature) for name, signature in CALLS.items()}
        self.words = ""
        self.hears = HEARS(self.hear)
        self.call("Context_setErrorMessageHandler", self.hears, None)
        self.reader = self.call("WKBReader_create")
        self.writers = [self.writer(order, 2, EXTENDED, b"\0") for order in (0, 1)]
        self.dialect_writers = [self.writer(order, 3, flavor, b"\1") for order in (0, 1) for flavor in (EXTENDED, ISO)]

    def bound(self, name, result, *taken):
        function = getattr(self.library, f"GEOS{name}_r")
        function.restype, function.argtypes = result, [HANDLE, *taken]
        return function

    def hear(self, words, _):
        self.words = words.decode().strip()

    def call(self, name, *given):
        return self.calls[name](self.context, *given)

    def made(self, name, *given):
        """The handle that a call gives, which is to be one."""
        handle = self.call(name, *given)
        if not handle:
            raise AssertionError(f"GEOS makes no geometry: {self.words}")
        return handle

    def drop(self, geometry):
        self.call("Geom_destroy", geometry)

    # ---- WKB

    def writer(self, order, dimension, flavor, has_srid):
        writer = self.call("WKBWriter_create")
        self.call("WKBWriter_setByteOrder", writer, order)
        self.call("WKBWriter_setOutputDimension", writer, dimension)
        self.call("WKBWriter_setFlavor", writer, flavor)
        self.call("WKBWriter_setIncludeSRID", writer, has_srid)
        return writer

    def written(self, geometry, writer):
        length = LENGTH()
        place = self.made("WKBWriter_write", writer, geometry, ctypes.byref(length))
        data = ctypes.string_at(place, length.value)
        self.call("Free", place)
        return data

    def read(self, data):
        """A geometry, or None, with GEOS's reason in `words`."""
        return self.call("WKBReader_read", self.reader, data, len(data))

    # ---- geometries of shapes

    def sequence(self, pairs):
        words = [word for each in pairs for word in each]
        return self.made("CoordSeq_copyFromBuffer", struct.pack(f"<{len(words)}Q", *words), len(pairs), 0, 0)

    def polygon(self, rings):
        if not rings:
            return self.made("Geom_createEmptyPolygon")
        shell, *holes = [self.made("Geom_createLinearRing", self.sequence(ring)) for ring in rings]
        return self.made("Geom_createPolygon", shell, handles(holes), len(holes))

    def geometry(self, shape):
        kind, content = shape
        if kind == POINT and content is None:
            return self.made("Geom_createEmptyPoint")
        if kind == POINT:
            return self.made("Geom_createPoint", self.sequence([content]))
        if kind == LINE:
            return self.made("Geom_createLineString", self.sequence(content))
        if kind == POLYGON:
            return self.polygon(content)
        members = [self.geometry(each) for each in content]
        return self.made("Geom_createCollection", NUMBERS[kind], handles(members), len(members))

    # ---- the walk

    def is_empty(self, geometry):
        return self.call("isEmpty", geometry) == b"\1"

    def pairs(self, geometry):
        sequence, size = self.call("Geom_getCoordSeq", geometry), COUNT()
        self.call("CoordSeq_getSize", sequence, ctypes.byref(size))
        doubles = (ctypes.c_double * (2 * size.value))()
        self.call("CoordSeq_copyToBuffer", sequence, doubles, 0, 0)
        return list(struct.iter_unpack("<2Q", bytes(doubles)))

    def point(self, geometry):
        return (EMPTY, EMPTY) if self.is_empty(geometry) else self.pairs(geometry)[0]

    def rings(self, polygon):
        if self.is_empty(polygon):
            return []
        holes = range(self.call("GetNumInteriorRings", polygon))
        return [self.call("GetExteriorRing", polygon), *(self.call("GetInteriorRingN", polygon, i) for i in holes)]

    def members(self, geometry):
        return [self.call("GetGeometryN", geometry, i) for i in range(self.call("GetNumGeometries", geometry))]

    def line_events(self, line, index, tagged):
        pairs = self.pairs(line)
        yield begin(LINE, len(pairs), index, tagged)
        for i, (x, y) in enumerate(pairs):
            yield pair(i, x, y)
        yield end(LINE, index, tagged)

    def polygon_events(self, polygon, index, tagged):
        rings = self.rings(polygon)
        yield begin(POLYGON, len(rings), index, tagged)
        for i, ring in enumerate(rings):
            yield from self.line_events(ring, i, 0)
        yield end(POLYGON, index, tagged)

    def events(self, geometry, index=0, tagged=1):
        """The events of a geometry as GEOS has it."""
        kind = TYPES[self.call("GeomTypeId", geometry)]
        if kind == LINE:
            yield from self.line_events(geometry, index, tagged)
            return
        if kind == POLYGON:
            yield from self.polygon_events(geometry, index, tagged)
            return
        members = [] if kind == POINT else self.members(geometry)
        yield begin(kind, len(members), index)
        if kind == POINT:
            yield pair(0, *self.point(geometry))
        for i, member in enumerate(members):
            if kind == MULTI_POINT:
                yield pair(i, *self.point(member))
            else:
                yield from self.events(member, i, int(kind == COLLECTION))
        yield end(kind, index)


def handles(geometries):
    return (HANDLE * len(geometries))(*geometries)
