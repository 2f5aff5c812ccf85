//! GEOS's own reader and writer of well-known binary, by its C interface. Where it is not installed, no_geos.rs stands in its place.
use crate::timing::timed;
use std::ffi::{c_int, c_void};
use std::hint::black_box;
use std::time::Duration;
use std::{ptr, slice};

type Context = *mut c_void;
type Reader = *mut c_void;
type Writer = *mut c_void;
type Geometry = *mut c_void;

#[link(name = "geos_c")]
extern "C" {
    fn GEOS_init_r() -> Context;
    fn GEOS_finish_r(context: Context);
    fn GEOSWKBReader_create_r(context: Context) -> Reader;
    fn GEOSWKBReader_destroy_r(context: Context, reader: Reader);
    fn GEOSWKBReader_read_r(context: Context, reader: Reader, bytes: *const u8, count: usize) -> Geometry;
    fn GEOSWKBWriter_create_r(context: Context) -> Writer;
    fn GEOSWKBWriter_destroy_r(context: Context, writer: Writer);
    fn GEOSWKBWriter_setByteOrder_r(context: Context, writer: Writer, mark: c_int);
    fn GEOSWKBWriter_write_r(context: Context, writer: Writer, geometry: Geometry, count: *mut usize) -> *mut u8;
    fn GEOSGeom_destroy_r(context: Context, geometry: Geometry);
    fn GEOSFree_r(context: Context, bytes: *mut c_void);
}

struct Geos {
    context: Context,
    reader: Reader,
    writer: Writer,
}

// SAFETY of every call: the context, the reader and the writer live as long as `Geos`; a geometry is one that `read` gave and that
// was not dropped; bytes that are read are a slice's, and bytes that were written are as many as GEOS says.
impl Geos {
    fn new() -> Geos {
        unsafe {
            let context = GEOS_init_r();
            Geos { context, reader: GEOSWKBReader_create_r(context), writer: GEOSWKBWriter_create_r(context) }
        }
    }

    fn read(&self, bytes: &[u8]) -> Geometry {
        let geometry = unsafe { GEOSWKBReader_read_r(self.context, self.reader, bytes.as_ptr(), bytes.len()) };
        assert!(!geometry.is_null(), "GEOS reads the bytes");
        geometry
    }

    /// From here on in the byte order of this mark.
    fn set_order(&self, mark: u8) {
        unsafe { GEOSWKBWriter_setByteOrder_r(self.context, self.writer, mark.into()) }
    }

    /// Bytes of GEOS's own, which are to be given back, and how many.
    fn write(&self, geometry: Geometry) -> (*mut u8, usize) {
        let mut count = 0;
        let bytes = unsafe { GEOSWKBWriter_write_r(self.context, self.writer, geometry, &mut count) };
        assert!(!bytes.is_null(), "GEOS writes the geometry");
        (bytes, count)
    }

    fn give_back(&self, (bytes, _): (*mut u8, usize)) {
        unsafe { GEOSFree_r(self.context, bytes.cast()) }
    }

    fn writes(&self, geometry: Geometry, bytes: &[u8]) -> bool {
        let written = self.write(geometry);
        let same = unsafe { slice::from_raw_parts(written.0, written.1) } == bytes;
        self.give_back(written);
        same
    }

    fn drop_geometry(&self, geometry: Geometry) {
        unsafe { GEOSGeom_destroy_r(self.context, geometry) }
    }
}

impl Drop for Geos {
    fn drop(&mut self) {
        unsafe {
            GEOSWKBWriter_destroy_r(self.context, self.writer);
            GEOSWKBReader_destroy_r(self.context, self.reader);
            GEOS_finish_r(self.context);
        }
    }
}

/// How long GEOS takes to make its geometry of these bytes, which has to be written as the same bytes again. The geometry is dropped
/// untimed.
pub fn reading(bytes: &[u8]) -> Option<impl FnMut() -> Duration + '_> {
    let geos = Geos::new();
    let geometry = geos.read(bytes);
    geos.set_order(bytes[0]);
    assert!(geos.writes(geometry, bytes), "GEOS writes what it has read");
    geos.drop_geometry(geometry);
    Some(move || {
        let mut geometry = ptr::null_mut();
        let time = timed(|| geometry = geos.read(black_box(bytes)));
        geos.drop_geometry(geometry);
        time
    })
}

/// How long GEOS takes to write these bytes of the geometry that it has read of them. The bytes are given back untimed; the geometry
/// lives as long as the process.
pub fn writing(bytes: &[u8]) -> Option<impl FnMut() -> Duration + '_> {
    let geos = Geos::new();
    let geometry = geos.read(bytes);
    geos.set_order(bytes[0]);
    assert!(geos.writes(geometry, bytes), "GEOS writes what it has read");
    Some(move || {
        let mut written = (ptr::null_mut(), 0);
        let time = timed(|| written = geos.write(black_box(geometry)));
        geos.give_back(written);
        time
    })
}
