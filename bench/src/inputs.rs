//! Features as event records (SPEC 3.2), property values, and trees whose records share parts.
use geozero::GeomProcessor;
use original::events::{put_feature, Log};
use original::tree::{put_list, Store, MOST_LEVELS};
use std::ops::Range;

/// The bytes of an event.
pub const EVENT: usize = 64;
pub const LINE_STRING: u8 = 2;
pub const POLYGON: u8 = 3;
pub const MULTI_POLYGON: u8 = 6;
pub const GEOMETRY_COLLECTION: u8 = 7;
/// A pair, of an event's kinds.
pub const XY: u8 = 64;
pub const INT: u8 = 5;
pub const STRING: u8 = 11;
/// z and m, of an event's present bits.
pub const Z_AND_M: u8 = 3;

/// The number of every feature. The crate knows none, and says 0 in its place.
pub const FEATURE: u32 = 0x0403_0201;

/// A feature: its type, the flags that it is read with, and its events.
pub struct Feature {
    pub declared: u8,
    pub flags: u8,
    pub events: Vec<u8>,
}

const ROOM: usize = 1 << 20;

fn feature(declared: u8, flags: u8, say: impl FnOnce(&mut Log) -> geozero::error::Result<()>) -> Feature {
    let mut log = Log::new(flags, ROOM);
    say(&mut log).expect("the log has room");
    put_feature(&mut log.bytes, FEATURE);
    Feature { declared, flags, events: log.bytes }
}

fn place(i: usize) -> (f64, f64) {
    (500_000.0 + i as f64 / 64.0, 6_000_000.0 - i as f64 / 128.0)
}

pub fn line(pairs: usize) -> Feature {
    feature(LINE_STRING, 0, |log| {
        log.linestring_begin(true, pairs, 0)?;
        for i in 0..pairs {
            let (x, y) = place(i);
            log.xy(x, y, i)?;
        }
        log.linestring_end(true, 0)
    })
}

pub fn line_with_z_and_m(pairs: usize) -> Feature {
    feature(LINE_STRING, Z_AND_M, |log| {
        log.linestring_begin(true, pairs, 0)?;
        for i in 0..pairs {
            let (x, y) = place(i);
            log.coordinate(x, y, Some(-1.25), Some(i as f64), None, None, i)?;
        }
        log.linestring_end(true, 0)
    })
}

/// `number` says of each pair at which place it is.
fn ring(log: &mut Log, pairs: usize, number: impl Fn(usize) -> usize) -> geozero::error::Result<()> {
    log.linestring_begin(false, pairs, 0)?;
    for i in 0..pairs {
        let (x, y) = place(number(i));
        log.xy(x, y, i)?;
    }
    log.linestring_end(false, 0)
}

/// Polygons of one ring each, no two pairs of which are at the same place.
pub fn polygons(parts: usize, pairs: usize) -> Feature {
    polygons_at(parts, pairs, |part, i| part * pairs + i)
}

/// Polygons of one ring each, which ends where it begins: GEOS reads no others.
pub fn closed_polygons(parts: usize, pairs: usize) -> Feature {
    polygons_at(parts, pairs, |part, i| part * pairs + i % (pairs - 1))
}

fn polygons_at(parts: usize, pairs: usize, number: impl Fn(usize, usize) -> usize) -> Feature {
    feature(MULTI_POLYGON, 0, |log| {
        log.multipolygon_begin(parts, 0)?;
        for part in 0..parts {
            log.polygon_begin(false, 1, part)?;
            ring(log, pairs, |i| number(part, i))?;
            log.polygon_end(false, part)?;
        }
        log.multipolygon_end(0)
    })
}

/// Collections of one member each but for the innermost, which has none.
pub fn nested(depth: usize) -> Feature {
    feature(GEOMETRY_COLLECTION, 0, |log| {
        for level in 1..=depth {
            log.geometrycollection_begin(usize::from(level < depth), 0)?;
        }
        for _ in 0..depth {
            log.geometrycollection_end(0)?;
        }
        Ok(())
    })
}

/// A polygon, and then a ring whose polygon does not end: it is pending when the feature is finished.
pub fn polygon_and_open_ring(pairs: usize) -> Feature {
    feature(MULTI_POLYGON, 0, |log| {
        log.multipolygon_begin(2, 0)?;
        log.polygon_begin(false, 1, 0)?;
        ring(log, 4, |i| i)?;
        log.polygon_end(false, 0)?;
        log.polygon_begin(false, 1, 1)?;
        ring(log, pairs, |i| 4 + i)
    })
}

/// What ends the open ring's polygon, so that nothing is pending.
pub fn open_rings_end() -> Feature {
    feature(MULTI_POLYGON, 0, |log| {
        log.polygon_end(false, 1)?;
        log.multipolygon_end(0)
    })
}

/// Values of one type, each for column 0.
pub struct Values {
    pub kind: u8,
    pub bits: u64,
    /// Not a literal: where one happens to lie in the program decides a row by a quarter.
    pub text: String,
    pub count: usize,
}

pub fn ints() -> Values {
    Values { kind: INT, bits: u64::from(-7i32 as u32), text: String::new(), count: 10922 }
}

/// Of 58 bytes each.
pub fn strings() -> Values {
    Values { kind: STRING, bits: 0, text: "drænrør nær grøft, 42 m øst for skel 7, dybde 1,2 m .".into(), count: 1024 }
}

/// A tree whose records share parts, and how many places its lists of parts have.
pub struct Shared {
    pub tree: Store,
    pub places: usize,
}

/// Each record has one pair, and these parts.
fn shared(records: usize, parts_of: impl Fn(usize) -> Range<usize>) -> Shared {
    const RECORD: usize = 64;
    const XY: usize = 0;
    const PARTS: usize = 6;
    let mut tree = Store { table: vec![0; RECORD * records], ..Store::default() };
    for (n, record) in tree.table.chunks_exact_mut(RECORD).enumerate() {
        let (x, y) = place(n);
        tree.pools[XY].extend([x.to_bits(), y.to_bits()]);
        put_list(record, XY, 2 * n, 2);
        put_list(record, PARTS, parts_of(n).start, parts_of(n).len());
    }
    Shared { tree, places: (0..records).map(|n| parts_of(n).len()).sum() }
}

/// Sixteen layers of so many records: the parts of each are the whole next layer.
pub fn next_layer(width: usize) -> Shared {
    let records = MOST_LEVELS * width;
    shared(records, |n| {
        let next = (n / width + 1) * width;
        next..records.min(next + width)
    })
}

/// The same layers: the parts of each record are all layers below its own.
pub fn all_layers_below(width: usize) -> Shared {
    let records = MOST_LEVELS * width;
    shared(records, |n| (n / width + 1) * width..records)
}

/// Two layers, the upper of which is come to at level 3, and then one level deeper each time, to level 15. The root's parts are
/// the ways there: the first leads straight to it, and each further one by one link more.
pub fn ever_deeper(width: usize) -> Shared {
    const WAYS: usize = MOST_LEVELS - 3;
    const LINKS: Range<usize> = WAYS + 1..2 * WAYS;
    let upper = LINKS.end..LINKS.end + width;
    let lower = upper.end..upper.end + width;
    let link = |n: usize| n..n + 1;
    shared(lower.end, |n| match n {
        0 => 1..LINKS.start,
        1 => upper.clone(),
        n if n < LINKS.start => link(LINKS.end + 1 - n),
        n if n + 1 < LINKS.end => link(n + 1),
        n if n < LINKS.end => upper.clone(),
        n if n < upper.end => lower.clone(),
        _ => lower.end..lower.end,
    })
}
