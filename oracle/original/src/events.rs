//! Event records (SPEC 3.2): given to a processor, and written by one.
//!
//! The crate knows no feature's number. Bytes 12 to 15 of a record are not given to it, and the records that it writes have 0 there.
use geozero::error::{GeozeroError, Result};
use geozero::{CoordDimensions, GeomProcessor};

pub fn u32_at(bytes: &[u8], at: usize) -> u32 {
    u32::from_le_bytes(bytes[at..at + 4].try_into().unwrap())
}

pub fn u64_at(bytes: &[u8], at: usize) -> u64 {
    u64::from_le_bytes(bytes[at..at + 8].try_into().unwrap())
}

/// The number of the feature that a record is of.
pub fn feature_of(event: &[u8]) -> u32 {
    u32_at(event, 12)
}

/// Puts a feature's number into each of the records.
pub fn put_feature(events: &mut [u8], feature: u32) {
    for event in events.chunks_exact_mut(64) {
        event[12..16].copy_from_slice(&feature.to_le_bytes());
    }
}

const XY: u8 = 64;
const COORDINATE: u8 = 65;

/// Refusal 11, from SPEC 3.3 alone: there is no record in the Rust to be malformed.
pub fn is_malformed(event: &[u8]) -> bool {
    if event.len() != 64 {
        return true;
    }
    let kind = event[0];
    if !matches!(kind, 1..=12 | 15..=17 | 33..=44 | 47..=49 | XY | COORDINATE) {
        return true;
    }
    let tagged_used = kind < 64 && matches!(kind % 32, 2 | 3 | 17);
    let size_used = kind < 32 && kind != 1;
    let present = event[2];
    let value_set = |at: usize| event[at..at + 8] != [0; 8];
    event[3] != 0
        || event[1] > tagged_used as u8
        || (!size_used && u32_at(event, 4) != 0)
        || (kind < 64 && (value_set(16) || value_set(24)))
        || present > if kind == COORDINATE { 15 } else { 0 }
        || (0..4).any(|i| present & 1 << i == 0 && value_set(32 + 8 * i))
}

/// A begin's size only reserves room in the crate (SPEC 1.2 leaves that out); it is cut, since a huge one ends the process.
const MOST_RESERVED: usize = 1 << 10;

/// Gives a well-formed event to a processor: all that its record says but the feature's number.
pub fn give<P: GeomProcessor>(to: &mut P, event: &[u8]) -> Result<()> {
    let tagged = event[1] == 1;
    let size = (u32_at(event, 4) as usize).min(MOST_RESERVED);
    let idx = u32_at(event, 8) as usize;
    let double = |at: usize| f64::from_bits(u64_at(event, at));
    let present = |i: u8| event[2] & 1 << i != 0;
    match event[0] {
        1 => to.point_begin(idx),
        2 => to.linestring_begin(tagged, size, idx),
        3 => to.polygon_begin(tagged, size, idx),
        4 => to.multipoint_begin(size, idx),
        5 => to.multilinestring_begin(size, idx),
        6 => to.multipolygon_begin(size, idx),
        7 => to.geometrycollection_begin(size, idx),
        8 => to.circularstring_begin(size, idx),
        9 => to.compoundcurve_begin(size, idx),
        10 => to.curvepolygon_begin(size, idx),
        11 => to.multicurve_begin(size, idx),
        12 => to.multisurface_begin(size, idx),
        15 => to.polyhedralsurface_begin(size, idx),
        16 => to.tin_begin(size, idx),
        17 => to.triangle_begin(tagged, size, idx),
        33 => to.point_end(idx),
        34 => to.linestring_end(tagged, idx),
        35 => to.polygon_end(tagged, idx),
        36 => to.multipoint_end(idx),
        37 => to.multilinestring_end(idx),
        38 => to.multipolygon_end(idx),
        39 => to.geometrycollection_end(idx),
        40 => to.circularstring_end(idx),
        41 => to.compoundcurve_end(idx),
        42 => to.curvepolygon_end(idx),
        43 => to.multicurve_end(idx),
        44 => to.multisurface_end(idx),
        47 => to.polyhedralsurface_end(idx),
        48 => to.tin_end(idx),
        49 => to.triangle_end(tagged, idx),
        XY => to.xy(double(16), double(24), idx),
        COORDINATE => to.coordinate(
            double(16),
            double(24),
            present(0).then(|| double(32)),
            present(1).then(|| double(40)),
            present(2).then(|| double(48)),
            present(3).then(|| u64_at(event, 56)),
            idx,
        ),
        kind => Err(GeozeroError::Dataset(format!("no event of kind {kind}"))),
    }
}

/// A processor that writes event records (SPEC 3.2), as many as it has room for.
pub struct Log {
    pub bytes: Vec<u8>,
    room: usize,
    dimensions: CoordDimensions,
}

impl Log {
    /// Flags are an event's present bits: z 1, m 2, t 4, tm 8.
    pub fn new(flags: u8, room: usize) -> Log {
        let flag = |i: u8| flags & 1 << i != 0;
        let dimensions = CoordDimensions { z: flag(0), m: flag(1), t: flag(2), tm: flag(3) };
        Log { bytes: Vec::new(), room, dimensions }
    }

    fn put(&mut self, event: [u8; 64]) -> Result<()> {
        if self.bytes.len() / 64 == self.room {
            return Err(GeozeroError::LogFull);
        }
        self.bytes.extend_from_slice(&event);
        Ok(())
    }

    fn bound(&mut self, kind: u8, tagged: bool, size: usize, idx: usize) -> Result<()> {
        let mut event = [0; 64];
        event[0] = kind;
        event[1] = tagged as u8;
        event[4..8].copy_from_slice(&(size as u32).to_le_bytes());
        event[8..12].copy_from_slice(&(idx as u32).to_le_bytes());
        self.put(event)
    }

    fn pair(&mut self, kind: u8, x: f64, y: f64, values: [Option<u64>; 4], idx: usize) -> Result<()> {
        let mut event = [0; 64];
        event[0] = kind;
        event[8..12].copy_from_slice(&(idx as u32).to_le_bytes());
        event[16..24].copy_from_slice(&x.to_bits().to_le_bytes());
        event[24..32].copy_from_slice(&y.to_bits().to_le_bytes());
        for (i, value) in values.into_iter().enumerate() {
            if let Some(value) = value {
                event[2] |= 1 << i;
                event[32 + 8 * i..40 + 8 * i].copy_from_slice(&value.to_le_bytes());
            }
        }
        self.put(event)
    }
}

macro_rules! plain {
    ($($begin:ident $end:ident $kind:expr),*) => { $(
        fn $begin(&mut self, size: usize, idx: usize) -> Result<()> {
            self.bound($kind, false, size, idx)
        }
        fn $end(&mut self, idx: usize) -> Result<()> {
            self.bound($kind + 32, false, 0, idx)
        }
    )* }
}

macro_rules! tagged {
    ($($begin:ident $end:ident $kind:expr),*) => { $(
        fn $begin(&mut self, tagged: bool, size: usize, idx: usize) -> Result<()> {
            self.bound($kind, tagged, size, idx)
        }
        fn $end(&mut self, tagged: bool, idx: usize) -> Result<()> {
            self.bound($kind + 32, tagged, 0, idx)
        }
    )* }
}

impl GeomProcessor for Log {
    fn dimensions(&self) -> CoordDimensions {
        self.dimensions
    }
    fn xy(&mut self, x: f64, y: f64, idx: usize) -> Result<()> {
        self.pair(XY, x, y, [None; 4], idx)
    }
    fn coordinate(
        &mut self,
        x: f64,
        y: f64,
        z: Option<f64>,
        m: Option<f64>,
        t: Option<f64>,
        tm: Option<u64>,
        idx: usize,
    ) -> Result<()> {
        self.pair(COORDINATE, x, y, [z.map(f64::to_bits), m.map(f64::to_bits), t.map(f64::to_bits), tm], idx)
    }
    fn point_begin(&mut self, idx: usize) -> Result<()> {
        self.bound(1, false, 0, idx)
    }
    fn point_end(&mut self, idx: usize) -> Result<()> {
        self.bound(33, false, 0, idx)
    }
    fn empty_point(&mut self, _idx: usize) -> Result<()> {
        Err(GeozeroError::Dataset("SPEC has no such event".into()))
    }
    tagged!(linestring_begin linestring_end 2, polygon_begin polygon_end 3, triangle_begin triangle_end 17);
    plain!(
        multipoint_begin multipoint_end 4, multilinestring_begin multilinestring_end 5, multipolygon_begin multipolygon_end 6,
        geometrycollection_begin geometrycollection_end 7, circularstring_begin circularstring_end 8,
        compoundcurve_begin compoundcurve_end 9, curvepolygon_begin curvepolygon_end 10, multicurve_begin multicurve_end 11,
        multisurface_begin multisurface_end 12, polyhedralsurface_begin polyhedralsurface_end 15, tin_begin tin_end 16
    );
}
