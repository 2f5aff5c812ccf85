//! Events: what a geometry is told as.

/// An end's kind is its type's number plus this; a begin's is the type's number.
pub const END: u8 = 32;
pub const XY: u8 = 64;
pub const COORDINATE: u8 = 65;

/// The present bits of a coordinate, and the flags of a reading.
pub const Z: u8 = 1;
pub const M: u8 = 2;
pub const T: u8 = 4;
pub const TM: u8 = 8;

/// Doubles are bit patterns, so that a NaN keeps its payload.
#[derive(Clone, Copy, Debug, Default, PartialEq, Eq)]
pub struct Event {
    pub kind: u8,
    pub tagged: bool,
    pub present: u8,
    pub size: u32,
    pub idx: u32,
    /// The number of the feature that it is of: any, and the same in all events of a feature.
    pub feature: u32,
    pub x: u64,
    pub y: u64,
    pub z: u64,
    pub m: u64,
    pub t: u64,
    pub tm: u64,
}

impl Event {
    /// A geometry's begin, of the feature of that number. `size` is how many lines, rings, pairs or parts follow, and 0 for
    /// a Point; `tagged` says of a LineString, Polygon or Triangle that it stands by itself or in a collection, and is false
    /// for all other types.
    pub fn begin(feature: u32, geometry_type: u8, tagged: bool, size: u32, idx: u32) -> Event {
        Event { kind: geometry_type, tagged, size, idx, feature, ..Event::default() }
    }

    /// Its end, with `feature`, `tagged` and `idx` as its begin has them.
    pub fn end(feature: u32, geometry_type: u8, tagged: bool, idx: u32) -> Event {
        Event { kind: geometry_type.wrapping_add(END), tagged, idx, feature, ..Event::default() }
    }

    /// A pair.
    pub fn xy(feature: u32, x: f64, y: f64, idx: u32) -> Event {
        Event { kind: XY, idx, feature, x: x.to_bits(), y: y.to_bits(), ..Event::default() }
    }

    /// A pair with those of z, m, t and tm that there are; its present bits say which.
    #[allow(clippy::too_many_arguments)] // each is a field of the record
    pub fn coordinate(
        feature: u32,
        x: f64,
        y: f64,
        z: Option<f64>,
        m: Option<f64>,
        t: Option<f64>,
        tm: Option<u64>,
        idx: u32,
    ) -> Event {
        let bit = |of: u8, is_there: bool| of * u8::from(is_there);
        Event {
            kind: COORDINATE,
            present: bit(Z, z.is_some()) | bit(M, m.is_some()) | bit(T, t.is_some()) | bit(TM, tm.is_some()),
            z: z.map_or(0, f64::to_bits),
            m: m.map_or(0, f64::to_bits),
            t: t.map_or(0, f64::to_bits),
            tm: tm.unwrap_or(0),
            ..Event::xy(feature, x, y, idx)
        }
    }

    /// Its 64-byte record.
    pub fn to_bytes(&self) -> [u8; 64] {
        let mut bytes = [0; 64];
        bytes[0] = self.kind;
        bytes[1] = self.tagged as u8;
        bytes[2] = self.present;
        bytes[4..8].copy_from_slice(&self.size.to_le_bytes());
        bytes[8..12].copy_from_slice(&self.idx.to_le_bytes());
        bytes[12..16].copy_from_slice(&self.feature.to_le_bytes());
        for (i, word) in [self.x, self.y, self.z, self.m, self.t, self.tm].iter().enumerate() {
            bytes[16 + 8 * i..24 + 8 * i].copy_from_slice(&word.to_le_bytes());
        }
        bytes
    }

    /// The event of a record that a reading wrote.
    pub fn from_bytes(bytes: &[u8; 64]) -> Event {
        let u32_at = |at: usize| u32::from_le_bytes(bytes[at..at + 4].try_into().unwrap());
        let u64_at = |at: usize| u64::from_le_bytes(bytes[at..at + 8].try_into().unwrap());
        Event {
            kind: bytes[0],
            tagged: bytes[1] != 0,
            present: bytes[2],
            size: u32_at(4),
            idx: u32_at(8),
            feature: u32_at(12),
            x: u64_at(16),
            y: u64_at(24),
            z: u64_at(32),
            m: u64_at(40),
            t: u64_at(48),
            tm: u64_at(56),
        }
    }

    /// The events of the first `count` records of a log. Where the log has several features, `feature` tells them apart.
    pub fn in_log(log: &[u8], count: usize) -> impl Iterator<Item = Event> + '_ {
        log.chunks_exact(64).take(count).map(|bytes| Event::from_bytes(bytes.try_into().unwrap()))
    }
}
