//! Geometry records (SPEC 3.5) and pools, and FlatBuffers trees made from them and turned into them.
use crate::answer::{BAD_RECORD, TOO_DEEP};
use crate::events::u32_at;
use crate::feature_generated::{size_prefixed_root_as_feature_unchecked, Feature, FeatureArgs, Geometry, GeometryArgs};
use crate::header_generated::GeometryType;
use flatbuffers::{FlatBufferBuilder, Vector, WIPOffset};
use std::collections::HashMap;
use std::ops::Range;

pub const MOST_RECORDS: usize = 4096;
pub const MOST_WORDS: [usize; 6] = [131072, 65536, 65536, 65536, 65536, 65536];
pub const MOST_LEVELS: usize = 16;
pub const ENDS: usize = 1;
const PARTS: usize = 6;

/// A table and the six pools in SPEC's order: xy, ends, z, m, t, tm. Words of `ends` are kept as u64 too.
#[derive(Clone, Debug, Default, PartialEq, Eq)]
pub struct Store {
    pub table: Vec<u8>,
    pub pools: [Vec<u64>; 6],
}

/// A record that is not bad: its type and lists.
struct Record {
    kind: u8,
    lists: [Option<Range<usize>>; 7],
}

impl Store {
    /// Refusal 10, from SPEC 3.9 alone: there is no record in the Rust to be bad.
    fn record(&self, n: usize) -> Option<Record> {
        let records = self.records();
        if !self.table.len().is_multiple_of(64) || n >= records.min(MOST_RECORDS) {
            return None;
        }
        let bytes = &self.table[64 * n..64 * n + 64];
        let spare_set = bytes[1] & 128 != 0 || bytes[2..4] != [0; 2] || bytes[60..64] != [0; 4];
        let mut lists = [const { None }; 7];
        for (i, list) in lists.iter_mut().enumerate() {
            let (start, count) = (u32_at(bytes, 4 + 8 * i) as usize, u32_at(bytes, 8 + 8 * i) as usize);
            let end = if i == PARTS { records.min(MOST_RECORDS) } else { self.pools[i].len().min(MOST_WORDS[i]) };
            let present = bytes[1] & 1 << i != 0;
            let fits = start + count <= if present { end } else { 0 };
            if !fits || (present && i == PARTS && start <= n) {
                return None;
            }
            *list = present.then_some(start..start + count);
        }
        (!spare_set).then_some(Record { kind: bytes[0], lists })
    }

    pub fn is_bad(&self, n: usize) -> bool {
        self.record(n).is_none()
    }

    pub fn records(&self) -> usize {
        self.table.len() / 64
    }

    /// The words of record n's own xy list, and the numbers of its parts; nothing for a bad record.
    pub fn xy_and_parts(&self, n: usize) -> Option<(&[u64], Range<usize>)> {
        let [xy, .., parts] = self.record(n)?.lists;
        Some((&self.pools[0][xy.unwrap_or_default()], parts.unwrap_or_default()))
    }

    /// The tree below record 0 as the bytes of a Feature. What SPEC 7.4 refuses with 10 or 13 becomes a shut table.
    pub fn to_feature(&self) -> Vec<u8> {
        let mut builder = Builder { store: self, to: FlatBufferBuilder::new(), built: HashMap::new() };
        let geometry = Some(builder.geometry(0, 1));
        let feature = Feature::create(&mut builder.to, &FeatureArgs { geometry, ..Default::default() });
        builder.to.finish_size_prefixed(feature, None);
        builder.to.finished_data().to_vec()
    }

    /// A geometry's records, breadth first, lists one after the other: for the writer's trees, as SPEC 6.16 lays them.
    pub fn from_geometry(root: Geometry) -> Store {
        let mut store = Store::default();
        let mut found = vec![root];
        for n in 0.. {
            let Some(geometry) = found.get(n).copied() else { return store };
            let mut record = [0; 64];
            record[0] = geometry.type_().0;
            let lists = [
                geometry.xy().map(doubles),
                geometry.ends().map(|list| list.iter().map(u64::from).collect()),
                geometry.z().map(doubles),
                geometry.m().map(doubles),
                geometry.t().map(doubles),
                geometry.tm().map(|list| list.iter().collect()),
            ];
            for (i, list) in lists.into_iter().enumerate() {
                if let Some(words) = list {
                    put_list(&mut record, i, store.pools[i].len(), words.len());
                    store.pools[i].extend(words);
                }
            }
            if let Some(parts) = geometry.parts() {
                put_list(&mut record, PARTS, found.len(), parts.len());
                found.extend(parts.iter());
            }
            store.table.extend_from_slice(&record);
        }
        unreachable!()
    }
}

fn doubles(list: Vector<f64>) -> Vec<u64> {
    list.iter().map(f64::to_bits).collect()
}

/// Notes a list in a record's bytes.
pub fn put_list(record: &mut [u8], list: usize, start: usize, count: usize) {
    record[1] |= 1 << list;
    record[4 + 8 * list..8 + 8 * list].copy_from_slice(&(start as u32).to_le_bytes());
    record[8 + 8 * list..12 + 8 * list].copy_from_slice(&(count as u32).to_le_bytes());
}

struct Builder<'s> {
    store: &'s Store,
    to: FlatBufferBuilder<'s>,
    /// By record and level: a record may be a part of several.
    built: HashMap<(usize, usize), WIPOffset<Geometry<'s>>>,
}

impl<'s> Builder<'s> {
    fn geometry(&mut self, n: usize, level: usize) -> WIPOffset<Geometry<'s>> {
        if let Some(built) = self.built.get(&(n, level)) {
            return *built;
        }
        let built = match self.store.record(n) {
            _ if level > MOST_LEVELS => self.shut(TOO_DEEP),
            None => self.shut(BAD_RECORD),
            Some(record) => self.open(record, level),
        };
        self.built.insert((n, level), built);
        built
    }

    fn open(&mut self, record: Record, level: usize) -> WIPOffset<Geometry<'s>> {
        let [xy, ends, z, m, t, tm, parts] = record.lists;
        let parts = parts.map(|list| {
            let built: Vec<_> = list.map(|n| self.geometry(n, level + 1)).collect();
            self.to.create_vector(&built)
        });
        let args = GeometryArgs {
            type_: GeometryType(record.kind),
            ends: ends.map(|list| {
                let ends = marked(&self.store.pools[ENDS][list]);
                self.to.create_vector(&ends)
            }),
            xy: self.doubles(0, xy),
            z: self.doubles(2, z),
            m: self.doubles(3, m),
            t: self.doubles(4, t),
            tm: tm.map(|list| self.to.create_vector(&self.store.pools[5][list])),
            parts,
        };
        Geometry::create(&mut self.to, &args)
    }

    fn doubles(&mut self, pool: usize, list: Option<Range<usize>>) -> Option<WIPOffset<Vector<'s, f64>>> {
        let words: Vec<f64> = self.store.pools[pool][list?].iter().map(|word| f64::from_bits(*word)).collect();
        Some(self.to.create_vector(&words))
    }

    /// A table whose vtable lies outside the bytes: the crate panics where it first looks at it, which is where it enters a
    /// geometry.
    fn shut(&mut self, number: u8) -> WIPOffset<Geometry<'s>> {
        WIPOffset::new(self.to.push(i32::MIN + i32::from(number)).value())
    }
}

/// The number of a shut table that a panic's words tell of: they name the vtable's place, 2^31 after its table's, less the number.
pub fn number_of_shut(words: &str, feature: &[u8]) -> Option<u8> {
    let place: usize = words.strip_prefix("range start index ")?.split(' ').next()?.parse().ok()?;
    [BAD_RECORD, TOO_DEEP].into_iter().find(|number| {
        let table = (place + usize::from(*number)).checked_sub(1 << 31);
        table.is_some_and(|at| at + 4 <= feature.len() && u32_at(feature, at) == (1 << 31) + u32::from(*number))
    })
}

/// An end of 2^31 or more, which the crate cuts and SPEC 7.11 refuses with 8, is put so far past the one before that the crate says
/// a line of this size, and then finds no pair or no list.
pub const MARKED_SIZE: u32 = 0x3456_789A;

fn marked(ends: &[u64]) -> Vec<u32> {
    let mut before = 0;
    let mut put = |end: u32| {
        before = if end < 1 << 31 { end } else { u32::wrapping_add(before, MARKED_SIZE) };
        before
    };
    ends.iter().map(|end| put(*end as u32)).collect()
}

/// The geometry of a Feature's bytes that this module or the crate made.
pub fn geometry_of(feature: &[u8]) -> Geometry<'_> {
    // SAFETY: the bytes come from a builder.
    unsafe { size_prefixed_root_as_feature_unchecked(feature) }.geometry().expect("made with a geometry")
}
