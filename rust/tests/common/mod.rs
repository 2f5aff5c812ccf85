//! Memory of a size that each test asks for, and the events of lines and rings.
#![allow(dead_code)] // each test file uses a part of it
pub mod wkb;
use bintolage::{event, geometry_type, Event, Memory, Read, Refusal, State};

/// The number of a test's feature, where it does not say another.
pub const FEATURE: u32 = 0x0403_0201;

pub struct Room {
    pub table: Vec<u8>,
    pub xy: Vec<u64>,
    pub ends: Vec<u32>,
    pub z: Vec<u64>,
    pub m: Vec<u64>,
    pub t: Vec<u64>,
    pub tm: Vec<u64>,
    pub properties: Vec<u8>,
    pub log: Vec<u8>,
    /// The number that a reading says.
    pub feature: u32,
}

pub type Pair = (f64, f64);

/// A record's list: where it starts and how many words it has.
pub type List = Option<(u32, u32)>;

#[derive(Debug, PartialEq, Eq)]
pub struct Record {
    pub kind: u8,
    pub xy: List,
    pub ends: List,
    pub parts: List,
}

impl Room {
    pub fn of(records: usize, pairs: usize) -> Room {
        Room {
            table: vec![0; records * 64],
            xy: vec![0; pairs * 2],
            ends: vec![0; pairs],
            z: vec![0; pairs],
            m: vec![0; pairs],
            t: vec![0; pairs],
            tm: vec![0; pairs],
            properties: vec![0; 256],
            log: vec![0; 256 * 64],
            feature: FEATURE,
        }
    }

    pub fn memory(&mut self) -> Memory<'_> {
        Memory {
            table: &mut self.table,
            xy: &mut self.xy,
            ends: &mut self.ends,
            z: &mut self.z,
            m: &mut self.m,
            t: &mut self.t,
            tm: &mut self.tm,
        }
    }

    pub fn write(&mut self, state: &mut State, events: &[Event]) -> Result<(), Refusal> {
        events.iter().try_for_each(|e| state.event(&e.to_bytes(), &mut self.memory()))
    }

    /// A feature of a fresh writer, finished.
    pub fn feature(&mut self, state: &mut State, events: &[Event]) {
        self.write(state, events).unwrap();
        state.finish(&mut self.memory()).unwrap();
    }

    pub fn read(&mut self, declared: u8, flags: u8) -> (Read, Vec<Event>) {
        let mut log = std::mem::take(&mut self.log);
        let feature = self.feature;
        let read = self.memory().tree().read(declared, flags, feature, &mut log);
        let events = Event::in_log(&log, read.count).collect();
        self.log = log;
        (read, events)
    }

    pub fn record(&self, n: usize) -> Record {
        let bytes = &self.table[64 * n..64 * n + 64];
        let word = |at: usize| u32::from_le_bytes(bytes[at..at + 4].try_into().unwrap());
        let list = |lane: usize| (bytes[1] >> lane & 1 == 1).then(|| (word(4 + 8 * lane), word(8 + 8 * lane)));
        Record { kind: bytes[0], xy: list(0), ends: list(1), parts: list(6) }
    }

    pub fn put_record(&mut self, n: usize, kind: u8, lists: &[(usize, u32, u32)]) {
        let bytes = &mut self.table[64 * n..64 * n + 64];
        bytes.fill(0);
        bytes[0] = kind;
        for &(lane, start, count) in lists {
            bytes[1] |= 1 << lane;
            bytes[4 + 8 * lane..8 + 8 * lane].copy_from_slice(&start.to_le_bytes());
            bytes[8 + 8 * lane..12 + 8 * lane].copy_from_slice(&count.to_le_bytes());
        }
    }
}

/// The lanes of a record's lists.
pub const XY: usize = 0;
pub const ENDS: usize = 1;
pub const PARTS: usize = 6;

pub fn pairs(count: u32) -> Vec<Pair> {
    (0..count).map(|i| (i as f64, 100.0 - i as f64)).collect()
}

pub fn line(tagged: bool, idx: u32, pairs: &[Pair]) -> Vec<Event> {
    let mut events = vec![Event::begin(FEATURE, geometry_type::LINE_STRING, tagged, pairs.len() as u32, idx)];
    events.extend(pairs.iter().enumerate().map(|(i, &(x, y))| Event::xy(FEATURE, x, y, i as u32)));
    events.push(Event::end(FEATURE, geometry_type::LINE_STRING, tagged, idx));
    events
}

pub fn framed(kind: u8, tagged: bool, idx: u32, parts: &[Vec<Event>]) -> Vec<Event> {
    let mut events = vec![Event::begin(FEATURE, kind, tagged, parts.len() as u32, idx)];
    events.extend(parts.iter().flatten());
    events.push(Event::end(FEATURE, kind, tagged, idx));
    events
}

pub fn polygon(tagged: bool, idx: u32, rings: &[Vec<Pair>]) -> Vec<Event> {
    let rings: Vec<_> = rings.iter().enumerate().map(|(i, ring)| line(false, i as u32, ring)).collect();
    framed(geometry_type::POLYGON, tagged, idx, &rings)
}

/// The same events, of a feature of that number.
pub fn numbered(feature: u32, events: &[Event]) -> Vec<Event> {
    events.iter().map(|e| Event { feature, ..*e }).collect()
}

pub fn point_begin(idx: u32) -> Event {
    Event::begin(FEATURE, geometry_type::POINT, false, 0, idx)
}

pub fn kinds(events: &[Event]) -> Vec<u8> {
    events.iter().map(|e| e.kind).collect()
}

pub const LINE_END: u8 = geometry_type::LINE_STRING + event::END;
