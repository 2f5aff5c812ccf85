//! The proved library's calls, over memory that a test lends as long as it likes.
use bintolage::usable::STATE_WORDS;
use bintolage::{bare, Tree};
use original::tree::Store;
use std::ops::Range;

/// A writer's state, as the library keeps it.
pub use bintolage::StateWords as Words;

/// Everything that is lent to a writer: a table, six pools and a property buffer.
#[derive(Clone, Debug, PartialEq, Eq)]
pub struct Memory {
    pub table: Vec<u8>,
    pub xy: Vec<u64>,
    pub ends: Vec<u32>,
    /// z, m, t, tm.
    pub values: [Vec<u64>; 4],
    pub properties: Vec<u8>,
}

/// How much of a memory's table (bytes), pools (words) and property buffer (bytes) there is.
pub type Lengths = [usize; 8];
pub const TABLE: usize = 0;
pub const PROPERTIES: usize = 7;

impl Memory {
    pub fn new(held: Lengths) -> Memory {
        Memory {
            table: vec![0; held[TABLE]],
            xy: vec![0; held[1]],
            ends: vec![0; held[2]],
            values: std::array::from_fn(|i| vec![0; held[3 + i]]),
            properties: vec![0; held[PROPERTIES]],
        }
    }

    pub fn of(store: &Store) -> Memory {
        Memory {
            table: store.table.clone(),
            xy: store.pools[0].clone(),
            ends: store.pools[1].iter().map(|end| *end as u32).collect(),
            values: std::array::from_fn(|i| store.pools[2 + i].clone()),
            properties: vec![],
        }
    }

    /// Its lists as far as they are lent, which is no further than there is.
    fn lend(&mut self, lent: Lengths) -> bintolage::Memory<'_> {
        let [z, m, t, tm] = &mut self.values;
        bintolage::Memory {
            table: &mut self.table[..lent[TABLE]],
            xy: &mut self.xy[..lent[1]],
            ends: &mut self.ends[..lent[2]],
            z: &mut z[..lent[3]],
            m: &mut m[..lent[4]],
            t: &mut t[..lent[5]],
            tm: &mut tm[..lent[6]],
        }
    }

    /// The whole of them, to be read.
    fn tree(&self) -> Tree<'_> {
        let [z, m, t, tm] = &self.values;
        Tree { table: &self.table, xy: &self.xy, ends: &self.ends, z, m, t, tm }
    }

    /// A word of a pool, by the pool's number in SPEC's order.
    pub fn word(&self, pool: usize, at: usize) -> u64 {
        match pool {
            0 => self.xy[at],
            1 => self.ends[at].into(),
            _ => self.values[pool - 2][at],
        }
    }

    pub fn put_word(&mut self, pool: usize, at: usize, word: u64) {
        match pool {
            0 => self.xy[at] = word,
            1 => self.ends[at] = word as u32,
            _ => self.values[pool - 2][at] = word,
        }
    }

    pub fn move_to_front(&mut self, pool: usize, words: Range<usize>) {
        match pool {
            0 => self.xy.copy_within(words, 0),
            1 => self.ends.copy_within(words, 0),
            _ => self.values[pool - 2].copy_within(words, 0),
        }
    }
}

pub fn start(declared: u8, detect: bool, promote: bool) -> Words {
    let mut state = [0xC0DE_C0DE; STATE_WORDS];
    bare::start(&mut state, declared, detect, promote);
    state
}

pub fn event(state: &mut Words, event: &[u8], memory: &mut Memory, lent: Lengths) -> u8 {
    bare::event(state, event, &mut memory.lend(lent))
}

/// The number, and how many events were taken.
pub fn events(state: &mut Words, events: &[u8], memory: &mut Memory, lent: Lengths) -> (u8, usize) {
    let mut taken = 0xC0DE_C0DE;
    let number = bare::events(state, events, &mut memory.lend(lent), &mut taken);
    (number, taken)
}

/// The number, and the place in the text.
pub fn property(
    state: &mut Words,
    column: u32,
    column_type: u8,
    bits: u64,
    text: &[u8],
    memory: &mut Memory,
    lent: Lengths,
) -> (u8, usize) {
    let mut place = 0xC0DE_C0DE;
    let buffer = &mut memory.properties[..lent[PROPERTIES]];
    let number = bare::property(state, column, column_type, bits, text, buffer, &mut place);
    (number, place)
}

pub fn finish(state: &mut Words, memory: &mut Memory, lent: Lengths) -> u8 {
    bare::finish(state, &mut memory.lend(lent))
}

pub fn next(state: &mut Words, memory: &mut Memory, lent: Lengths) -> u8 {
    bare::next(state, &mut memory.lend(lent))
}

/// The number, and how many records the log has then.
pub fn read(memory: &Memory, declared: u8, flags: u8, feature: u32, log: &mut [u8]) -> (u8, u32) {
    let mut count = 0xC0DE_C0DE;
    let number = bare::read(memory.tree(), declared, flags, feature, log, &mut count);
    (number, count)
}

/// The number, and the four edges.
pub fn edges(memory: &Memory, n: u32) -> (u8, [u64; 4]) {
    let mut edges = [0xC0DE_C0DE; 4];
    let number = bare::bbox(memory.tree(), n, &mut edges);
    (number, edges)
}

/// The number, how many records the log has then, whether the reading stopped, and the place in a text.
#[derive(Debug, PartialEq, Eq)]
pub struct PropertiesRead {
    pub number: u8,
    pub count: u32,
    pub stopped: u8,
    pub place: usize,
}

pub fn read_properties(bytes: &[u8], columns: Option<&[u8]>, stop: u32, log: &mut [u8]) -> PropertiesRead {
    let (mut count, mut stopped, mut place) = (0xC0DE_C0DE, 0xC0, 0xC0DE_C0DE);
    let number = bare::read_properties(bytes, columns, stop, log, &mut count, &mut stopped, &mut place);
    PropertiesRead { number, count, stopped, place }
}
