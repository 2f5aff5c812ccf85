//! The proved library's writer with all the memory that it can use, and its readings.
use bintolage::usable::{GEOMETRY_BYTES, PROPERTY_BYTES, STATE_WORDS};
use bintolage::{bare, Memory, StateWords};
use original::tree::{Store, MOST_RECORDS, MOST_WORDS};

pub struct Port {
    state: StateWords,
    lists: Lists,
    properties: Vec<u8>,
}

struct Lists {
    table: Vec<u8>,
    xy: Vec<u64>,
    ends: Vec<u32>,
    /// z, m, t, tm.
    values: [Vec<u64>; 4],
}

impl Lists {
    fn lend(&mut self) -> Memory<'_> {
        let [z, m, t, tm] = &mut self.values;
        Memory { table: &mut self.table, xy: &mut self.xy, ends: &mut self.ends, z, m, t, tm }
    }
}

impl Port {
    pub fn new(declared: u8) -> Port {
        let mut state = [0; STATE_WORDS];
        bare::start(&mut state, declared, false, false);
        let lists = Lists {
            table: vec![0; GEOMETRY_BYTES * MOST_RECORDS],
            xy: vec![0; MOST_WORDS[0]],
            ends: vec![0; MOST_WORDS[1]],
            values: std::array::from_fn(|i| vec![0; MOST_WORDS[2 + i]]),
        };
        Port { state, lists, properties: vec![0; PROPERTY_BYTES] }
    }

    /// With a tree that was not written by it.
    pub fn holding(tree: Store) -> Port {
        let mut port = Port::new(0);
        let [xy, ..] = tree.pools;
        port.lists.table = tree.table;
        port.lists.xy = xy;
        port
    }

    pub fn event(&mut self, event: &[u8]) -> u8 {
        bare::event(&mut self.state, event, &mut self.lists.lend())
    }

    /// All of them in one call.
    pub fn events(&mut self, events: &[u8]) -> u8 {
        let mut taken = 0;
        bare::events(&mut self.state, events, &mut self.lists.lend(), &mut taken)
    }

    pub fn property(&mut self, column: u32, column_type: u8, bits: u64, text: &[u8]) -> u8 {
        let mut place = 0;
        bare::property(&mut self.state, column, column_type, bits, text, &mut self.properties, &mut place)
    }

    pub fn finish(&mut self) -> u8 {
        bare::finish(&mut self.state, &mut self.lists.lend())
    }

    pub fn next(&mut self) -> u8 {
        bare::next(&mut self.state, &mut self.lists.lend())
    }

    /// The finished tree, read under a feature's number, and how many records of events it gives.
    pub fn read(&mut self, declared: u8, flags: u8, feature: u32, log: &mut [u8]) -> usize {
        let mut count = 0;
        let number = bare::read(self.lists.lend().tree(), declared, flags, feature, log, &mut count);
        assert_eq!(number, 0, "a tree is read");
        count as usize
    }

    /// The edges of the box around the whole tree.
    pub fn edges(&mut self) -> [u64; 4] {
        let mut edges = [0; 4];
        let number = bare::bbox(self.lists.lend().tree(), 0, &mut edges);
        assert_eq!(number, 0, "a tree has a box");
        edges
    }

    /// Whether a tree is what this memory begins with.
    pub fn begins_with(&self, tree: &Store) -> bool {
        let [xy, ends, values @ ..] = &tree.pools;
        self.lists.table.starts_with(&tree.table)
            && self.lists.xy.starts_with(xy)
            && ends.iter().zip(&self.lists.ends).all(|(theirs, ours)| *theirs == u64::from(*ours))
            && self.lists.values.iter().zip(values).all(|(ours, theirs)| ours.starts_with(theirs))
    }

    pub fn property_bytes(&self, length: usize) -> &[u8] {
        &self.properties[..length]
    }
}

/// How many records of events well-known binary gives, read under a feature's number.
pub fn read_wkb(bytes: &[u8], feature: u32, log: &mut [u8]) -> usize {
    let mut count = 0;
    let number = bare::read_wkb(bytes, feature, log, &mut count);
    assert_eq!(number, 0, "well-known binary is read");
    count as usize
}

/// The answer to a list of events, and how many bytes of well-known binary were written.
pub fn write_wkb(events: &[u8], out: &mut [u8]) -> (u8, usize) {
    let mut written = 0;
    let number = bare::write_wkb(events, out, &mut written);
    (number, written)
}

/// How many value records there are.
pub fn read_properties(bytes: &[u8], columns: &[u8], log: &mut [u8]) -> usize {
    const NO_STOP: u32 = 65536;
    let (mut count, mut stopped, mut place) = (0, 0, 0);
    let number = bare::read_properties(bytes, Some(columns), NO_STOP, log, &mut count, &mut stopped, &mut place);
    assert_eq!(number, 0, "property bytes are read");
    count as usize
}
