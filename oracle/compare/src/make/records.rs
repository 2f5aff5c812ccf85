//! Event and geometry records (SPEC 3.2, 3.5), made.
use original::tree::{put_list, Store};

pub const TYPES: [u8; 15] = [1, 2, 3, 4, 5, 6, 7, 8, 9, 10, 11, 12, 15, 16, 17];
pub const TAGGED_TYPES: [u8; 3] = [2, 3, 17];

pub fn begin(kind: u8, tagged: u8, size: u32, idx: u32) -> [u8; 64] {
    let mut event = [0; 64];
    event[0] = kind;
    event[1] = tagged;
    event[4..8].copy_from_slice(&size.to_le_bytes());
    event[8..12].copy_from_slice(&idx.to_le_bytes());
    event
}

pub fn end(kind: u8, tagged: u8, idx: u32) -> [u8; 64] {
    begin(kind + 32, tagged, 0, idx)
}

pub fn xy(x: u64, y: u64, idx: u32) -> [u8; 64] {
    let mut event = begin(64, 0, 0, idx);
    event[16..24].copy_from_slice(&x.to_le_bytes());
    event[24..32].copy_from_slice(&y.to_le_bytes());
    event
}

/// Values by their present bits; those absent are not looked at.
pub fn coordinate(x: u64, y: u64, present: u8, values: [u64; 4], idx: u32) -> [u8; 64] {
    let mut event = xy(x, y, idx);
    event[0] = 65;
    event[2] = present;
    for (i, value) in values.into_iter().enumerate() {
        if present & 1 << i != 0 {
            event[32 + 8 * i..40 + 8 * i].copy_from_slice(&value.to_le_bytes());
        }
    }
    event
}

/// A geometry with its own lists and parts.
#[derive(Clone, Default)]
pub struct Node {
    pub kind: u8,
    pub lists: [Option<Vec<u64>>; 6],
    pub parts: Option<Vec<Node>>,
}

/// Table and pools of a tree, breadth first, each list after some words that belong to none.
pub fn laid(root: Node, mut gap: impl FnMut() -> usize) -> Store {
    let mut store = Store::default();
    let mut nodes = vec![root];
    let mut n = 0;
    while n < nodes.len() {
        let Node { kind, lists, parts } = std::mem::take(&mut nodes[n]);
        let mut record = [0; 64];
        record[0] = kind;
        for (i, list) in lists.into_iter().enumerate() {
            if let Some(words) = list {
                let pool = &mut store.pools[i];
                pool.resize(pool.len() + gap(), 0xDEAD_BEEF);
                put_list(&mut record, i, pool.len(), words.len());
                pool.extend(words);
            }
        }
        if let Some(parts) = parts {
            put_list(&mut record, 6, nodes.len(), parts.len());
            nodes.extend(parts);
        }
        store.table.extend_from_slice(&record);
        n += 1;
    }
    store
}
