//! Tables in which parts are shared, come to at several levels, bad, or too deep: what a box can meet on its way (SPEC 7.4, 8).
//!
//! Where a table is large its records are Points, so that a reading says nothing of their parts; a box goes by the parts of every type.
use super::numbers::number;
use crate::input::{Input, Tree};
use original::tree::{put_list, Store, MOST_LEVELS, MOST_RECORDS};
use std::ops::Range;

const POINT: u8 = 1;
const COLLECTION: u8 = 7;

pub fn each(give: &mut dyn FnMut(Input)) {
    chains(give);
    come_to_twice(give);
    refused_branches(give);
    layers(give);
    layers_to_the_end(give);
    ladders(give);
}

fn tree(give: &mut dyn FnMut(Input), store: Store) {
    let feature = number(store.records());
    give(Input::Tree(Tree { store, declared: 0, flags: 0, feature, cut: 5 }));
}

/// One record in the other, to the last level, past it, and far past it.
fn chains(give: &mut dyn FnMut(Input)) {
    for length in [MOST_LEVELS - 1, MOST_LEVELS, MOST_LEVELS + 1, 3 * MOST_LEVELS] {
        tree(give, Links::layers(length, 1).store(POINT));
        tree(give, Links::layers(length, 1).store(COLLECTION));
    }
}

/// A chain that is come to at one level and then at another: near the root first and then so deep that it passes level 16, the other
/// way round, and never so deep.
fn come_to_twice(give: &mut dyn FnMut(Input)) {
    for (first, second) in both(1..MOST_LEVELS - 1) {
        for length in 1..MOST_LEVELS - 1 {
            let mut links = Links::branches(&[first, second]);
            (0..length).for_each(|_| links.continue_all(1));
            tree(give, links.store(POINT));
            tree(give, links.store(COLLECTION));
        }
    }
}

fn both(numbers: Range<usize>) -> impl Iterator<Item = (usize, usize)> {
    numbers.clone().flat_map(move |first| numbers.clone().map(move |second| (first, second)))
}

/// Two branches, either of which may be well, end in a bad record (at level 2, at 16, or at 17, where it is not judged), or end well at
/// level 17: the first refusal in their order is the answer.
fn refused_branches(give: &mut dyn FnMut(Input)) {
    let lengths = [1, MOST_LEVELS - 1, MOST_LEVELS];
    for (first, second) in both(0..2 * lengths.len()) {
        let links = Links::branches(&[lengths[first / 2], lengths[second / 2]]);
        for kind in [POINT, COLLECTION] {
            let mut store = links.store(kind);
            for (branch, sort) in [first, second].into_iter().enumerate() {
                let spare = 64 * links.last_of(branch) + 2;
                store.table[spare] = (sort % 2) as u8;
            }
            tree(give, store);
        }
    }
}

/// Every record of a layer has the whole next layer for its parts: as many ways lead to the last layer as a table allows; and one layer
/// too many.
fn layers(give: &mut dyn FnMut(Input)) {
    for count in [MOST_LEVELS, MOST_LEVELS + 1] {
        tree(give, Links::layers(count, 2).store(COLLECTION));
        tree(give, Links::layers(count, MOST_RECORDS / count).store(POINT));
    }
}

/// Parts that go on to the table's end: each record is come to at many levels, and where the layers are more than 16 every walk from
/// the first ones meets level 17. Record 0 of a large table has no parts, since the Rust is given its tree once for each level.
fn layers_to_the_end(give: &mut dyn FnMut(Input)) {
    for (count, width) in [(MOST_LEVELS, 1), (2 * MOST_LEVELS, 1), (6, 3)] {
        tree(give, Links::layers(count, width).reaching_the_end().store(COLLECTION));
    }
    for (count, width) in [(MOST_LEVELS, MOST_RECORDS / MOST_LEVELS), (MOST_RECORDS, 1)] {
        let mut links = Links::layers(count, width).reaching_the_end();
        links.0[0] = NONE;
        tree(give, links.store(POINT));
    }
}

/// Branches of every length to the same layers, the shorter first: they are come to at each level anew, always deeper than before; and
/// the longer first.
fn ladders(give: &mut dyn FnMut(Input)) {
    let longest = MOST_LEVELS - 4;
    for lengths in [(1..=longest).collect::<Vec<_>>(), (1..=longest).rev().collect(), (1..=longest + 1).collect()] {
        for width in [2, 600] {
            let mut links = Links::branches(&lengths);
            (0..3).for_each(|_| links.continue_all(width));
            tree(give, links.store(POINT));
        }
    }
}

/// By record, the numbers of its parts.
struct Links(Vec<Range<usize>>);

const NONE: Range<usize> = 0..0;

impl Links {
    fn layers(count: usize, width: usize) -> Links {
        let mut links = Links(vec![NONE; width]);
        (1..count).for_each(|_| links.continue_all(width));
        links
    }

    /// A root with so many branches, each a chain of so many records.
    fn branches(lengths: &[usize]) -> Links {
        let mut links = Links(vec![NONE]);
        links.continue_all(lengths.len());
        for (branch, length) in lengths.iter().enumerate() {
            for _ in 1..*length {
                let last = links.last_of(branch);
                links.0[last] = links.0.len()..links.0.len() + 1;
                links.0.push(NONE);
            }
        }
        links
    }

    /// All records without parts have so many new records for theirs.
    fn continue_all(&mut self, width: usize) {
        let next = self.0.len()..self.0.len() + width;
        for parts in &mut self.0 {
            if *parts == NONE {
                *parts = next.clone();
            }
        }
        self.0.resize(next.end, NONE);
    }

    fn reaching_the_end(mut self) -> Links {
        let records = self.0.len();
        for parts in &mut self.0 {
            if *parts != NONE {
                parts.end = records;
            }
        }
        self
    }

    /// The last record of a branch, that one being a chain.
    fn last_of(&self, branch: usize) -> usize {
        let mut last = 1 + branch;
        while self.0[last] != NONE {
            last = self.0[last].start;
        }
        last
    }

    /// Records of one type, each with a pair that stands farther out than those before it.
    fn store(&self, kind: u8) -> Store {
        let mut store = Store::default();
        for (n, parts) in self.0.iter().enumerate() {
            let mut record = [0; 64];
            record[0] = kind;
            put_list(&mut record, 0, 2 * n, 2);
            if *parts != NONE {
                put_list(&mut record, 6, parts.start, parts.len());
            }
            store.table.extend_from_slice(&record);
            store.pools[0].extend([n as f64, -(n as f64)].map(f64::to_bits));
        }
        store
    }
}
