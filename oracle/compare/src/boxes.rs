//! Boxes of records with all their parts (SPEC 8), by a reading that is not the library's.
//!
//! The library walks down from one record, and remembers of each the deepest level at which it was walked through. Here every
//! record's box is taken at every level, from the deepest up: at level 17 there is nothing but 13; at each level above, a record
//! that is bad gives 10, and any other its own pairs' box, joined in order by its parts' boxes one level below, or the first refusal
//! among them. The boxes are the crate's own `NodeItem`: its `expand_xy` takes in a pair, its `expand` a box.
use original::answer::{BAD_RECORD, DONE, TOO_DEEP};
use original::packed_r_tree::NodeItem;
use original::tree::{Store, MOST_LEVELS};
use std::ops::Range;

/// Four edges as bit patterns, in the order of SPEC 8.1.
pub type Edges = [u64; 4];

/// The box of a record's own pairs, and its parts; or that the record is bad.
type Own = Result<(NodeItem, Range<usize>), u8>;

/// A record's box, or the refusal that stands in its place.
type Outcome = Result<NodeItem, u8>;

/// The box of each record of a table, that record being level 1.
pub struct Boxes {
    outcomes: Vec<Outcome>,
    /// How many numbers the parts lists of all records hold.
    places: usize,
}

impl Boxes {
    pub fn of(store: &Store) -> Boxes {
        let records: Vec<Own> = (0..store.records()).map(|n| own(store, n)).collect();
        let mut outcomes = vec![Err(TOO_DEEP); records.len()];
        for _ in 0..MOST_LEVELS {
            outcomes = records.iter().map(|record| one_level_up(record, &outcomes)).collect();
        }
        Boxes { outcomes, places: records.iter().flatten().map(|(_, parts)| parts.len()).sum() }
    }

    /// The number, and the edges, which with a refusal are those that a box begins with.
    pub fn answer(&self, n: u32) -> (u8, Edges) {
        match self.outcomes.get(n as usize).unwrap_or(&Err(BAD_RECORD)) {
            Ok(bounds) => (DONE, edges(bounds)),
            Err(number) => (*number, edges(&NodeItem::create(0))),
        }
    }

    /// The records to ask for their boxes: all. But a walk may come to every place in a parts list, so of the tables that are shared
    /// the worst it is a spread: some from every stretch of the table, and all of the last, whose walks are short enough to be done.
    pub fn asked(&self) -> impl Iterator<Item = u32> {
        let records = self.outcomes.len();
        let step = if records * self.places <= MOST_PLACES_COME_TO { 1 } else { records.div_ceil(SPREAD) };
        (0..records).filter(move |n| n % step == 0 || n + LAST >= records).map(|n| n as u32)
    }
}

const MOST_PLACES_COME_TO: usize = 1 << 25;
const SPREAD: usize = 32;
const LAST: usize = 2 * MOST_LEVELS;

fn own(store: &Store, n: usize) -> Own {
    let (words, parts) = store.xy_and_parts(n).ok_or(BAD_RECORD)?;
    Ok((bounds(words), parts))
}

fn one_level_up(record: &Own, below: &[Outcome]) -> Outcome {
    let (mut joined, parts) = record.clone()?;
    for part in &below[parts] {
        joined.expand(part.as_ref().map_err(|number| *number)?);
    }
    Ok(joined)
}

/// The crate's box over pairs of words; an odd last word is left out.
pub fn bounds(words: &[u64]) -> NodeItem {
    let mut bounds = NodeItem::create(0);
    for pair in words.chunks_exact(2) {
        bounds.expand_xy(f64::from_bits(pair[0]), f64::from_bits(pair[1]));
    }
    bounds
}

pub fn edges(bounds: &NodeItem) -> Edges {
    [bounds.min_x, bounds.min_y, bounds.max_x, bounds.max_y].map(f64::to_bits)
}
