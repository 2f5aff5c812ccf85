//! The box that the crate's writer keeps in its field `bbox`, and the pairs that it is over.
//!
//! The crate empties its box (`reset_bbox`) where a begin sets a type, and goes by what it was given since; a finish leaves it. A
//! tree's box goes by the pairs of the finished tree. The two are over the same pairs, and so must agree bit for bit, just where the
//! pairs accepted since the box was last emptied are the xy lists of the tree's records, joined in walk order. They are not where
//! pairs came before the last begin that empties (two lines in one feature), were carried in from an earlier feature, or are left
//! pending behind the parts.
use crate::boxes::{bounds, edges, Edges};
use crate::make::records::TAGGED_TYPES;
use crate::rows::COLLECTION;
use original::events::u64_at;
use original::tree::Store;

const COLLECTION_BEGIN: u8 = 7;
const FIRST_END: u8 = 33;
const PAIR: u8 = 64;

/// The words of the pairs that were accepted since the crate last emptied its box.
#[derive(Default)]
pub struct KeptBox(Vec<u64>);

impl KeptBox {
    /// An event that the crate has accepted, and its mode before and after.
    pub fn take(&mut self, event: &[u8], before: u8, after: u8) {
        if event[0] >= PAIR {
            self.0.extend([u64_at(event, 16), u64_at(event, 24)]);
        } else if empties(event, before, after) {
            self.0.clear();
        }
    }

    /// The crate's box where a finished tree's must be the same. It is held to the pairs first, so that this module's reading of
    /// `reset_bbox` is the crate's own.
    pub fn beside(&self, tree: &Store, kept: Edges) -> Result<Option<Edges>, String> {
        let over = edges(&bounds(&self.0));
        if kept != over {
            return Err(format!("the Rust keeps the box {kept:x?}; over the pairs since it was emptied it is {over:x?}"));
        }
        Ok((self.0 == tree.pools[0]).then_some(kept))
    }
}

/// Whether a begin sets a type, all but an untagged LineString's, Polygon's or Triangle's, and the mode is then not that of a
/// collection. A collection's own begin sets that mode only after it has emptied the box.
fn empties(event: &[u8], before: u8, after: u8) -> bool {
    let (kind, tagged) = (event[0], event[1] != 0);
    let sets_type = kind < FIRST_END && (tagged || !TAGGED_TYPES.contains(&kind));
    let mode = if kind == COLLECTION_BEGIN { before } else { after };
    sets_type && mode != COLLECTION
}
