//! A tree read by the crate, with the numbers of SPEC 5.1.
//!
//! The crate's: every event, every number from 1 to 4, and the place of every refusal. A panic on an index is 7, on a subtraction
//! 8. SPEC's: which record is bad (10) or too deep (13) is judged while the tree is built; where the reading comes to it is
//! the crate's. An end of 2^31 or more (8) is judged there too. The full log (9) is the unbounded reading's events, cut.
use crate::answer::{caught, number, BAD_END, BAD_RECORD, DONE, LOG_FULL, PAST_LIST, UNKNOWN};
use crate::events::{u32_at, Log};
use crate::geometry_reader::read_geometry;
use crate::header_generated::GeometryType;
use crate::tree::{geometry_of, number_of_shut, Store, MARKED_SIZE};

pub const MOST_EVENTS: usize = 1 << 20;

pub struct Reading {
    pub number: u8,
    pub events: Vec<u8>,
    /// The crate's own words where it refused.
    pub words: String,
}

pub fn read(store: &Store, declared: u8, flags: u8) -> Reading {
    // The crate may speak before it looks at the root; here it is judged first (SPEC 7.3).
    if store.is_bad(0) {
        return Reading { number: BAD_RECORD, events: vec![], words: String::new() };
    }
    read_feature(&store.to_feature(), declared, flags)
}

/// Reads the bytes of a Feature with a geometry.
pub fn read_feature(feature: &[u8], declared: u8, flags: u8) -> Reading {
    let mut log = Log::new(flags, MOST_EVENTS);
    let answer = caught(|| read_geometry(&mut log, &geometry_of(feature), GeometryType(declared)));
    let mut events = log.bytes;
    let (number, words) = match answer {
        Ok(Ok(())) => (DONE, String::new()),
        Ok(Err(error)) => (number(&error), format!("{error:?}")),
        Err(words) => (number_of_panic(&words, feature), words),
    };
    if let Some(begin) = marked_begin(&events) {
        events.truncate(begin);
        return Reading { number: BAD_END, events, words };
    }
    Reading { number, events, words }
}

fn number_of_panic(words: &str, feature: &[u8]) -> u8 {
    if words.contains("idx < self.len()") {
        PAST_LIST
    } else if words.starts_with("attempt to subtract with overflow") {
        BAD_END
    } else {
        number_of_shut(words, feature).unwrap_or(UNKNOWN)
    }
}

/// The place of the begin of a line of that size: nothing but pairs comes after it.
fn marked_begin(events: &[u8]) -> Option<usize> {
    let last = (0..events.len()).step_by(64).rev().find(|at| events[*at] < 64)?;
    (u32_at(events, last + 4) == MARKED_SIZE).then_some(last)
}

impl Reading {
    /// As it is with room for so many events.
    pub fn cut(&self, room: usize) -> (u8, &[u8]) {
        if self.events.len() / 64 > room {
            (LOG_FULL, &self.events[..64 * room])
        } else {
            (self.number, &self.events)
        }
    }
}
