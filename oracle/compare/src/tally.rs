//! What a run has compared: how many of each sort, and what they covered.
use original::answer::{
    BAD_RECORD, COLUMN_TOO_LARGE, DONE, LOG_FULL, MALFORMED, NOT_ITS_TURN, NO_ROOM, OTHER_FEATURE, TEXT_NOT_UTF8, TOO_DEEP,
    TYPES_MIXED,
};
use std::collections::{BTreeMap, BTreeSet};
use std::fmt;

#[derive(Clone, Copy, Debug, PartialEq, Eq, PartialOrd, Ord)]
pub enum Asked {
    Event,
    Events,
    Property,
    Finish,
    Next,
    Read,
    ReadProperties,
    Box,
}

#[derive(Default)]
pub struct Tally {
    pub rows: u64,
    pub reads: u64,
    pub lists: u64,
    pub boxes: u64,
    pub extents: u64,
    pub calls: u64,
    kept_boxes: u64,
    kept_boxes_over_parts: u64,
    numbers: BTreeMap<(Asked, u8), u64>,
    modes: BTreeMap<(u8, u8), u64>,
    types_written: BTreeSet<u8>,
    types_read: BTreeSet<u8>,
    /// Of the events that were refused with 17.
    kinds_of_others: BTreeSet<u8>,
    /// A number that was given, and one behind it in the order that was due too.
    orders: BTreeSet<(u8, u8)>,
    written_under: Features,
    read_under: Features,
    /// Of every property that was written, and of every list that was read.
    places: u64,
    /// Of the texts that were refused with 6.
    bad_texts: BTreeMap<(Asked, Whereabouts), u64>,
}

/// Where a text went bad: at its first byte, behind it, or past what 16 bits count.
#[derive(Clone, Copy, Debug, PartialEq, Eq, PartialOrd, Ord)]
enum Whereabouts {
    First,
    Behind,
    Far,
}

/// How often a feature's number was each of `FEATURES`, and how often any other.
#[derive(Default)]
struct Features([u64; 4]);

const FEATURES: [u32; 3] = [0, 1, u32::MAX];
const BOX_NUMBERS: [u8; 3] = [DONE, BAD_RECORD, TOO_DEEP];
/// Where 17 stands in the order 11, 15, 17, 5, 12; and 6, without which there is no place, in the order 15, 16, 6, 12 of writing, and
/// behind a full log.
const ORDERS: [(u8, u8); 8] = [
    (MALFORMED, OTHER_FEATURE),
    (NOT_ITS_TURN, OTHER_FEATURE),
    (OTHER_FEATURE, TYPES_MIXED),
    (OTHER_FEATURE, NO_ROOM),
    (NOT_ITS_TURN, TEXT_NOT_UTF8),
    (COLUMN_TOO_LARGE, TEXT_NOT_UTF8),
    (TEXT_NOT_UTF8, NO_ROOM),
    (LOG_FULL, TEXT_NOT_UTF8),
];
/// Property bytes that are read end before a text can go bad so far.
const BAD_TEXTS: [(Asked, Whereabouts); 5] = [
    (Asked::Property, Whereabouts::First),
    (Asked::Property, Whereabouts::Behind),
    (Asked::Property, Whereabouts::Far),
    (Asked::ReadProperties, Whereabouts::First),
    (Asked::ReadProperties, Whereabouts::Behind),
];
const MODES: [&str; 3] = ["Normal", "GeometryCollection", "ForceMulti"];

impl Tally {
    pub fn compared(&self) -> u64 {
        self.rows + self.reads + self.lists
    }

    pub fn answered(&mut self, asked: Asked, number: u8) {
        *self.numbers.entry((asked, number)).or_default() += 1;
    }

    pub fn mode_changed(&mut self, from: u8, to: u8) {
        *self.modes.entry((from, to)).or_default() += 1;
    }

    pub fn written(&mut self, kind: u8) {
        self.types_written.insert(kind);
    }

    pub fn read(&mut self, kind: u8) {
        self.types_read.insert(kind);
    }

    pub fn other_feature(&mut self, kind: u8) {
        self.kinds_of_others.insert(kind);
    }

    pub fn came_before(&mut self, number: u8, due_too: u8) {
        self.orders.insert((number, due_too));
    }

    pub fn has_come_before(&self, number: u8, due_too: u8) -> bool {
        self.orders.contains(&(number, due_too))
    }

    /// A feature that was finished, with the number that was held, if any was.
    pub fn written_under(&mut self, feature: Option<u32>) {
        feature.into_iter().for_each(|feature| self.written_under.count(feature));
    }

    pub fn read_under(&mut self, feature: u32) {
        self.read_under.count(feature);
    }

    /// A place that was compared, and the number that it came with.
    pub fn placed(&mut self, asked: Asked, number: u8, place: usize) {
        self.places += 1;
        if number == TEXT_NOT_UTF8 {
            *self.bad_texts.entry((asked, Whereabouts::of(place))).or_default() += 1;
        }
    }

    /// A finished feature's box beside the one that the Rust's writer kept.
    pub fn kept_box(&mut self, has_parts: bool) {
        self.kept_boxes += 1;
        self.kept_boxes_over_parts += u64::from(has_parts);
    }

    /// SPEC's refusals, types and changes of mode that no input came to, the answers that a box must have had, boxes that were to be
    /// held to another's, and what there is to see of features' numbers and of texts that are not UTF-8.
    pub fn missing(&self) -> Vec<String> {
        let mut missing = vec![];
        let answered = |number| self.numbers.keys().any(|(_, given)| *given == number);
        missing.extend((0..=17).filter(|number| !answered(*number)).map(|number| format!("number {number}")));
        let types = (1..=17u8).filter(|kind| !matches!(kind, 13 | 14));
        missing.extend(types.clone().filter(|kind| !self.types_written.contains(kind)).map(|kind| format!("type {kind} written")));
        missing.extend((0..=255u8).filter(|kind| !self.types_read.contains(kind)).map(|kind| format!("type {kind} read")));
        let changes = [(0, 1), (0, 2), (1, 0), (1, 2), (2, 0), (2, 1)];
        missing.extend(changes.iter().filter(|change| !self.modes.contains_key(change)).map(|change| format!("mode {change:?}")));
        let boxed = |number: &u8| self.numbers.contains_key(&(Asked::Box, *number));
        missing.extend(BOX_NUMBERS.iter().filter(|number| !boxed(number)).map(|number| format!("number {number} of a box")));
        let others = [("box over parts that the Rust kept", self.kept_boxes_over_parts), ("extent of GDAL's", self.extents)];
        missing.extend(others.iter().filter(|(_, compared)| *compared == 0).map(|(what, _)| what.to_string()));
        let refused = |asked: &Asked| self.numbers.contains_key(&(*asked, OTHER_FEATURE));
        let askeds = [Asked::Event, Asked::Events];
        missing.extend(askeds.iter().filter(|asked| !refused(asked)).map(|asked| format!("number {OTHER_FEATURE} of {asked:?}")));
        let kinds = types.flat_map(|kind| [kind, kind + 32]).chain([64, 65]).filter(|kind| !self.kinds_of_others.contains(kind));
        missing.extend(kinds.map(|kind| format!("kind {kind} of another feature")));
        let orders = ORDERS.iter().filter(|order| !self.orders.contains(order));
        missing.extend(orders.map(|(number, due_too)| format!("{number} where {due_too} is due too")));
        missing.extend(self.written_under.missing().map(|feature| format!("a feature {feature} written")));
        missing.extend(self.read_under.missing().map(|feature| format!("a reading under {feature}")));
        let bad_texts = BAD_TEXTS.iter().filter(|bad| !self.bad_texts.contains_key(bad));
        missing.extend(bad_texts.map(|(asked, at)| format!("{asked:?} of a text that is not UTF-8 {at}")));
        missing
    }
}

impl Whereabouts {
    fn of(place: usize) -> Whereabouts {
        match place {
            0 => Whereabouts::First,
            1..=65_535 => Whereabouts::Behind,
            _ => Whereabouts::Far,
        }
    }
}

impl fmt::Display for Whereabouts {
    fn fmt(&self, to: &mut fmt::Formatter) -> fmt::Result {
        to.write_str(match self {
            Whereabouts::First => "at 0",
            Whereabouts::Behind => "from 1 on",
            Whereabouts::Far => "from 65536 on",
        })
    }
}

impl Features {
    fn count(&mut self, feature: u32) {
        self.0[FEATURES.iter().position(|listed| *listed == feature).unwrap_or(FEATURES.len())] += 1;
    }

    fn each(&self) -> impl Iterator<Item = (String, u64)> + '_ {
        let names = FEATURES.iter().map(u32::to_string).chain(["another number".into()]);
        names.zip(self.0)
    }

    fn missing(&self) -> impl Iterator<Item = String> + '_ {
        self.each().filter(|(_, times)| *times == 0).map(|(name, _)| name)
    }
}

impl fmt::Display for Features {
    fn fmt(&self, to: &mut fmt::Formatter) -> fmt::Result {
        self.each().try_for_each(|(name, times)| write!(to, "  {name}: {times}"))
    }
}

impl fmt::Display for Tally {
    fn fmt(&self, to: &mut fmt::Formatter) -> fmt::Result {
        writeln!(to, "rows {}, reads {}, property lists {}, together {}", self.rows, self.reads, self.lists, self.compared())?;
        writeln!(to, "calls in rows {}, boxes {}", self.calls, self.boxes)?;
        let (kept, over_parts) = (self.kept_boxes, self.kept_boxes_over_parts);
        writeln!(to, "boxes that the Rust kept {kept}, of them over parts {over_parts}; GDAL's extents {}", self.extents)?;
        let mut last = None;
        for ((asked, number), count) in &self.numbers {
            if last != Some(asked) {
                write!(to, "{}{asked:?} answered", if last.is_some() { "\n" } else { "" })?;
            }
            write!(to, "  {number}: {count}")?;
            last = Some(asked);
        }
        write!(to, "\nmodes")?;
        for ((from, mode), count) in &self.modes {
            write!(to, "  {} to {}: {count}", MODES[usize::from(*from)], MODES[usize::from(*mode)])?;
        }
        writeln!(to, "\nfeatures written under{}", self.written_under)?;
        writeln!(to, "readings under{}", self.read_under)?;
        write!(to, "places in texts {}; not UTF-8", self.places)?;
        for ((asked, at), count) in &self.bad_texts {
            write!(to, "  {asked:?} {at}: {count}")?;
        }
        writeln!(to)
    }
}
