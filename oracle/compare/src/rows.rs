//! Rows of calls to the two writers.
//!
//! The Rust's: whether types mix (5), the place of a text that is not UTF-8, the state after a call, every word and property byte laid
//! down, every finished tree, and the box that its writer keeps, where a finished tree's must be the same (`kept_box`).
//! SPEC's, by the small model here: 11, 15, 17, 16, 6 and 12, the feature's number that is held, where a part's lists stand before the
//! tree is finished (the finished tree is then compared with the Rust's), where the pending lists begin, and that all else stays as
//! it was.
use crate::boxes::Edges;
use crate::input::{Call, Row, What};
use crate::kept_box::KeptBox;
use crate::port::{self, Lengths, Memory, Words, PROPERTIES, TABLE};
use crate::tally::{Asked, Tally};
use bintolage::usable::STATE_WORDS;
use original::answer::{COLUMN_TOO_LARGE, DONE, MALFORMED, NOT_ITS_TURN, NO_ROOM, OTHER_FEATURE, TEXT_NOT_UTF8, TYPES_MIXED};
use original::events::{feature_of, is_malformed};
use original::feature_writer::peek::State;
use original::properties::{value, WIDTHS};
use original::tree::{put_list, Store, ENDS, MOST_RECORDS, MOST_WORDS};
use original::writing::Writer;

const MOST_PROPERTY_BYTES: usize = 65536;
pub const COLLECTION: u8 = 1;
const FORCE_MULTI: u8 = 2;

/// A feature's number (0 where none was held), its tree, and the box that the Rust keeps of it where the root's must be the same.
pub struct Finished {
    pub number: u32,
    pub tree: Store,
    pub kept_box: Option<Edges>,
}

/// Compares a row, and gives the features that were finished.
pub fn compare(row: &Row, tally: &mut Tally) -> Result<Vec<Finished>, String> {
    let mut session = Session::new(row);
    session.check("start", DONE, DONE)?;
    for (i, call) in row.calls.iter().enumerate() {
        session.call(call, tally).map_err(|words| format!("call {i}: {words}"))?;
    }
    tally.rows += 1;
    Ok(session.finished)
}

struct Session<'r> {
    row: &'r Row,
    rust: Writer,
    /// What the Rust has been given, to ask a writer like it something without changing it.
    given: Vec<&'r What>,
    words: Words,
    memory: Memory,
    /// As the memory must be.
    expected: Memory,
    /// Where each pending list begins.
    start: [usize; 6],
    /// The parts and property bytes of a finished feature that waits.
    waiting: Option<(usize, usize)>,
    /// The number of the first event that was taken since start or next.
    held: Option<u32>,
    noise: u64,
    kept_box: KeptBox,
    finished: Vec<Finished>,
}

/// What an event adds: words to each pool, then perhaps a part.
struct Additions {
    words: [usize; 6],
    part: bool,
}

fn additions(event: &[u8], mode: u8) -> Additions {
    let (kind, untagged) = (event[0], event[1] == 0);
    let mut words = [0; 6];
    if kind >= 64 {
        words[0] = 2;
        (0..4).for_each(|i| words[2 + i] = usize::from(event[2] >> i & 1));
    }
    words[ENDS] = usize::from(kind == 34 && (untagged || mode == FORCE_MULTI));
    let part = match kind {
        33 | 34 => mode == COLLECTION,
        35 => untagged || mode == COLLECTION || mode == FORCE_MULTI,
        _ => false,
    };
    Additions { words, part }
}

/// The bytes that a property takes, its column's two among them.
fn property_size(kind: u8, text: &[u8]) -> usize {
    2 + WIDTHS.get(usize::from(kind)).map_or(4 + text.len(), |width| *width as usize)
}

/// What a text that is not UTF-8 covers: the number that came before, or that there was no room for it either.
fn tally_bad_text(first: Option<u8>, has_room: bool, tally: &mut Tally) {
    match first {
        Some(number) => tally.came_before(number, TEXT_NOT_UTF8),
        None if !has_room => tally.came_before(TEXT_NOT_UTF8, NO_ROOM),
        None => {}
    }
}

impl<'r> Session<'r> {
    fn new(row: &'r Row) -> Session<'r> {
        let memory = Memory::new(row.held);
        Session {
            row,
            rust: Writer::new(row.declared, row.detect, row.promote),
            given: vec![],
            words: port::start(row.declared, row.detect, row.promote),
            expected: memory.clone(),
            memory,
            start: [0; 6],
            waiting: None,
            held: None,
            noise: 0x9E37_79B9_7F4A_7C15,
            kept_box: KeptBox::default(),
            finished: vec![],
        }
    }

    fn call(&mut self, call: &'r Call, tally: &mut Tally) -> Result<(), String> {
        if self.row.scrambled {
            self.scramble();
        }
        let lent = self.lent(call);
        tally.calls += 1;
        let (asked, expected, answered) = match &call.what {
            What::Event { bytes, times } => {
                let mut numbers = (DONE, DONE);
                for _ in 0..*times {
                    let before = self.rust.state().mode;
                    let expected = self.expect_event(&call.what, bytes, lent, tally);
                    numbers = (expected, port::event(&mut self.words, bytes, &mut self.memory, lent));
                    tally.mode_changed(before, self.rust.state().mode);
                    if numbers.0 != numbers.1 {
                        break;
                    }
                }
                if numbers.0 == DONE {
                    tally.written(bytes[0] % 32);
                }
                (Asked::Event, numbers.0, numbers.1)
            }
            What::Property { column, kind, bits, text } => {
                let expected = self.expect_property(&call.what, lent, tally);
                let answered = port::property(&mut self.words, *column, *kind, *bits, text, &mut self.memory, lent);
                if answered != expected {
                    return Err(format!("Property answered {answered:?}, not {expected:?}"));
                }
                tally.placed(Asked::Property, expected.0, expected.1);
                (Asked::Property, expected.0, answered.0)
            }
            What::Finish => {
                let expected = self.expect_finish(&call.what, lent)?;
                if expected == DONE {
                    tally.written_under(self.held);
                }
                (Asked::Finish, expected, port::finish(&mut self.words, &mut self.memory, lent))
            }
            What::Next => {
                let expected = self.expect_next(lent);
                (Asked::Next, expected, port::next(&mut self.words, &mut self.memory, lent))
            }
        };
        tally.answered(asked, expected);
        self.check(&format!("{asked:?}"), expected, answered)
    }

    fn check(&self, what: &str, expected: u8, answered: u8) -> Result<(), String> {
        if expected != answered {
            return Err(format!("{what} answered {answered}, not {expected}"));
        }
        let words = self.expected_words();
        if words != self.words {
            return Err(format!("{what} left the state {:x?}, not {words:x?}", self.words));
        }
        if self.memory != self.expected {
            return Err(format!("{what} answered {answered} and left other memory than it should"));
        }
        Ok(())
    }

    fn expected_words(&self) -> Words {
        let state = self.rust.state();
        let (parts, properties) = self.waiting.unwrap_or((state.parts, state.properties));
        let marks = [self.row.detect, self.row.promote, self.waiting.is_some(), self.held.is_some()];
        let bits = marks.into_iter().enumerate().map(|(i, mark)| u8::from(mark) << i).sum();
        let mut words = [0; STATE_WORDS];
        words[0] = u32::from_le_bytes([state.declared, state.current, state.mode, bits]);
        words[1] = parts as u32;
        words[2] = properties as u32;
        words[3] = self.held.unwrap_or(0);
        for pool in 0..6 {
            words[4 + 2 * pool] = self.start[pool] as u32;
            words[5 + 2 * pool] = state.pending[pool] as u32;
        }
        words
    }

    /// Of the table's records, each pool's words, and the property bytes.
    fn used(&self) -> Lengths {
        let state = self.rust.state();
        let (parts, properties) = self.waiting.unwrap_or((state.parts, state.properties));
        let records = if parts > 0 || self.waiting.is_some() { parts + 1 } else { 0 };
        let pool = |i: usize| self.start[i] + state.pending[i];
        [records, pool(0), pool(1), pool(2), pool(3), pool(4), pool(5), properties]
    }

    /// What is lent to a call. The table's remainder under one record is lent too, and is no room.
    fn lent(&self, call: &Call) -> Lengths {
        let mut lent = self.row.held;
        if let Some((slice, spare)) = call.cut {
            let slice = usize::from(slice);
            let unit = if slice == TABLE { 64 } else { 1 };
            let bytes = (self.used()[slice] as i64 + i64::from(spare)) * unit + unit - 1;
            lent[slice] = lent[slice].min(bytes.max(0) as usize);
        }
        lent
    }

    fn has_room(&self, lent: Lengths, records: usize, more: [usize; 6]) -> bool {
        let used = self.used();
        let fits = |pool: usize| used[1 + pool] + more[pool] <= lent[1 + pool].min(MOST_WORDS[pool]);
        records <= (lent[TABLE] / 64).min(MOST_RECORDS) && (0..6).all(fits)
    }

    fn expect_event(&mut self, what: &'r What, event: &[u8], lent: Lengths, tally: &mut Tally) -> u8 {
        let is_other = event.len() == 64 && self.held.is_some_and(|held| held != feature_of(event));
        let first = if is_malformed(event) { Some(MALFORMED) } else { self.waiting.and(Some(NOT_ITS_TURN)) };
        if let Some(number) = first {
            if is_other {
                tally.came_before(number, OTHER_FEATURE);
            }
            return number;
        }
        let before = self.rust.state();
        let adds = additions(event, before.mode);
        let records = if adds.part { before.parts + 2 } else { self.used()[TABLE] };
        let has_room = self.has_room(lent, records, adds.words);
        if is_other {
            self.tally_other(event, has_room, tally);
            return OTHER_FEATURE;
        }
        if !has_room {
            let asked = self.asked_of_twin(event);
            return if asked == DONE { NO_ROOM } else { asked };
        }
        let number = self.rust.event(event);
        if number == DONE {
            self.held = Some(feature_of(event));
            self.given.push(what);
            self.kept_box.take(event, before.mode, self.rust.state().mode);
            self.lay_words(&before, &adds);
        }
        number
    }

    /// What an event of another feature covers: its kind, and what else was due.
    fn tally_other(&self, event: &[u8], has_room: bool, tally: &mut Tally) {
        tally.other_feature(event[0]);
        if !has_room {
            tally.came_before(OTHER_FEATURE, NO_ROOM);
        }
        // A twin takes long, so it is asked until one is found.
        if !tally.has_come_before(OTHER_FEATURE, TYPES_MIXED) && self.asked_of_twin(event) == TYPES_MIXED {
            tally.came_before(OTHER_FEATURE, TYPES_MIXED);
        }
    }

    /// Whether the types mix, without giving the Rust the event. Only a begin can mix them.
    fn asked_of_twin(&self, event: &[u8]) -> u8 {
        if event[0] < 32 {
            self.twin().event(event)
        } else {
            DONE
        }
    }

    /// A writer that was given the same.
    fn twin(&self) -> Writer {
        let mut twin = Writer::new(self.row.declared, self.row.detect, self.row.promote);
        for what in &self.given {
            match what {
                What::Event { bytes, .. } => drop(twin.event(bytes)),
                What::Property { column, kind, bits, text } => drop(twin.property(*column, &value(*kind, *bits, text).unwrap())),
                What::Finish => drop(twin.finish()),
                What::Next => {}
            }
        }
        twin
    }

    fn lay_words(&mut self, before: &State, adds: &Additions) {
        let pending = self.rust.pending();
        for pool in 0..6 {
            let count = before.pending[pool];
            for at in count..count + adds.words[pool] {
                // The Rust has put the end into the part already; the finished tree shows it.
                let word = if adds.part { before.pending[0] as u64 / 2 } else { pending.word(pool, at) };
                self.expected.put_word(pool, self.start[pool] + at, word);
            }
        }
        if adds.part {
            let counts = std::array::from_fn(|pool| before.pending[pool] + adds.words[pool]);
            self.lay_part(before.parts + 1, before.current, counts);
        }
    }

    /// A record of an xy list, ends if there are two or more, and what else is not empty.
    fn lay_part(&mut self, number: usize, kind: u8, counts: [usize; 6]) {
        let record = &mut self.expected.table[64 * number..64 * number + 64];
        record.fill(0);
        record[0] = kind;
        for (pool, count) in counts.into_iter().enumerate() {
            let least = match pool {
                0 => 0,
                ENDS => 2,
                _ => 1,
            };
            if count >= least {
                put_list(record, pool, self.start[pool], count);
                self.start[pool] += count;
            }
        }
    }

    /// The number, and the place in the text, which is 0 with every number but 6.
    fn expect_property(&mut self, call: &'r What, lent: Lengths, tally: &mut Tally) -> (u8, usize) {
        let What::Property { column, kind, bits, text } = call else { unreachable!("asked of a property") };
        let first = if self.waiting.is_some() { Some(NOT_ITS_TURN) } else { (*column > 65535).then_some(COLUMN_TOO_LARGE) };
        let used = self.rust.properties().len();
        let has_room = used + property_size(*kind, text) <= lent[PROPERTIES].min(MOST_PROPERTY_BYTES);
        let value = value(*kind, *bits, text);
        if value.as_ref().is_err_and(|refused| refused.number == TEXT_NOT_UTF8) {
            tally_bad_text(first, has_room, tally);
        }
        if let Some(number) = first {
            return (number, 0);
        }
        let value = match value {
            Ok(value) => value,
            Err(refused) => return (refused.number, refused.place),
        };
        if !has_room {
            return (NO_ROOM, 0);
        }
        let number = self.rust.property(*column, &value);
        self.given.push(call);
        let laid = &self.rust.properties()[used..];
        self.expected.properties[used..used + laid.len()].copy_from_slice(laid);
        (number, 0)
    }

    fn expect_finish(&mut self, call: &'r What, lent: Lengths) -> Result<u8, String> {
        if self.waiting.is_some() {
            return Ok(NOT_ITS_TURN);
        }
        let before = self.rust.state();
        if !self.has_room(lent, before.parts + 1, [0; 6]) {
            return Ok(NO_ROOM);
        }
        let feature = self.rust.finish();
        self.given.push(call);
        self.waiting = Some((before.parts, before.properties));
        let table = &mut self.expected.table[..feature.tree.table.len()];
        if table[64..] != feature.tree.table[64..] {
            return Err("the Rust's parts are other records than the model's".into());
        }
        table.copy_from_slice(&feature.tree.table);
        for (pool, words) in feature.tree.pools.iter().enumerate() {
            self.start[pool] = words.len();
            if words.iter().enumerate().any(|(at, word)| self.expected.word(pool, at) != *word) {
                return Err(format!("the Rust's finished tree has other words in pool {pool} than the model's"));
            }
        }
        if feature.properties != self.expected.properties[..before.properties] {
            return Err("the Rust's finished feature has other property bytes".into());
        }
        let kept_box = self.kept_box.beside(&feature.tree, self.rust.bounds())?;
        self.finished.push(Finished { number: self.held.unwrap_or(0), tree: feature.tree, kept_box });
        Ok(DONE)
    }

    fn expect_next(&mut self, lent: Lengths) -> u8 {
        let Some((parts, _)) = self.waiting else { return NOT_ITS_TURN };
        if !self.has_room(lent, parts + 1, [0; 6]) {
            return NO_ROOM;
        }
        self.waiting = None;
        self.held = None;
        for (pool, count) in self.rust.state().pending.into_iter().enumerate() {
            self.expected.move_to_front(pool, self.start[pool]..self.start[pool] + count);
            self.start[pool] = 0;
        }
        DONE
    }

    /// Overwrites what the state does not use; SPEC 4.6 lets a caller do so between calls.
    fn scramble(&mut self) {
        let used = self.used();
        for at in 64 * used[TABLE]..self.row.held[TABLE] {
            self.memory.table[at] = self.noise() as u8;
        }
        for pool in 0..6 {
            for at in used[1 + pool]..self.row.held[1 + pool] {
                let word = self.noise();
                self.memory.put_word(pool, at, word);
            }
        }
        for at in used[PROPERTIES]..self.row.held[PROPERTIES] {
            self.memory.properties[at] = self.noise() as u8;
        }
        self.expected.clone_from(&self.memory);
    }

    fn noise(&mut self) -> u64 {
        self.noise ^= self.noise << 13;
        self.noise ^= self.noise >> 7;
        self.noise ^= self.noise << 17;
        self.noise
    }
}
