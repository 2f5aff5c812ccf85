//! Where a text went bad: the place that comes with refusal 6, in both directions, beside the one that Rust's own check says;
//! and which text it is that a reading refused.
mod common;
use bintolage::{
    bare, column_type, read_properties, usable, PropertiesRead, Refusal, RefusedText, State, StateWords, Writer,
};
use common::Room;
use std::str::from_utf8;

const TEXT_TYPES: [u8; 3] = [column_type::STRING, column_type::JSON, column_type::DATE_TIME];
const NO_STOP: u32 = 65_536;

/// A crew's name from a keypad that has a byte of its own for the letter ä.
const TYPED: &[u8] = b"H. Schr\xe4der";

fn as_rust_says(text: &[u8]) -> Result<(), Refusal> {
    from_utf8(text).map(drop).map_err(|bad| Refusal::NotUtf8 { at: bad.valid_up_to() })
}

fn written(column_type: u8, text: &[u8]) -> Result<(), Refusal> {
    State::start(0, false, false).property(0, column_type, 0, text, &mut vec![0; 6 + text.len()])
}

/// The property bytes of a text.
fn property_of(column: u16, text: &[u8]) -> Vec<u8> {
    [&column.to_le_bytes()[..], &(text.len() as u32).to_le_bytes(), text].concat()
}

fn read(column_type: u8, text: &[u8]) -> Result<(), Refusal> {
    read_properties(&property_of(0, text), Some(&[column_type]), None, &mut [0; 16]).answer
}

/// Of each type of text it is answered as Rust says, written and read. Binary takes any bytes.
fn is_answered(text: &[u8]) {
    for kind in TEXT_TYPES {
        assert_eq!(written(kind, text), as_rust_says(text), "{text:x?} is written, type {kind}");
        assert_eq!(read(kind, text), as_rust_says(text), "{text:x?} is read, type {kind}");
    }
    assert_eq!((written(column_type::BINARY, text), read(column_type::BINARY, text)), (Ok(()), Ok(())), "{text:x?}");
}

#[test]
fn every_text_of_two_bytes_or_fewer() {
    is_answered(&[]);
    for first in 0..=255 {
        is_answered(&[first]);
        for second in 0..=255 {
            is_answered(&[first, second]);
        }
    }
}

/// The bytes on both sides of every border that a character's bytes have.
const BORDERS: [u8; 24] = [
    0x00, 0x7f, 0x80, 0x8f, 0x90, 0x9f, 0xa0, 0xbf, 0xc0, 0xc1, 0xc2, 0xdf, 0xe0, 0xe1, 0xec, 0xed, 0xee, 0xef, 0xf0,
    0xf1, 0xf3, 0xf4, 0xf5, 0xff,
];

/// The text is answered, and with so many of those bytes behind it, or fewer.
fn is_answered_with(more: usize, text: &mut Vec<u8>) {
    is_answered(text);
    if more == 0 {
        return;
    }
    for byte in BORDERS {
        text.push(byte);
        is_answered_with(more - 1, text);
        text.pop();
    }
}

#[test]
fn texts_of_four_bytes_or_fewer_at_the_borders() {
    is_answered_with(4, &mut vec![]);
}

/// A text with characters of every length.
fn long_text() -> Vec<u8> {
    "Jensen, Søren: 12 €/m \u{1d11e}; ".repeat(8).into_bytes()
}

#[test]
fn one_bad_byte_at_every_place_of_a_long_text() {
    let good = long_text();
    for at in 0..good.len() {
        for bad in [0xff, 0xe4, 0xc3, 0x80] {
            let mut text = good.clone();
            text[at] = bad;
            is_answered(&text);
        }
    }
}

#[test]
fn a_long_text_cut_at_every_place() {
    let good = long_text();
    for length in 0..=good.len() {
        is_answered(&good[..length]);
    }
}

#[test]
fn the_last_byte_of_the_longest_text() {
    let mut text = vec![b'a'; usable::PROPERTY_BYTES - 6];
    is_answered(&text);
    text[usable::PROPERTY_BYTES - 7] = 0xe4;
    is_answered(&text);
}

/// The answer of a writer whose buffer has so much room, and that nothing changes.
fn refused(room: usize, text: &[u8]) -> Refusal {
    let before = State::start(0, false, false);
    let (mut state, mut buffer) = (before, vec![0xa5; room]);
    let refusal = state.property(0, column_type::STRING, 0, text, &mut buffer).unwrap_err();
    assert_eq!((state, buffer), (before, vec![0xa5; room]));
    refusal
}

#[test]
fn a_text_longer_than_the_room_is_searched_to_its_end() {
    const LENGTH: usize = usable::PROPERTY_BYTES + 1_000;
    for room in [0, 16, usable::PROPERTY_BYTES, usable::PROPERTY_BYTES + 10_000] {
        let mut text = vec![b'a'; LENGTH];
        assert_eq!(refused(room, &text), Refusal::NoRoom);
        for at in [0, 1, 15, 16, 65_529, 65_530, 65_535, 65_536, 65_537, LENGTH - 2, LENGTH - 1] {
            text[at] = 0xc3;
            assert_eq!(refused(room, &text), Refusal::NotUtf8 { at });
            text[at] = b'a';
        }
    }
}

#[test]
fn a_place_is_counted_from_the_texts_own_first_byte() {
    const NO_VALUE: u8 = 15;
    let columns = [column_type::USHORT, column_type::STRING, NO_VALUE];
    let before = [&[0, 0, 0xff, 0xff][..], &property_of(1, b"abc"), &[2, 0]].concat();
    let bytes = [&before[..], &property_of(1, TYPED), &property_of(1, &[0xff])].concat();
    let mut log = [0; 4 * usable::VALUE_BYTES];
    let read = read_properties(&bytes, Some(&columns), None, &mut log);
    assert_eq!((read.answer, read.count), (Err(Refusal::NotUtf8 { at: 7 }), 2));
    let read = read_properties(&bytes, Some(&columns), Some(1), &mut log);
    assert_eq!((read.answer, read.count, read.stopped), (Ok(()), 2, true), "behind the stop nothing is looked at");
    let read = read_properties(&bytes, Some(&columns), None, &mut log[..2 * usable::VALUE_BYTES]);
    assert_eq!((read.answer, read.count), (Err(Refusal::NotUtf8 { at: 7 }), 2), "6 stands before 9");
}

/// The number, and the place that is written over what stood there.
fn property(state: StateWords, column: u32, column_type: u8, bits: u64, text: &[u8], room: usize) -> (u8, usize) {
    let (mut words, mut place) = (state, usize::MAX);
    let number = bare::property(&mut words, column, column_type, bits, text, &mut vec![0; room], &mut place);
    (number, place)
}

#[test]
fn another_answer_to_a_writing_has_place_0() {
    let fresh = State::start(0, false, false);
    let mut waiting = fresh;
    waiting.finish(&mut Room::of(1, 1).memory()).unwrap();
    let (fresh, waiting) = (fresh.words(), waiting.words());
    assert_eq!(property(fresh, 0, column_type::STRING, 0, TYPED, 64), (6, 7));
    assert_eq!(property(fresh, 0, column_type::STRING, 0, &TYPED[7..], 64), (6, 0));
    assert_eq!(property(fresh, 0, column_type::STRING, 0, &TYPED[..7], 64), (0, 0));
    assert_eq!(property(fresh, 0, column_type::BINARY, 0, TYPED, 64), (0, 0));
    assert_eq!(property(fresh, 0, column_type::INT, 5, TYPED, 64), (0, 0));
    assert_eq!(property(waiting, 65_536, column_type::STRING, 0, TYPED, 64), (15, 0));
    assert_eq!(property(fresh, 65_536, column_type::STRING, 0, TYPED, 64), (16, 0));
    assert_eq!(property(fresh, 0, column_type::BINARY + 1, 0, TYPED, 64), (11, 0));
    assert_eq!(property(fresh, 0, column_type::BOOL, 2, TYPED, 64), (11, 0));
    assert_eq!(property(fresh, 0, column_type::STRING, 0, &TYPED[..7], 12), (12, 0));
}

/// The number and the count, and the place that is written over what stood there.
fn reading(bytes: &[u8], columns: Option<&[u8]>, records: usize) -> (u8, u32, usize) {
    let (mut count, mut stopped, mut place) = (0, 0, usize::MAX);
    let mut log = vec![0; records * usable::VALUE_BYTES];
    let number = bare::read_properties(bytes, columns, NO_STOP, &mut log, &mut count, &mut stopped, &mut place);
    (number, count, place)
}

#[test]
fn another_answer_to_a_reading_has_place_0() {
    let (bad, good) = (property_of(0, TYPED), property_of(0, &TYPED[..7]));
    assert_eq!(reading(&bad, Some(&[column_type::STRING]), 1), (6, 0, 7));
    assert_eq!(reading(&property_of(0, &TYPED[7..]), Some(&[column_type::STRING]), 1), (6, 0, 0));
    assert_eq!(reading(&good, Some(&[column_type::STRING]), 1), (0, 1, 0));
    assert_eq!(reading(&bad, Some(&[column_type::BINARY]), 1), (0, 1, 0));
    assert_eq!(reading(&bad, None, 1), (0, 0, 0));
    assert_eq!(reading(&bad, Some(&[]), 1), (2, 0, 0));
    assert_eq!(reading(&bad[..bad.len() - 1], Some(&[column_type::STRING]), 1), (14, 0, 0));
    assert_eq!(reading(&good, Some(&[column_type::STRING]), 0), (9, 0, 0));
    assert_eq!(reading(&bad, Some(&[column_type::STRING]), 0), (6, 0, 7), "6 stands before 9");
}

/// The type of each column, those of the texts last: 15 and 255 have no value.
const ROW_TYPES: [u8; 7] =
    [column_type::USHORT, column_type::BINARY, 15, 255, column_type::STRING, column_type::JSON, column_type::DATE_TIME];
const TEXT_COLUMNS: [u16; 3] = [4, 5, 6];

/// The bytes of a good property in the column: a Binary is no UTF-8, and is good.
fn good_property(column: u16) -> Vec<u8> {
    match ROW_TYPES[usize::from(column)] {
        column_type::USHORT => [column.to_le_bytes(), [0xff; 2]].concat(),
        column_type::BINARY => property_of(column, TYPED),
        15 | 255 => column.to_le_bytes().to_vec(),
        _ => property_of(column, "µ".as_bytes()),
    }
}

/// Property bytes with a text that is refused, which stands last but for a number, and what their reading came to.
struct RefusedRow {
    bytes: Vec<u8>,
    text: RefusedText<'static>,
    read: PropertiesRead,
    log: Vec<u8>,
}

const NUMBER: u16 = 0;

/// The log has room for more records than there are values.
fn read_behind(before: &[u8], column: u16) -> RefusedRow {
    let bytes = [before, &property_of(column, TYPED), &good_property(NUMBER)].concat();
    let mut log = vec![0; 4 * usable::VALUE_BYTES];
    let read = read_properties(&bytes, Some(&ROW_TYPES), None, &mut log);
    assert_eq!(read.answer, Err(Refusal::NotUtf8 { at: 7 }));
    let text = RefusedText { column, column_type: ROW_TYPES[usize::from(column)], bytes: TYPED };
    RefusedRow { bytes, text, read, log }
}

/// A text of each type that is refused, behind none, each, and every two good properties.
fn refused_rows() -> Vec<RefusedRow> {
    let columns = 0..ROW_TYPES.len() as u16;
    let one: Vec<Vec<u8>> = [vec![]].into_iter().chain(columns.map(good_property)).collect();
    let two = one.iter().flat_map(|first| one.iter().map(move |second| [&first[..], second].concat()));
    two.flat_map(|before| TEXT_COLUMNS.map(|column| read_behind(&before, column))).collect()
}

#[test]
fn the_text_that_was_refused_is_found() {
    for RefusedRow { bytes, text, read, log } in refused_rows() {
        assert_eq!(read.refused_text(&bytes, &ROW_TYPES, &log), Some(text), "{bytes:x?}");
        let other = PropertiesRead { answer: Err(Refusal::ValueCut), ..read };
        assert_eq!(other.refused_text(&bytes, &ROW_TYPES, &log), None, "with another answer");
    }
}

#[test]
fn a_text_or_a_column_that_is_cut_is_not_found() {
    for RefusedRow { bytes, text, read, log } in refused_rows() {
        let end = bytes.len() - good_property(NUMBER).len();
        for length in 0..=bytes.len() {
            let wanted = (length >= end).then_some(text);
            assert_eq!(read.refused_text(&bytes[..length], &ROW_TYPES, &log), wanted, "{bytes:x?}, {length} of them");
        }
        for count in 0..=ROW_TYPES.len() {
            let wanted = (count > usize::from(text.column)).then_some(text);
            assert_eq!(read.refused_text(&bytes, &ROW_TYPES[..count], &log), wanted, "{bytes:x?}, {count} columns");
        }
    }
}

#[test]
fn a_refused_text_is_a_string_a_json_or_a_date_time() {
    let bytes = property_of(0, b"a");
    let read = PropertiesRead { answer: Err(Refusal::NotUtf8 { at: 0 }), count: 0, stopped: false };
    for column_type in 0..=255 {
        let wanted = TEXT_TYPES.contains(&column_type).then_some(RefusedText { column: 0, column_type, bytes: b"a" });
        assert_eq!(read.refused_text(&bytes, &[column_type], &[]), wanted, "type {column_type}");
    }
}

#[test]
fn whatever_is_asked_for_a_refused_text_is_answered() {
    let logs: Vec<Vec<u8>> = (1..=255).map(|byte| vec![byte; 4 * usable::VALUE_BYTES + 3]).collect();
    for RefusedRow { bytes, read, log, .. } in refused_rows() {
        for count in [0, 1, 2, 3, 4, 5, usize::MAX] {
            let read = PropertiesRead { count, ..read };
            read.refused_text(&bytes, &ROW_TYPES, &log);
            for length in 0..log.len() {
                read.refused_text(&bytes, &ROW_TYPES, &log[..length]);
            }
        }
        for log in &logs {
            let read = PropertiesRead { count: 1, ..read };
            assert_eq!(read.refused_text(&bytes, &ROW_TYPES, log), None, "values longer than the bytes");
        }
        read.refused_text(&log, &bytes, &logs[0]);
    }
}

#[test]
fn a_writer_takes_a_text_as_it_was_typed() {
    let mut room = Room::of(1, 1);
    let mut properties = [0; 64];
    let mut writer = Writer::start(0, false, false, room.memory(), &mut properties);
    assert_eq!(writer.text(2, column_type::STRING, TYPED), Err(Refusal::NotUtf8 { at: 7 }));
    for kind in (0..=255).filter(|kind| !(column_type::STRING..=column_type::BINARY).contains(kind)) {
        assert_eq!(writer.text(2, kind, b""), Err(Refusal::Malformed), "type {kind}");
    }
    assert_eq!(writer.properties(), []);
    assert_eq!(writer.text(2, column_type::BINARY, TYPED), Ok(()));
    assert_eq!(writer.text(3, column_type::STRING, "Schräder".as_bytes()), Ok(()));
    assert_eq!(writer.properties(), [property_of(2, TYPED), property_of(3, "Schräder".as_bytes())].concat());
}
