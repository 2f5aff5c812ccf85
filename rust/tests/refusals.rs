//! Each refusal, reached; and what a refusal leaves alone.
mod common;
use bintolage::{column_type, geometry_type, read_properties, read_wkb, write_wkb, Event, Refusal, State};
use common::{framed, line, numbered, pairs, point_begin, polygon, Room, ENDS, FEATURE, PARTS, XY};

fn read_of(kind: u8, lists: &[(usize, u32, u32)]) -> (Result<(), Refusal>, usize) {
    let mut room = Room::of(2, 8);
    room.put_record(0, kind, lists);
    let (read, _) = room.read(0, 0);
    (read.answer, read.count)
}

#[test]
fn xy_absent() {
    assert_eq!(read_of(geometry_type::LINE_STRING, &[]), (Err(Refusal::XyAbsent), 0));
}

#[test]
fn parts_absent() {
    assert_eq!(read_of(geometry_type::GEOMETRY_COLLECTION, &[]), (Err(Refusal::PartsAbsent), 0));
}

#[test]
fn column_unknown() {
    let read = read_properties(&[1, 0, 5], Some(&[column_type::UBYTE]), None, &mut [0; 16]);
    assert_eq!(read.answer, Err(Refusal::ColumnUnknown));
}

#[test]
fn type_unknown() {
    for kind in [0, 13, 14, 18, 255] {
        assert_eq!(read_of(kind, &[]), (Err(Refusal::TypeUnknown), 0));
    }
}

#[test]
fn type_not_a_curve() {
    assert_eq!(read_of(geometry_type::COMPOUND_CURVE, &[(PARTS, 1, 1)]), (Err(Refusal::TypeNotACurve), 1));
}

#[test]
fn types_mixed() {
    let mut state = State::start(geometry_type::POINT, false, false);
    let refused = Room::of(1, 1).write(&mut state, &[Event::begin(FEATURE, geometry_type::POLYGON, true, 1, 0)]);
    assert_eq!(refused, Err(Refusal::TypesMixed));
}

#[test]
fn not_utf8() {
    let mut state = State::start(0, false, false);
    let refused = state.property(0, column_type::STRING, 0, &[0x61, 0xc3], &mut [0; 16]);
    assert_eq!(refused, Err(Refusal::NotUtf8 { at: 1 }));
    let read = read_properties(&[0, 0, 1, 0, 0, 0, 0xff], Some(&[column_type::STRING]), None, &mut [0; 16]);
    assert_eq!(read.answer, Err(Refusal::NotUtf8 { at: 0 }));
}

#[test]
fn past_list() {
    assert_eq!(read_of(geometry_type::POINT, &[(XY, 0, 1)]), (Err(Refusal::PastList), 1));
}

#[test]
fn bad_end() {
    let mut room = Room::of(1, 8);
    room.put_record(0, geometry_type::MULTI_LINE_STRING, &[(XY, 0, 8), (ENDS, 0, 2)]);
    room.ends[..2].copy_from_slice(&[1 << 31, 4]);
    assert_eq!(room.read(0, 0).0.answer, Err(Refusal::BadEnd));
}

#[test]
fn log_full_keeps_what_came_before() {
    let mut room = Room::of(1, 8);
    let events = line(true, 0, &pairs(3));
    room.feature(&mut State::start(geometry_type::LINE_STRING, false, false), &events);
    room.log = vec![0xa5; 3 * 64 + 63];
    let (read, said) = room.read(geometry_type::LINE_STRING, 0);
    assert_eq!((read.answer, read.count), (Err(Refusal::LogFull), 3));
    assert_eq!(said, events[..3]);
    assert!(room.log[3 * 64..].iter().all(|&byte| byte == 0xa5));
}

#[test]
fn bad_record() {
    let mut room = Room::of(1, 8);
    room.table[60] = 1;
    assert_eq!(room.read(1, 0).0.answer, Err(Refusal::BadRecord));
    let boxed = room.memory().tree().bbox(0);
    assert_eq!(boxed.answer, Err(Refusal::BadRecord));
    assert_eq!((boxed.least_x, boxed.greatest_y), (f64::INFINITY, f64::NEG_INFINITY));
    room.table = vec![0; 65];
    assert_eq!(room.read(1, 0).0.answer, Err(Refusal::BadRecord), "a table that is no whole number of records");
}

#[test]
fn malformed() {
    let mut state = State::start(0, false, false);
    let mut room = Room::of(1, 1);
    assert_eq!(state.event(&[0; 64], &mut room.memory()), Err(Refusal::Malformed));
    assert_eq!(state.event(&[1; 63], &mut room.memory()), Err(Refusal::Malformed));
    for (kind, bits) in [(15, 0), (column_type::BOOL, 2), (column_type::UBYTE, 256)] {
        assert_eq!(state.property(0, kind, bits, &[], &mut [0; 16]), Err(Refusal::Malformed));
    }
}

#[test]
fn no_room() {
    let mut state = State::start(geometry_type::LINE_STRING, false, false);
    let mut room = Room::of(0, 2);
    assert_eq!(room.write(&mut state, &line(true, 0, &pairs(3))), Err(Refusal::NoRoom));
    assert_eq!(state.finish(&mut room.memory()), Err(Refusal::NoRoom), "no record for the root");
    assert_eq!(state.property(0, column_type::INT, 0, &[], &mut [0; 5]), Err(Refusal::NoRoom));
    room.xy.truncate(2);
    let end = [Event::end(FEATURE, geometry_type::LINE_STRING, true, 0)];
    assert_eq!(room.write(&mut state, &end), Err(Refusal::NoRoom), "lent shorter than used");
}

#[test]
fn too_deep() {
    let mut room = Room::of(17, 8);
    for n in 0..17 {
        room.put_record(n, geometry_type::GEOMETRY_COLLECTION, &[(PARTS, n as u32 + 1, 1)]);
    }
    room.put_record(16, geometry_type::LINE_STRING, &[(XY, 0, 4)]);
    let (read, _) = room.read(0, 0);
    assert_eq!((read.answer, read.count), (Err(Refusal::TooDeep), 16));
    room.put_record(15, geometry_type::LINE_STRING, &[(XY, 0, 4)]);
    assert_eq!(room.read(0, 0).0.answer, Ok(()), "level 16 is read");
}

#[test]
fn value_cut() {
    let cut = read_properties(&[0, 0, 3, 0, 0, 0, 0x61, 0x62], Some(&[column_type::STRING]), None, &mut [0; 16]);
    assert_eq!((cut.answer, cut.count), (Err(Refusal::ValueCut), 0));
}

#[test]
fn not_its_turn() {
    let mut room = Room::of(2, 8);
    let mut state = State::start(geometry_type::POLYGON, false, false);
    assert_eq!(state.next(&mut room.memory()), Err(Refusal::NotItsTurn));
    room.feature(&mut state, &polygon(true, 0, &[pairs(4)]));
    assert_eq!(room.write(&mut state, &[point_begin(0)]), Err(Refusal::NotItsTurn));
    assert_eq!(state.property(0, 1, 1, &[], &mut [0; 16]), Err(Refusal::NotItsTurn));
    assert_eq!(state.finish(&mut room.memory()), Err(Refusal::NotItsTurn));
    assert_eq!(state.next(&mut room.memory()), Ok(()));
}

#[test]
fn column_too_large() {
    let mut state = State::start(0, false, false);
    assert_eq!(state.property(65_535, 1, 1, &[], &mut [0; 16]), Ok(()));
    assert_eq!(state.property(65_536, 1, 1, &[], &mut [0; 16]), Err(Refusal::ColumnTooLarge));
}

#[test]
fn other_feature() {
    let mut room = Room::of(1, 8);
    let mut state = State::start(geometry_type::LINE_STRING, false, false);
    let events = line(true, 0, &pairs(2));
    room.write(&mut state, &events[..2]).unwrap();
    assert_eq!(room.write(&mut state, &numbered(FEATURE + 1, &events[2..])), Err(Refusal::OtherFeature));
}

/// A point of which x and y are 0, in well-known binary.
const POINT_WKB: [u8; 21] = [1, 1, 0, 0, 0, 0, 0, 0, 0, 0, 0, 0, 0, 0, 0, 0, 0, 0, 0, 0, 0];

fn read_wkb_of(bytes: &[u8]) -> (Result<(), Refusal>, usize) {
    let read = read_wkb(bytes, FEATURE, &mut [0; 3 * 64]);
    (read.answer, read.count)
}

#[test]
fn wkb_cut() {
    assert_eq!(read_wkb_of(&POINT_WKB), (Ok(()), 3));
    assert_eq!(read_wkb_of(&POINT_WKB[..20]), (Err(Refusal::WkbCut), 1));
}

#[test]
fn wkb_unknown() {
    assert_eq!(read_wkb_of(&[&[2], &POINT_WKB[1..]].concat()), (Err(Refusal::WkbUnknown), 0));
    assert_eq!(read_wkb_of(&[1, 8, 0, 0, 0]), (Err(Refusal::WkbUnknown), 0));
}

#[test]
fn wkb_left_over() {
    assert_eq!(read_wkb_of(&[&POINT_WKB[..], &[0]].concat()), (Err(Refusal::WkbLeftOver), 3));
}

#[test]
fn badly_nested() {
    let mut out = [0; 64];
    let records = |events: &[Event]| events.iter().flat_map(Event::to_bytes).collect::<Vec<_>>();
    let events = line(true, 0, &pairs(2));
    assert_eq!(write_wkb(&records(&events), &mut out), Ok(41));
    assert_eq!(write_wkb(&records(&events[1..]), &mut out), Err(Refusal::BadlyNested));
    assert_eq!(write_wkb(&[], &mut out), Err(Refusal::BadlyNested));
}

#[test]
fn a_refused_event_changes_nothing() {
    let mut room = Room::of(2, 8);
    let mut state = State::start(geometry_type::MULTI_LINE_STRING, false, false);
    let lines = framed(geometry_type::MULTI_LINE_STRING, false, 0, &[line(false, 0, &pairs(8))]);
    room.write(&mut state, &lines[..10]).unwrap();
    let (before, xy, ends) = (state, room.xy.clone(), room.ends.clone());
    assert_eq!(room.write(&mut state, &[Event::xy(FEATURE, 1.0, 2.0, 8)]), Err(Refusal::NoRoom));
    assert_eq!((state, &room.xy, &room.ends), (before, &xy, &ends));
}

#[test]
fn words_and_numbers() {
    assert_eq!(Refusal::BadEnd.to_string(), "8: an end that is 2^31 or larger, or less than the end before it");
    assert_eq!(Refusal::ColumnTooLarge.to_string(), "16: column number above 65,535");
    assert_eq!(Refusal::OtherFeature.to_string(), "17: an event of another feature");
    assert_eq!(Refusal::WkbLeftOver.to_string(), "20: bytes behind the geometry");
    let nested = "21: events that are no geometry's: badly nested, tagged, indexed or sized";
    assert_eq!(Refusal::BadlyNested.to_string(), nested);
    assert_eq!(Refusal::NotUtf8 { at: 7 }.to_string(), "6: text is not UTF-8 at byte 7");
    assert_eq!((Refusal::PartsAbsent.number(), Refusal::ColumnUnknown.number()), (2, 2));
}
