//! The benchmarks B1 to B14, those that have events under several feature numbers; and the runs at the limits.
mod common;
use bintolage::{column_type, geometry_type as ty, read_properties, Event, Read, Refusal, State, Value, ValueRecord};
use common::{framed, kinds, line, numbered, pairs, point_begin, polygon, Record, Room};
use common::{ENDS, FEATURE, LINE_END, PARTS, XY};

const NUMBERS: [u32; 4] = [0, 1, FEATURE, u32::MAX];

/// The feature as a fresh writer leaves it, finished, under each number, in a room that reads under that number.
fn finished(declared: u8, promote: bool, events: &[Event]) -> [Room; 4] {
    NUMBERS.map(|feature| {
        let mut room = Room { feature, ..Room::of(4, 16) };
        room.feature(&mut State::start(declared, false, promote), &numbered(feature, events));
        room
    })
}

/// A reading's answer, and its kinds; all its events say the room's number.
fn said(room: &mut Room, declared: u8) -> (Result<(), Refusal>, Vec<u8>) {
    let (Read { answer, .. }, events) = room.read(declared, 0);
    assert_eq!(events, numbered(room.feature, &events));
    (answer, kinds(&events))
}

/// It is read as it was given.
fn reads_back(room: &mut Room, declared: u8, given: &[Event]) {
    let (read, events) = room.read(declared, 0);
    assert_eq!((read.answer, events), (Ok(()), numbered(room.feature, given)));
}

fn pools_only(xy: (u32, u32), ends: Option<(u32, u32)>) -> Record {
    Record { kind: 0, xy: Some(xy), ends, parts: None }
}

#[test]
fn b1_polygon_of_one_ring() {
    let given = polygon(true, 0, &[pairs(4)]);
    for mut room in finished(ty::POLYGON, false, &given) {
        assert_eq!(room.record(0), pools_only((0, 8), None));
        reads_back(&mut room, ty::POLYGON, &given);
    }
}

#[test]
fn b2_polygon_of_two_rings() {
    let given = polygon(true, 0, &[pairs(4), pairs(4)]);
    for mut room in finished(ty::POLYGON, false, &given) {
        assert_eq!(room.record(0), pools_only((0, 16), Some((0, 2))));
        assert_eq!(room.ends[..2], [4, 8]);
        reads_back(&mut room, ty::POLYGON, &given);
    }
}

#[test]
fn b3_polygon_of_no_ring_reads_as_one_empty_ring() {
    for mut room in finished(ty::POLYGON, false, &polygon(true, 0, &[])) {
        assert_eq!(room.record(0), pools_only((0, 0), None));
        assert_eq!(said(&mut room, ty::POLYGON), (Ok(()), vec![3, 2, 34, 35]));
    }
}

#[test]
fn b4_lines_of_2_0_and_3_pairs() {
    let lines = [line(false, 0, &pairs(2)), line(false, 1, &[]), line(false, 2, &pairs(3))];
    let given = framed(ty::MULTI_LINE_STRING, false, 0, &lines);
    for mut room in finished(ty::MULTI_LINE_STRING, false, &given) {
        assert_eq!(room.record(0), pools_only((0, 10), Some((0, 3))));
        assert_eq!(room.ends[..3], [2, 2, 5]);
        reads_back(&mut room, ty::MULTI_LINE_STRING, &given);
    }
}

#[test]
fn b5_a_line_promoted_reads_as_one_line() {
    for mut room in finished(ty::MULTI_LINE_STRING, true, &line(true, 0, &pairs(2))) {
        assert_eq!(room.record(0), pools_only((0, 4), None));
        assert_eq!(said(&mut room, ty::MULTI_LINE_STRING), (Ok(()), vec![5, 2, 64, 64, LINE_END, 37]));
    }
}

#[test]
fn b6_a_line_not_promoted_is_mixed() {
    for feature in NUMBERS {
        let mut state = State::start(ty::MULTI_LINE_STRING, false, false);
        let events = numbered(feature, &line(true, 0, &pairs(2)));
        assert_eq!(Room::of(4, 16).write(&mut state, &events), Err(Refusal::TypesMixed));
        assert_eq!(state.feature(), None);
    }
}

#[test]
fn b7_multipolygon_of_no_polygon_is_refused_when_read() {
    for mut room in finished(ty::MULTI_POLYGON, false, &framed(ty::MULTI_POLYGON, false, 0, &[])) {
        assert_eq!(room.record(0), pools_only((0, 0), None));
        assert_eq!(said(&mut room, ty::MULTI_POLYGON), (Err(Refusal::PartsAbsent), vec![]));
    }
}

#[test]
fn b8_polygon_in_a_collection_makes_two_parts() {
    let events = framed(ty::GEOMETRY_COLLECTION, false, 0, &[polygon(true, 0, &[pairs(4)])]);
    for mut room in finished(ty::GEOMETRY_COLLECTION, false, &events) {
        assert_eq!(room.record(0).parts, Some((1, 2)));
        assert_eq!(room.record(1), Record { kind: 3, xy: Some((0, 8)), ends: None, parts: None });
        assert_eq!(room.record(2), Record { kind: 3, xy: Some((8, 0)), ends: None, parts: None });
        let two = [7, 3, 2, 64, 64, 64, 64, LINE_END, 35, 3, 2, LINE_END, 35, 39];
        assert_eq!(said(&mut room, ty::GEOMETRY_COLLECTION), (Ok(()), two.to_vec()));
    }
}

#[test]
fn b9_unknown_collection_of_a_point_has_a_point_as_root() {
    let point = vec![point_begin(0), Event::xy(FEATURE, 1.0, 2.0, 0), Event::end(FEATURE, ty::POINT, false, 0)];
    for mut room in finished(ty::UNKNOWN, false, &framed(ty::GEOMETRY_COLLECTION, false, 0, &[point])) {
        assert_eq!(room.record(0), Record { kind: 1, xy: None, ends: None, parts: Some((1, 1)) });
        assert_eq!(said(&mut room, ty::UNKNOWN), (Err(Refusal::XyAbsent), vec![1]));
    }
}

#[test]
fn b10_point_without_a_pair() {
    for mut room in finished(ty::POINT, false, &[point_begin(0), Event::end(FEATURE, ty::POINT, false, 0)]) {
        assert_eq!(said(&mut room, ty::POINT), (Err(Refusal::PastList), vec![1]));
    }
}

#[test]
fn b11_ends_that_fall() {
    let mut room = Room::of(1, 16);
    room.put_record(0, ty::MULTI_LINE_STRING, &[(XY, 0, 6), (ENDS, 0, 2)]);
    room.ends[..2].copy_from_slice(&[3, 2]);
    for feature in NUMBERS {
        room.feature = feature;
        assert_eq!(said(&mut room, ty::UNKNOWN), (Err(Refusal::BadEnd), vec![5, 2, 64, 64, 64, LINE_END]));
    }
}

fn values(bytes: &[u8], kind: u8) -> (Result<(), Refusal>, Vec<Value<'_>>) {
    let mut log = [0; 64];
    let read = read_properties(bytes, Some(&[kind]), None, &mut log);
    (read.answer, ValueRecord::in_log(&log, read.count).map(|v| v.value(bytes).unwrap()).collect())
}

#[test]
fn b12_to_b14_property_bytes() {
    assert_eq!(values(&[0, 0, 0xff], column_type::BYTE), (Ok(()), vec![Value::Byte(-1)]));
    assert_eq!(values(&[0, 0, 5, 7], column_type::UBYTE), (Ok(()), vec![Value::UByte(5)]));
    assert_eq!(values(&[1, 0], column_type::UBYTE), (Err(Refusal::ColumnUnknown), vec![]));
    assert_eq!(values(&[0, 0, 3, 0, 0, 0, 0x61, 0x62], column_type::STRING), (Err(Refusal::ValueCut), vec![]));
}

#[test]
fn levels_16_and_17() {
    let mut room = Room::of(17, 8);
    let nest = |room: &mut Room, levels: usize| {
        for n in 0..levels - 1 {
            room.put_record(n, ty::GEOMETRY_COLLECTION, &[(PARTS, n as u32 + 1, 1)]);
        }
        room.put_record(levels - 1, ty::POINT, &[(XY, 0, 2)]);
        room.read(0, 0).0.answer
    };
    assert_eq!(nest(&mut room, 16), Ok(()));
    assert_eq!(nest(&mut room, 17), Err(Refusal::TooDeep));
}

#[test]
fn parts_4095_and_4096() {
    let mut room = Room::of(5_000, 16);
    let mut state = State::start(ty::GEOMETRY_COLLECTION, false, false);
    room.write(&mut state, &[Event::begin(FEATURE, ty::GEOMETRY_COLLECTION, false, 4_096, 0)]).unwrap();
    let point = |i| [point_begin(i), Event::end(FEATURE, ty::POINT, false, i)];
    for i in 0..4_095 {
        room.write(&mut state, &point(i)).unwrap();
    }
    assert_eq!(room.write(&mut state, &point(4_095)), Err(Refusal::NoRoom));
    assert_eq!(state.finish(&mut room.memory()), Ok(()));
    assert_eq!(state.parts(), 4_095);
}

#[test]
fn pairs_65536_and_65537() {
    let mut room = Room::of(1, 70_000);
    let mut state = State::start(ty::LINE_STRING, false, false);
    room.write(&mut state, &[Event::begin(FEATURE, ty::LINE_STRING, true, 65_537, 0)]).unwrap();
    for i in 0..65_536 {
        room.write(&mut state, &[Event::xy(FEATURE, i as f64, 0.0, i)]).unwrap();
    }
    assert_eq!(room.write(&mut state, &[Event::xy(FEATURE, 0.0, 0.0, 65_536)]), Err(Refusal::NoRoom));
    assert_eq!(state.finish(&mut room.memory()), Ok(()));
    assert_eq!(room.record(0).xy, Some((0, 131_072)));
}
