//! The box of a record: its own pairs and then each part's, to level 16, and what a walk that is refused answers.
mod common;
use bintolage::{geometry_type, usable, Boxed, Refusal, State};
use common::{framed, polygon, Pair, Room, PARTS, XY};
use std::ops::Range;

const BEGINNING: [f64; 4] = [f64::INFINITY, f64::INFINITY, f64::NEG_INFINITY, f64::NEG_INFINITY];

fn edges(boxed: Boxed) -> [f64; 4] {
    [boxed.least_x, boxed.least_y, boxed.greatest_x, boxed.greatest_y]
}

fn box_of(room: &mut Room, n: u32) -> [f64; 4] {
    let boxed = room.memory().tree().bbox(n);
    assert_eq!(boxed.answer, Ok(()));
    edges(boxed)
}

/// The refusal, with which the box is the beginning one, whatever pairs came before.
fn refusal_of(room: &mut Room, n: u32) -> Refusal {
    let boxed = room.memory().tree().bbox(n);
    assert_eq!(edges(boxed), BEGINNING);
    boxed.answer.unwrap_err()
}

/// Record n, of any type, with one pair of its own and these parts.
fn put(room: &mut Room, n: usize, (x, y): Pair, parts: Range<usize>) {
    room.xy[2 * n..2 * n + 2].copy_from_slice(&[x.to_bits(), y.to_bits()]);
    room.put_record(n, n as u8, &[(XY, 2 * n as u32, 2), (PARTS, parts.start as u32, parts.len() as u32)]);
}

fn spoil(room: &mut Room, n: usize) {
    room.table[64 * n + 60] = 1;
}

fn place(n: usize) -> Pair {
    (n as f64, -(n as f64))
}

/// The box around the places of these records.
fn around(records: Range<usize>) -> [f64; 4] {
    let (first, last) = (place(records.start), place(records.end - 1));
    [first.0, last.1, last.0, first.1]
}

/// Records from the first on one below the other, each with its place, and the last with no part in its list of parts.
fn put_chain(room: &mut Room, records: Range<usize>) {
    for n in records.clone() {
        put(room, n, place(n), n + 1..records.end.min(n + 2));
    }
}

fn chain(levels: usize) -> Room {
    let mut room = Room::of(levels, levels);
    put_chain(&mut room, 0..levels);
    room
}

#[test]
fn a_multipolygons_box_is_around_all_its_polygons() {
    let west = vec![(0.0, 10.0), (4.0, 10.0), (4.0, 25.0), (0.0, 10.0)];
    let east = vec![(6.0, 3.0), (9.0, 3.0), (9.0, 12.0), (6.0, 3.0)];
    let well = vec![(7.0, 4.0), (8.0, 4.0), (8.0, 5.0), (7.0, 4.0)];
    let blocks = [polygon(false, 0, &[west]), polygon(false, 1, &[east, well])];
    let mut room = Room::of(4, 16);
    let mut state = State::start(geometry_type::MULTI_POLYGON, false, false);
    room.feature(&mut state, &framed(geometry_type::MULTI_POLYGON, false, 0, &blocks));
    assert_eq!(box_of(&mut room, 0), [0.0, 3.0, 9.0, 25.0]);
    assert_eq!(box_of(&mut room, 1), [0.0, 10.0, 4.0, 25.0], "a part has a box of its own");
    assert_eq!(box_of(&mut room, 2), [6.0, 3.0, 9.0, 12.0]);
}

#[test]
fn parts_of_every_type_under_every_type() {
    for kind in 0..=255 {
        let mut room = Room::of(2, 2);
        put(&mut room, 1, (2.0, 3.0), 2..2);
        room.table[64] = kind;
        room.put_record(0, kind, &[(PARTS, 1, 1)]);
        assert_eq!(box_of(&mut room, 0), [2.0, 3.0, 2.0, 3.0], "type {kind}");
    }
}

#[test]
fn an_odd_last_word_is_not_taken_in_a_part() {
    let mut room = Room::of(2, 2);
    room.xy[..3].copy_from_slice(&[2.0, 3.0, 9.0].map(f64::to_bits));
    room.put_record(0, 0, &[(PARTS, 1, 1)]);
    room.put_record(1, 0, &[(XY, 0, 3)]);
    assert_eq!(box_of(&mut room, 0), [2.0, 3.0, 2.0, 3.0]);
}

/// Which zero stays at the edges of record 0, where the place of record `minus` is -0.0 and all others are 0.0.
fn zero_of(room: &mut Room, minus: usize) -> u64 {
    for (n, pair) in room.xy.chunks_exact_mut(2).enumerate() {
        pair.fill(if n == minus { -0.0f64 } else { 0.0 }.to_bits());
    }
    let [zero, others @ ..] = box_of(room, 0).map(f64::to_bits);
    assert_eq!(others, [zero; 3]);
    zero
}

#[test]
fn of_two_zeros_the_first_on_the_way_stays() {
    let (plus, minus) = (0.0f64.to_bits(), (-0.0f64).to_bits());
    let mut room = Room::of(4, 4);
    put(&mut room, 0, place(0), 1..3);
    put(&mut room, 1, place(0), 3..4);
    put(&mut room, 2, place(0), 4..4);
    put(&mut room, 3, place(0), 4..4);
    assert_eq!([0, 1, 2, 3].map(|n| zero_of(&mut room, n)), [minus, plus, plus, plus], "own pairs come first");
    room.put_record(0, 0, &[(PARTS, 1, 2)]);
    assert_eq!([1, 2, 3].map(|n| zero_of(&mut room, n)), [minus, plus, plus], "then the first part");
    room.put_record(1, 0, &[(PARTS, 3, 1)]);
    assert_eq!([2, 3].map(|n| zero_of(&mut room, n)), [plus, minus], "with its own parts, before the second");
}

#[test]
fn levels_16_pass_and_17_do_not() {
    assert_eq!(box_of(&mut chain(16), 0), around(0..16));
    let mut room = chain(17);
    assert_eq!(refusal_of(&mut room, 0), Refusal::TooDeep);
    assert_eq!(box_of(&mut room, 1), around(1..17), "the record that is asked for is level 1");
}

#[test]
fn too_deep_comes_before_bad() {
    let mut room = chain(17);
    spoil(&mut room, 16);
    assert_eq!(refusal_of(&mut room, 0), Refusal::TooDeep);
    assert_eq!(refusal_of(&mut room, 1), Refusal::BadRecord, "at level 16");
}

#[test]
fn the_first_refusal_on_the_way_is_the_answer() {
    let mut room = Room::of(20, 20);
    put(&mut room, 0, place(0), 1..4);
    put(&mut room, 1, place(1), 20..20);
    put(&mut room, 2, place(2), 4..5);
    put(&mut room, 3, place(3), 20..20);
    put_chain(&mut room, 4..20);
    assert_eq!(refusal_of(&mut room, 0), Refusal::TooDeep, "record 18 is at level 17");
    spoil(&mut room, 3);
    assert_eq!(refusal_of(&mut room, 0), Refusal::TooDeep, "a bad part behind it");
    spoil(&mut room, 1);
    assert_eq!(refusal_of(&mut room, 0), Refusal::BadRecord, "a bad part before it");
}

#[test]
fn a_record_may_be_clear_near_the_root_and_too_deep_further_down() {
    let mut room = Room::of(18, 18);
    put(&mut room, 0, place(0), 1..3);
    put(&mut room, 1, place(1), 4..5);
    put(&mut room, 2, place(2), 4..5);
    put_chain(&mut room, 3..18);
    assert_eq!(box_of(&mut room, 0), around(0..18), "record 4 at level 3, twice");
    put(&mut room, 2, place(2), 3..4);
    assert_eq!(refusal_of(&mut room, 0), Refusal::TooDeep, "record 4 at level 3, and then at level 4");
}

/// Sixteen layers of as many records, each with its place, whose parts are the whole next layer.
fn layers(width: usize) -> Room {
    let records = usable::LEVELS * width;
    let mut room = Room::of(records, records);
    for n in 0..records {
        let next = (n / width + 1) * width;
        put(&mut room, n, place(n), next..records.min(next + width));
    }
    room
}

/// There are 256^15 ways down, so a walk that goes each of them does not end.
#[test]
fn a_badly_shared_table_answers() {
    let mut room = layers(256);
    let last = usable::RECORDS - 1;
    assert_eq!(box_of(&mut room, 0), around(0..usable::RECORDS));
    spoil(&mut room, last);
    assert_eq!(refusal_of(&mut room, 0), Refusal::BadRecord);
    assert_eq!(refusal_of(&mut room, last as u32), Refusal::BadRecord);
    assert_eq!(box_of(&mut room, last as u32 - 1), around(last - 1..last));
}
