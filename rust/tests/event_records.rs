//! Each event that a constructor makes, as its 64 bytes and back.
use bintolage::{geometry_type, Event};

/// The record that has these bytes at these places, and zeros elsewhere.
fn record(places: &[(usize, &[u8])]) -> [u8; 64] {
    let mut bytes = [0; 64];
    for (at, some) in places {
        bytes[*at..at + some.len()].copy_from_slice(some);
    }
    bytes
}

fn is_record(event: Event, places: &[(usize, &[u8])]) {
    assert_eq!(event.to_bytes(), record(places));
    assert_eq!(Event::from_bytes(&event.to_bytes()), event);
}

#[test]
fn a_begin_and_an_end() {
    let begin = Event::begin(0x0c0b_0a09, geometry_type::POLYGON, true, 0x0403_0201, u32::MAX);
    is_record(begin, &[(0, &[3, 1]), (4, &[1, 2, 3, 4]), (8, &[255; 4]), (12, &[9, 10, 11, 12])]);
    is_record(Event::begin(0, geometry_type::POINT, false, 0, 0), &[(0, &[1])]);
    let end = Event::end(u32::MAX, geometry_type::TRIANGLE, true, 0x0807_0605);
    is_record(end, &[(0, &[49, 1]), (8, &[5, 6, 7, 8]), (12, &[255; 4])]);
}

#[test]
fn a_pair() {
    let nan = 0x7ff8_0000_00c0_ffee_u64;
    let pair = Event::xy(1 << 31, f64::from_bits(nan), -0.0, u32::MAX);
    is_record(pair, &[(0, &[64]), (8, &[255; 4]), (15, &[0x80]), (16, &nan.to_le_bytes()), (31, &[0x80])]);
}

#[test]
fn a_coordinate_with_what_is_there() {
    let none = Event::coordinate(9, 1.0, 0.0, None, None, None, None, 7);
    is_record(none, &[(0, &[65]), (8, &[7]), (12, &[9]), (16, &1f64.to_le_bytes())]);
    for present in 0..16u8 {
        let there = |bit: u8| present & bit != 0;
        let (z, m, t) = (there(1).then_some(1.5), there(2).then_some(-2.0), there(4).then_some(f64::INFINITY));
        let tm = there(8).then_some(u64::MAX - 1);
        let word = |word: Option<f64>| word.map_or([0; 8], f64::to_le_bytes);
        let places: [(usize, &[u8]); 6] = [
            (0, &[65, 0, present]),
            (24, &(-0.0f64).to_le_bytes()),
            (32, &word(z)),
            (40, &word(m)),
            (48, &word(t)),
            (56, &tm.unwrap_or(0).to_le_bytes()),
        ];
        is_record(Event::coordinate(0, 0.0, -0.0, z, m, t, tm, 0), &places);
    }
}
