mod common;
use bintolage::{event, geometry_type, read_properties, Event, State, Value, ValueRecord, Writer};
use common::{framed, line, pairs, polygon, Room, FEATURE};

#[test]
fn a_polygon_with_keep_out_rings() {
    let mut room = Room::of(4, 64);
    let events = polygon(true, 0, &[pairs(5), pairs(4), pairs(6)]);
    room.feature(&mut State::start(geometry_type::POLYGON, false, false), &events);
    let (read, said) = room.read(geometry_type::POLYGON, 0);
    assert_eq!(read.answer, Ok(()));
    assert_eq!(said, events);
}

#[test]
fn a_row_of_features() {
    let mut room = Room::of(8, 64);
    let mut state = State::start(geometry_type::MULTI_POLYGON, false, false);
    for rings in [1, 3, 2] {
        let polygons: Vec<_> = (0..2).map(|i| polygon(false, i, &vec![pairs(4); rings])).collect();
        let events = framed(geometry_type::MULTI_POLYGON, false, 0, &polygons);
        room.feature(&mut state, &events);
        assert_eq!(room.read(geometry_type::MULTI_POLYGON, 0).1, events);
        state.next(&mut room.memory()).unwrap();
    }
}

#[test]
fn a_line_with_heights_and_a_nan_that_keeps_its_payload() {
    let mut room = Room::of(1, 8);
    let mut events = line(true, 0, &pairs(3));
    for (e, i) in events[1..4].iter_mut().zip(0..) {
        let z = f64::from_bits(0x7ff8_0000_0000_0001 + u64::from(i));
        *e = Event::coordinate(FEATURE, 1.0, -0.0, Some(z), None, None, None, i);
    }
    room.feature(&mut State::start(geometry_type::LINE_STRING, false, false), &events);
    assert_eq!(room.read(geometry_type::LINE_STRING, event::Z).1, events);
    assert_eq!(room.read(geometry_type::LINE_STRING, event::Z | 0xf0).1, events, "higher flags are not looked at");
}

#[test]
fn properties_of_every_type() {
    let values = [
        Value::Byte(-1),
        Value::UByte(255),
        Value::Bool(true),
        Value::Short(-2),
        Value::UShort(65_535),
        Value::Int(-3),
        Value::UInt(u32::MAX),
        Value::Long(-4),
        Value::ULong(u64::MAX),
        Value::Float(1.5),
        Value::Double(-0.0),
        Value::String("Søren"),
        Value::Json("{}"),
        Value::DateTime("2026-04-01"),
        Value::Binary(&[0xff, 0]),
    ];
    let columns: Vec<u8> = (0..15).collect();
    let mut room = Room::of(1, 1);
    let mut properties = room.properties.split_off(0);
    let mut writer = Writer::start(geometry_type::POINT, false, false, room.memory(), &mut properties);
    for (column, &value) in values.iter().enumerate() {
        writer.property(column as u32, value).unwrap();
    }
    let mut log = [0; 16 * 16];
    let bytes = writer.properties();
    let read = read_properties(bytes, Some(&columns), None, &mut log);
    assert_eq!((read.answer, read.count, read.stopped), (Ok(()), 15, false));
    for (record, value) in ValueRecord::in_log(&log, read.count).zip(values) {
        assert_eq!(record.value(bytes), Some(value));
    }
    let read = read_properties(bytes, Some(&columns), Some(2), &mut log);
    assert_eq!((read.answer, read.count, read.stopped), (Ok(()), 3, true));
    let read = read_properties(bytes, None, None, &mut log);
    assert_eq!((read.answer, read.count, read.stopped), (Ok(()), 0, false));
}

#[test]
fn a_box_that_no_nan_moves() {
    let mut room = Room::of(1, 8);
    let line = line(true, 0, &[(3.0, -1.0), (f64::NAN, 7.0), (-2.0, f64::NAN)]);
    room.feature(&mut State::start(geometry_type::LINE_STRING, false, false), &line);
    let boxed = room.memory().tree().bbox(0);
    assert_eq!(boxed.answer, Ok(()));
    assert_eq!([boxed.least_x, boxed.least_y, boxed.greatest_x, boxed.greatest_y], [-2.0, -1.0, 3.0, 7.0]);
}
