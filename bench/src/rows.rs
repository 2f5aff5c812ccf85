//! What is timed. Each row first sees that both sides give the same.
use crate::geos;
use crate::inputs::{Feature, Values, EVENT, FEATURE};
use crate::port::{self, Port};
use crate::timing::{in_turn, least, least_beside, timed, Rounds, Times};
use crate::wkb::{self, Order};
use geozero::{ColumnValue, FeatureProperties, PropertyProcessor};
use original::events::{give, put_feature, Log};
use original::feature_writer::{peek, FeatureWriter};
use original::geometry_reader::read_geometry;
use original::header_generated::GeometryType;
use original::properties;
use original::tree::{geometry_of, Store};
use std::hint::black_box;
use std::time::Duration;

const VALUE: usize = 16;

fn rust_writer(declared: u8) -> FeatureWriter<'static> {
    FeatureWriter::new(GeometryType(declared), false, false)
}

fn give_all(writer: &mut FeatureWriter, events: &[u8]) {
    for event in events.chunks_exact(EVENT) {
        give(writer, event).expect("the event is accepted");
    }
}

fn take_all(port: &mut Port, events: &[u8]) {
    assert_eq!(port.events(events), 0, "the events are accepted");
}

fn take_each(port: &mut Port, events: &[u8]) {
    for event in events.chunks_exact(EVENT) {
        assert_eq!(port.event(event), 0, "the event is accepted");
    }
}

fn finish_and_next(port: &mut Port) {
    assert_eq!((port.finish(), port.next()), (0, 0), "the feature is finished");
}

/// The feature as the Rust writes it, and as the library has it before `next`.
pub fn written(feature: &Feature) -> (Vec<u8>, Port) {
    let mut writer = rust_writer(feature.declared);
    give_all(&mut writer, &feature.events);
    let bytes = peek::finish(&mut writer);
    let mut port = Port::new(feature.declared);
    take_all(&mut port, &feature.events);
    assert_eq!(port.finish(), 0, "the feature is finished");
    assert!(port.begins_with(&Store::from_geometry(geometry_of(&bytes))), "both sides write the same tree");
    (bytes, port)
}

/// Events to a finished feature, and the writer ready for the next: all in one call.
pub fn write(rounds: Rounds, feature: &Feature) -> Times {
    write_by(rounds, feature, take_all)
}

/// The same, with a call for each event.
pub fn write_each(rounds: Rounds, feature: &Feature) -> Times {
    write_by(rounds, feature, take_each)
}

fn write_by(rounds: Rounds, feature: &Feature, take: fn(&mut Port, &[u8])) -> Times {
    written(feature);
    let mut writer = rust_writer(feature.declared);
    let mut port = Port::new(feature.declared);
    let rust = || {
        timed(|| {
            give_all(&mut writer, &feature.events);
            black_box(peek::finish(&mut writer));
        })
    };
    let port = || {
        timed(|| {
            take(&mut port, &feature.events);
            finish_and_next(&mut port);
        })
    };
    least(rounds, feature.events.len(), rust, port)
}

/// A finished feature to events in a log.
pub fn read(rounds: Rounds, feature: &Feature) -> Times {
    let (bytes, mut memory) = written(feature);
    let geometry = geometry_of(&bytes);
    let declared = GeometryType(feature.declared);
    let mut events = Log::new(feature.flags, feature.events.len() / EVENT);
    let mut log = vec![0; feature.events.len()];
    read_geometry(&mut events, &geometry, declared).expect("the tree is read");
    memory.read(feature.declared, feature.flags, FEATURE, &mut log);
    put_feature(&mut events.bytes, FEATURE);
    assert!(events.bytes == feature.events && log == feature.events, "both sides read what was written");
    let rust = || {
        events.bytes.clear();
        timed(|| read_geometry(&mut events, &geometry, declared).expect("the tree is read"))
    };
    let port = || {
        timed(|| {
            black_box(memory.read(feature.declared, feature.flags, FEATURE, black_box(&mut log)));
        })
    };
    least(rounds, feature.events.len(), rust, port)
}

/// Well-known binary to events in a log, beside GEOS, which makes a geometry of the same bytes.
pub fn read_wkb(rounds: Rounds, feature: &Feature, order: Order) -> Times {
    let bytes = wkb::of(&feature.events, order);
    let mut log = vec![255; feature.events.len()];
    port::read_wkb(&bytes, FEATURE, &mut log);
    assert!(log == feature.events, "the events are those that the bytes were made from");
    let port = || {
        timed(|| {
            black_box(port::read_wkb(black_box(&bytes), FEATURE, black_box(&mut log)));
        })
    };
    least_beside(rounds, feature.events.len(), geos::reading(&bytes), port)
}

/// Events to well-known binary, beside GEOS, which writes the same bytes of a geometry that it has.
pub fn write_wkb(rounds: Rounds, feature: &Feature) -> Times {
    let bytes = wkb::of(&feature.events, Order::Lowest);
    let mut out = vec![255; bytes.len()];
    assert_eq!(port::write_wkb(&feature.events, &mut out), (0, bytes.len()), "the events are written");
    assert!(out == bytes, "both sides write the same bytes");
    let port = || {
        timed(|| {
            black_box(port::write_wkb(black_box(&feature.events), black_box(&mut out)));
        })
    };
    least_beside(rounds, feature.events.len(), geos::writing(&bytes), port)
}

/// A list of collections, each in the one before, which is judged to its end and refused.
pub fn judge_nested(rounds: Rounds, feature: &Feature) -> Duration {
    const TOO_DEEP: u8 = 13;
    assert_eq!(port::write_wkb(&feature.events, &mut []), (TOO_DEEP, 0), "the list is too deep");
    let mut port = || {
        timed(|| {
            black_box(port::write_wkb(black_box(&feature.events), &mut []));
        })
    };
    let [port] = in_turn(rounds, [&mut port]);
    port
}

/// Finish and next, where `events` leave a list of so many bytes pending. `rest` ends it, untimed, before the next round.
pub fn carry(rounds: Rounds, events: &Feature, rest: &Feature, bytes: usize) -> Times {
    let mut writer = rust_writer(events.declared);
    let mut port = Port::new(events.declared);
    let rust = || {
        give_all(&mut writer, &events.events);
        let time = timed(|| {
            black_box(peek::finish(&mut writer));
        });
        give_all(&mut writer, &rest.events);
        peek::finish(&mut writer);
        time
    };
    let port = || {
        take_all(&mut port, &events.events);
        let time = timed(|| finish_and_next(&mut port));
        take_all(&mut port, &rest.events);
        finish_and_next(&mut port);
        time
    };
    least(rounds, bytes, rust, port)
}

fn put_all(writer: &mut FeatureWriter, values: &Values) {
    for _ in 0..values.count {
        let value = properties::value(values.kind, values.bits, black_box(values.text.as_bytes())).expect("a value");
        writer.property(0, "c", &value).expect("the value is accepted");
    }
}

/// As `put_all`, with a value whose text Rust's types hold to be UTF-8 already.
fn put_all_checked(writer: &mut FeatureWriter, values: &Values) {
    for _ in 0..values.count {
        writer.property(0, "c", &ColumnValue::String(black_box(&values.text))).expect("the value is accepted");
    }
}

fn lay_all(port: &mut Port, values: &Values) {
    for _ in 0..values.count {
        assert_eq!(port.property(0, values.kind, values.bits, black_box(values.text.as_bytes())), 0, "the value is accepted");
    }
}

fn property_bytes(values: &Values) -> Vec<u8> {
    let mut writer = rust_writer(1);
    put_all(&mut writer, values);
    let bytes = peek::properties(&writer).to_vec();
    let mut port = Port::new(1);
    lay_all(&mut port, values);
    assert_eq!(bytes, port.property_bytes(bytes.len()), "both sides lay the same bytes");
    bytes
}

fn write_values(rounds: Rounds, values: &Values, put: fn(&mut FeatureWriter, &Values)) -> Times {
    let bytes = property_bytes(values).len();
    let mut writer = rust_writer(1);
    let mut port = Port::new(1);
    let rust = || {
        timed(|| {
            put(&mut writer, values);
            black_box(peek::finish(&mut writer));
        })
    };
    let port = || {
        timed(|| {
            lay_all(&mut port, values);
            finish_and_next(&mut port);
        })
    };
    least(rounds, bytes, rust, port)
}

pub fn write_properties(rounds: Rounds, values: &Values) -> Times {
    write_values(rounds, values, put_all)
}

pub fn write_checked_texts(rounds: Rounds, values: &Values) -> Times {
    write_values(rounds, values, put_all_checked)
}

pub fn read_properties(rounds: Rounds, values: &Values) -> Times {
    let bytes = property_bytes(values);
    let columns = [values.kind];
    let feature = properties::feature(&bytes, Some(&columns));
    let mut records = properties::Values::of(&feature, u32::MAX);
    let mut log = vec![0; VALUE * values.count];
    feature.process_properties(&mut records).expect("the bytes are read");
    port::read_properties(&bytes, &columns, &mut log);
    assert!(records.records == log, "both sides read the same values");
    let rust = || {
        records.records.clear();
        timed(|| {
            feature.process_properties(&mut records).expect("the bytes are read");
        })
    };
    let port = || {
        timed(|| {
            black_box(port::read_properties(&bytes, &columns, black_box(&mut log)));
        })
    };
    least(rounds, VALUE * values.count, rust, port)
}
