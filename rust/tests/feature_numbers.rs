//! The number of a feature: held from its first event that is taken to the next feature, asked of every event between, and said
//! by a reading.
mod common;
use bintolage::{column_type, event, geometry_type as ty, Event, Refusal, State, Taken};
use common::{framed, line, numbered, pairs, polygon, Room, FEATURE};

const NUMBERS: [u32; 5] = [0, 1, FEATURE, 1 << 31, u32::MAX];
const OTHER: u32 = FEATURE ^ 1 << 31;

fn records(events: &[Event]) -> Vec<u8> {
    events.iter().flat_map(|e| e.to_bytes()).collect()
}

/// Two polygons, of two rings and of one.
fn blocks() -> Vec<Event> {
    framed(ty::MULTI_POLYGON, false, 0, &[polygon(false, 0, &[pairs(5), pairs(4)]), polygon(false, 1, &[pairs(4)])])
}

/// An event of every kind, tagged and untagged where a kind may be either.
fn every_kind() -> Vec<Event> {
    let types = (ty::POINT..=ty::TRIANGLE).filter(|kind| !matches!(*kind, ty::CURVE | ty::SURFACE));
    let mut events = vec![
        Event::xy(FEATURE, 1.0, 2.0, 0),
        Event::coordinate(FEATURE, 1.0, 2.0, Some(3.0), Some(4.0), Some(5.0), Some(6), 0),
    ];
    for kind in types {
        events.extend([Event::begin(FEATURE, kind, false, 0, 0), Event::end(FEATURE, kind, false, 0)]);
        if matches!(kind, ty::LINE_STRING | ty::POLYGON | ty::TRIANGLE) {
            events.extend([Event::begin(FEATURE, kind, true, 0, 0), Event::end(FEATURE, kind, true, 0)]);
        }
    }
    events
}

/// A state, and all that is lent to it.
type Whole = (State, Vec<u8>, Vec<u64>, Vec<u32>, [Vec<u64>; 4]);

fn whole(state: State, room: &Room) -> Whole {
    let values = [&room.z, &room.m, &room.t, &room.tm].map(Vec::clone);
    (state, room.table.clone(), room.xy.clone(), room.ends.clone(), values)
}

/// The event is refused by `event` and by `events`, and nothing changes.
fn refuses(state: State, room: &mut Room, given: Event, refusal: Refusal) {
    let before = whole(state, room);
    let mut after = state;
    assert_eq!(room.write(&mut after, &[given]), Err(refusal), "{given:?}");
    assert_eq!(whole(after, room), before, "{given:?}");
    let taken = after.events(&records(&[given]), &mut room.memory());
    assert_eq!(taken, Taken { answer: Err(refusal), count: 0 }, "{given:?}");
    assert_eq!(whole(after, room), before, "{given:?}");
}

#[test]
fn numbers_that_agree_are_taken_and_held_until_next() {
    for feature in NUMBERS {
        let mut room = Room { feature, ..Room::of(4, 16) };
        let mut state = State::start(ty::MULTI_POLYGON, false, false);
        assert_eq!(state.feature(), None);
        for event in numbered(feature, &blocks()) {
            assert_eq!(room.write(&mut state, &[event]), Ok(()));
            assert_eq!(state.feature(), Some(feature));
        }
        state.finish(&mut room.memory()).unwrap();
        assert_eq!(state.feature(), Some(feature), "finish keeps it");
        assert_eq!(room.read(ty::MULTI_POLYGON, 0).1, numbered(feature, &blocks()));
        state.next(&mut room.memory()).unwrap();
        assert_eq!(state.feature(), None, "next lets it go");
    }
}

#[test]
fn one_that_differs_is_refused_at_each_kind() {
    for given in every_kind() {
        for (held, other) in [(FEATURE, OTHER), (0, 1), (1, 0), (0, u32::MAX), (u32::MAX, 0), (256, 1)] {
            let mut room = Room::of(4, 4);
            let mut state = State::start(ty::UNKNOWN, false, false);
            room.write(&mut state, &[Event::begin(held, ty::GEOMETRY_COLLECTION, false, 0, 0)]).unwrap();
            refuses(state, &mut room, Event { feature: other, ..given }, Refusal::OtherFeature);
            assert_eq!(room.write(&mut state, &[Event { feature: held, ..given }]), Ok(()), "{given:?}");
        }
    }
}

#[test]
fn each_kind_sets_the_number() {
    for given in every_kind() {
        for feature in NUMBERS {
            let mut room = Room::of(4, 4);
            let mut state = State::start(ty::UNKNOWN, false, false);
            assert_eq!(room.write(&mut state, &[Event { feature, ..given }]), Ok(()), "{given:?}");
            assert_eq!(state.feature(), Some(feature), "{given:?}");
        }
    }
}

#[test]
fn a_refused_event_sets_none() {
    let mut room = Room::of(1, 1);
    let state = State::start(ty::LINE_STRING, false, false);
    let malformed = Event { present: 1, ..Event::xy(OTHER, 1.0, 2.0, 0) };
    refuses(state, &mut room, malformed, Refusal::Malformed);
    refuses(state, &mut room, Event::begin(OTHER, ty::POLYGON, true, 1, 0), Refusal::TypesMixed);
    let mut none = Room::of(0, 0);
    refuses(state, &mut none, Event::xy(OTHER, 1.0, 2.0, 0), Refusal::NoRoom);
    let mut taken = state;
    assert_eq!(room.write(&mut taken, &line(true, 0, &pairs(1))), Ok(()));
    assert_eq!(taken.feature(), Some(FEATURE));
}

#[test]
fn another_number_in_refused_events_alone_changes_nothing() {
    let mut room = Room::of(2, 8);
    let mut state = State::start(ty::LINE_STRING, false, false);
    let events = line(true, 0, &pairs(3));
    let stray = Event::begin(OTHER, ty::POLYGON, true, 1, 0);
    let mut due = Refusal::TypesMixed;
    for event in &events {
        refuses(state, &mut room, stray, due);
        room.write(&mut state, &[*event]).unwrap();
        due = Refusal::OtherFeature;
    }
    state.finish(&mut room.memory()).unwrap();
    assert_eq!(room.read(ty::LINE_STRING, 0).1, events);
}

/// 11, 15, 17, 5, 12: the first that is due.
#[test]
fn its_place_among_the_refusals() {
    let mut room = Room::of(1, 1);
    let mut state = State::start(ty::LINE_STRING, false, false);
    room.write(&mut state, &line(true, 0, &pairs(1))[..2]).unwrap();
    let (pair, mixed) = (Event::xy(FEATURE, 1.0, 2.0, 0), Event::begin(FEATURE, ty::POLYGON, true, 1, 0));
    let other = |e: Event| Event { feature: OTHER, ..e };
    refuses(state, &mut room, mixed, Refusal::TypesMixed);
    refuses(state, &mut room, other(mixed), Refusal::OtherFeature);
    refuses(state, &mut room, pair, Refusal::NoRoom);
    refuses(state, &mut room, other(pair), Refusal::OtherFeature);
    refuses(state, &mut room, Event { tagged: true, ..other(pair) }, Refusal::Malformed);
    let mut none = Room::of(0, 0);
    for tagged in [true, false] {
        for event in
            [Event::begin(FEATURE, ty::LINE_STRING, tagged, 1, 0), Event::end(FEATURE, ty::LINE_STRING, tagged, 0)]
        {
            refuses(state, &mut none, event, Refusal::NoRoom);
            refuses(state, &mut none, other(event), Refusal::OtherFeature);
        }
    }
    state.finish(&mut room.memory()).unwrap();
    refuses(state, &mut room, other(pair), Refusal::NotItsTurn);
    refuses(state, &mut room, pair, Refusal::NotItsTurn);
    refuses(state, &mut room, Event { tagged: true, ..other(pair) }, Refusal::Malformed);
}

#[test]
fn after_next_another_number_may_come() {
    let mut room = Room::of(4, 16);
    let mut state = State::start(ty::MULTI_POLYGON, false, false);
    for feature in [FEATURE, OTHER, 0, u32::MAX, u32::MAX, FEATURE] {
        let events = numbered(feature, &blocks());
        room.write(&mut state, &events[..1]).unwrap();
        assert_eq!(state.next(&mut room.memory()), Err(Refusal::NotItsTurn));
        assert_eq!(state.feature(), Some(feature), "a refused next keeps it");
        room.write(&mut state, &events[1..]).unwrap();
        state.finish(&mut room.memory()).unwrap();
        assert_eq!(state.finish(&mut room.memory()), Err(Refusal::NotItsTurn));
        assert_eq!(state.feature(), Some(feature));
        room.feature = feature;
        assert_eq!(room.read(ty::MULTI_POLYGON, 0).1, events);
        state.next(&mut room.memory()).unwrap();
        assert_eq!(state.feature(), None);
    }
}

#[test]
fn properties_do_not_look_at_it() {
    let mut room = Room::of(1, 4);
    let mut state = State::start(ty::LINE_STRING, false, false);
    let mut buffer = [0; 16];
    let mut property = |state: &mut State| state.property(0, column_type::UBYTE, 1, &[], &mut buffer);
    property(&mut state).unwrap();
    assert_eq!(state.feature(), None, "a property sets none");
    room.write(&mut state, &numbered(OTHER, &line(true, 0, &pairs(2)))).unwrap();
    property(&mut state).unwrap();
    assert_eq!(state.feature(), Some(OTHER));
    state.finish(&mut room.memory()).unwrap();
    state.next(&mut room.memory()).unwrap();
    state.finish(&mut room.memory()).unwrap();
    assert_eq!(state.feature(), None, "a feature without events has none");
}

/// Of many events in one call, those before the first of another number are taken, wherever it stands.
#[test]
fn many_events_up_to_another_number() {
    let events = blocks();
    for at in 1..events.len() {
        let mut changed = events.clone();
        changed[at].feature = OTHER;
        let (mut one_by_one, mut many) = (Room::of(4, 16), Room::of(4, 16));
        let fresh = State::start(ty::MULTI_POLYGON, false, false);
        let (mut each, mut all) = (fresh, fresh);
        one_by_one.write(&mut each, &events[..at]).unwrap();
        let taken = all.events(&records(&changed), &mut many.memory());
        assert_eq!(taken, Taken { answer: Err(Refusal::OtherFeature), count: at });
        assert_eq!(whole(all, &many), whole(each, &one_by_one));
        let rest = all.events(&records(&events[at..]), &mut many.memory());
        assert_eq!(rest, Taken { answer: Ok(()), count: events.len() - at });
    }
    let mut changed = events.clone();
    changed[0].feature = OTHER;
    let taken = State::start(ty::MULTI_POLYGON, false, false).events(&records(&changed), &mut Room::of(4, 16).memory());
    assert_eq!(taken, Taken { answer: Err(Refusal::OtherFeature), count: 1 }, "the first one's is held");
}

#[test]
fn a_reading_says_the_number_that_it_is_given() {
    let mut room = Room::of(4, 16);
    let mut events = blocks();
    for e in events.iter_mut().filter(|e| e.kind == event::XY) {
        (e.kind, e.present, e.z) = (event::COORDINATE, event::Z, 2.5f64.to_bits());
    }
    room.feature(&mut State::start(ty::MULTI_POLYGON, false, false), &events);
    for feature in NUMBERS {
        let mut log = vec![0xa5; 64 * events.len() + 63];
        let read = room.memory().tree().read(ty::MULTI_POLYGON, event::Z, feature, &mut log);
        assert_eq!((read.answer, read.count), (Ok(()), events.len()));
        let (written, rest) = log.split_at(64 * events.len());
        assert!(rest.iter().all(|byte| *byte == 0xa5));
        for (bytes, event) in written.chunks(64).zip(&events) {
            assert_eq!(bytes[12..16], feature.to_le_bytes());
            assert_eq!((&bytes[..12], &bytes[16..]), (&event.to_bytes()[..12], &event.to_bytes()[16..]));
        }
    }
}

/// A refused reading has said it too, in the records that there are.
#[test]
fn a_refused_reading_says_it_in_what_it_wrote() {
    for feature in NUMBERS {
        let mut room = Room { feature, ..Room::of(4, 16) };
        room.feature(&mut State::start(ty::MULTI_POLYGON, false, false), &blocks());
        room.log.truncate(64 * 5);
        let (read, events) = room.read(ty::MULTI_POLYGON, 0);
        assert_eq!((read.answer, events), (Err(Refusal::LogFull), numbered(feature, &blocks()[..5])));
    }
}

#[test]
fn three_features_in_one_log() {
    let mut room = Room::of(4, 16);
    let mut state = State::start(ty::UNKNOWN, false, false);
    let features = [
        numbered(u32::MAX, &polygon(true, 0, &[pairs(4)])),
        numbered(0, &line(true, 0, &pairs(2))),
        numbered(7, &blocks()),
    ];
    let mut log = vec![0; 64 * features.iter().map(Vec::len).sum::<usize>()];
    let mut used = 0;
    for events in &features {
        room.feature(&mut state, events);
        let number = state.feature().unwrap();
        let read = room.memory().tree().read(ty::UNKNOWN, 0, number, &mut log[64 * used..]);
        assert_eq!((read.answer, read.count), (Ok(()), events.len()));
        used += read.count;
        state.next(&mut room.memory()).unwrap();
    }
    for (number, events) in [(7, &features[2]), (0, &features[1]), (u32::MAX, &features[0])] {
        let found: Vec<Event> = Event::in_log(&log, used).filter(|e| e.feature == number).collect();
        assert_eq!(&found, events);
    }
}
