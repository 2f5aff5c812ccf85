//! Events given many in a call: as event after event, up to the first that is refused.
mod common;
use bintolage::usable::STATE_WORDS;
use bintolage::{event, geometry_type, Event, Refusal, State, Taken};
use common::*;

fn records(events: &[Event]) -> Vec<u8> {
    events.iter().flat_map(|e| e.to_bytes()).collect()
}

/// Two polygons, of two rings and of one, with a height beside every pair of the second.
fn fields() -> Vec<Event> {
    let mut low = polygon(false, 1, &[pairs(4)]);
    for e in low.iter_mut().filter(|e| e.kind == event::XY) {
        (e.kind, e.present, e.z) = (event::COORDINATE, event::Z, 2.5f64.to_bits());
    }
    framed(geometry_type::MULTI_POLYGON, false, 0, &[polygon(false, 0, &[pairs(5), pairs(4)]), low])
}

/// The answer, and what `events` leave behind that are given so many in each call.
fn given(events: &[Event], in_each: usize, room: &mut Room) -> (Vec<Taken>, State) {
    let mut state = State::start(geometry_type::MULTI_POLYGON, false, false);
    let answers = events.chunks(in_each).map(|some| state.events(&records(some), &mut room.memory())).collect();
    (answers, state)
}

fn lists(room: Room) -> (Vec<u8>, Vec<u64>, Vec<u32>, Vec<u64>) {
    (room.table, room.xy, room.ends, room.z)
}

#[test]
fn any_split_of_the_events_writes_the_same() {
    let events = fields();
    let mut each = Room::of(4, 32);
    let mut state = State::start(geometry_type::MULTI_POLYGON, false, false);
    each.write(&mut state, &events).unwrap();
    let expected = lists(each);
    for in_each in 1..=events.len() {
        let mut room = Room::of(4, 32);
        let (answers, after) = given(&events, in_each, &mut room);
        let counts: usize = answers.iter().map(|taken| taken.count).sum();
        assert!(answers.iter().all(|taken| taken.answer.is_ok()), "{in_each} in each call");
        assert_eq!((counts, after), (events.len(), state), "{in_each} in each call");
        assert_eq!(lists(room), expected, "{in_each} in each call");
    }
}

#[test]
fn the_events_before_a_refused_one_are_taken() {
    let mut events = fields();
    events[7].present = 1; // an xy event with a present bit
    let (mut one_by_one, mut many) = (Room::of(4, 32), Room::of(4, 32));
    let mut state = State::start(geometry_type::MULTI_POLYGON, false, false);
    assert_eq!(one_by_one.write(&mut state, &events), Err(Refusal::Malformed));
    let (answers, after) = given(&events, events.len(), &mut many);
    assert_eq!(answers, [Taken { answer: Err(Refusal::Malformed), count: 7 }]);
    assert_eq!(after, state);
    assert_eq!(lists(many), lists(one_by_one));
}

#[test]
fn a_pool_runs_out_within_a_run_of_pairs() {
    let events = line(true, 0, &pairs(5));
    let mut room = Room::of(2, 3);
    let mut state = State::start(geometry_type::LINE_STRING, false, false);
    let taken = state.events(&records(&events), &mut room.memory());
    assert_eq!(taken, Taken { answer: Err(Refusal::NoRoom), count: 4 });
    assert_eq!(room.xy, pairs(3).iter().flat_map(|(x, y)| [x.to_bits(), y.to_bits()]).collect::<Vec<_>>());
}

#[test]
fn a_tail_that_is_no_whole_record_is_malformed() {
    let events = line(true, 0, &pairs(2));
    for missing in 1..64 {
        let mut room = Room::of(2, 4);
        let mut state = State::start(geometry_type::LINE_STRING, false, false);
        let bytes = records(&events);
        let taken = state.events(&bytes[..bytes.len() - missing], &mut room.memory());
        assert_eq!(taken, Taken { answer: Err(Refusal::Malformed), count: events.len() - 1 });
    }
}

#[test]
fn no_event_changes_no_word_of_any_state() {
    let words = [0xFFFF_FFFF; STATE_WORDS];
    let mut state = State::from_words(words);
    let mut room = Room::of(1, 1);
    assert_eq!(state.events(&[], &mut room.memory()), Taken { answer: Ok(()), count: 0 });
    assert_eq!(state.words(), words);
}

#[test]
fn a_feature_that_waits_takes_none() {
    let mut room = Room::of(2, 8);
    let mut state = State::start(geometry_type::LINE_STRING, false, false);
    room.feature(&mut state, &line(true, 0, &pairs(3)));
    let before = state;
    let taken = state.events(&records(&line(true, 0, &pairs(3))[1..]), &mut room.memory());
    assert_eq!((taken, state), (Taken { answer: Err(Refusal::NotItsTurn), count: 0 }, before));
}
