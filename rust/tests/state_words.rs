//! A writer's state is its words: kept, copied and taken up again at any place.
mod common;
use bintolage::{column_type, geometry_type, Event, Refusal, State, StateWords, Value, Writer};
use common::{framed, numbered, pairs, polygon, Room, FEATURE};

/// The marks of word 0: a finished feature waits, a number is held.
const WAITING: u32 = 4 << 24;
const HELD: u32 = 8 << 24;

#[test]
fn the_words_say_what_the_header_says() {
    assert_eq!(State::start(5, true, false).words()[..4], [5 + (1 << 24), 0, 0, 0]);
    assert_eq!(State::start(0, false, true).words()[0], 2 << 24);
    let mut room = Room::of(4, 16);
    let mut state = State::start(geometry_type::MULTI_POLYGON, false, false);
    let feature = framed(geometry_type::MULTI_POLYGON, false, 0, &[polygon(false, 0, &[pairs(4), pairs(3)])]);
    room.feature(&mut state, &feature);
    assert_eq!(state.words()[..4], [6 + HELD + WAITING, 1, 0, FEATURE]);
    state.next(&mut room.memory()).unwrap();
    assert_eq!(state.words()[..4], [6, 0, 0, 0]);
    room.write(&mut state, &numbered(u32::MAX, &feature[..5])).unwrap();
    state.property(0, column_type::INT, 7, &[], &mut [0; 6]).unwrap();
    assert_eq!(state.words(), [6 + HELD, 0, 6, u32::MAX, 0, 4, 0, 0, 0, 0, 0, 0, 0, 0, 0, 0]);
}

#[test]
fn without_its_mark_a_number_is_not_looked_at() {
    let mut room = Room::of(2, 8);
    let mut words = State::start(geometry_type::POLYGON, false, false).words();
    words[3] = 77;
    let begin = &polygon(true, 0, &[pairs(4)])[..1];
    let mut state = State::from_words(words);
    assert_eq!(state.feature(), None);
    state.property(0, column_type::BYTE, 1, &[], &mut [0; 8]).unwrap();
    assert_eq!(state.words()[3], 0, "a call that is done writes it as 0");
    let mut state = State::from_words(words);
    assert_eq!(room.write(&mut state, begin), Ok(()));
    assert_eq!(state.feature(), Some(FEATURE));
    words[0] |= HELD;
    let mut state = State::from_words(words);
    assert_eq!(state.feature(), Some(77));
    assert_eq!(room.write(&mut state, begin), Err(Refusal::OtherFeature));
    assert_eq!(state.words(), words);
    assert_eq!(room.write(&mut state, &numbered(77, begin)), Ok(()));
    assert_eq!(state.words(), words);
}

#[test]
fn a_state_taken_up_after_every_event_writes_the_same() {
    let feature = polygon(true, 0, &[pairs(5), pairs(4)]);
    let (mut whole, mut split) = (Room::of(2, 16), Room::of(2, 16));
    let mut state = State::start(geometry_type::POLYGON, false, false);
    whole.feature(&mut state, &feature);
    let mut words = State::start(geometry_type::POLYGON, false, false).words();
    for event in &feature {
        let mut properties = [0; 8];
        let mut writer = Writer::resume(State::from_words(words), split.memory(), &mut properties);
        writer.event(event).unwrap();
        words = writer.state().words();
    }
    let mut kept = State::from_words(words);
    kept.finish(&mut split.memory()).unwrap();
    assert_eq!(kept, state);
    assert_eq!((split.table, split.xy, split.ends), (whole.table, whole.xy, whole.ends));
}

#[test]
fn any_words_are_a_state_and_a_refusal_leaves_each_bit() {
    let mut room = Room::of(2, 8);
    let mut word = 1u32;
    for _ in 0..2_000 {
        let words: StateWords = core::array::from_fn(|_| {
            word = word.wrapping_mul(1_664_525).wrapping_add(1_013_904_223);
            word
        });
        let mut state = State::from_words(words);
        let events = [Event::xy(FEATURE, 1.0, 2.0, 0), Event::end(FEATURE, geometry_type::LINE_STRING, true, 0)];
        let refused = [
            room.write(&mut state, &events).is_err(),
            state.finish(&mut room.memory()).is_err(),
            state.next(&mut room.memory()).is_err(),
            state.property(0, column_type::BYTE, 1, &[], &mut [0; 8]).is_err(),
        ];
        assert_eq!(refused, [true; 4], "so much is never lent here");
        assert_eq!(state.words(), words);
    }
}

/// A call, which is done on a fresh state with that mark.
type Call = (u32, fn(&mut State, &mut Room) -> Result<(), Refusal>);

const CALLS: [Call; 4] = [
    (0, |state, room| room.write(state, &[Event::begin(FEATURE, geometry_type::POLYGON, true, 1, 0)])),
    (0, |state, _| state.property(0, column_type::BYTE, 1, &[], &mut [0; 8])),
    (0, |state, room| state.finish(&mut room.memory())),
    (WAITING, |state, room| state.next(&mut room.memory())),
];

#[test]
fn spare_bits_are_not_looked_at() {
    let mut room = Room::of(2, 8);
    for (mark, call) in CALLS {
        let mut words = State::start(geometry_type::POLYGON, false, false).words();
        words[0] |= mark;
        let mut clean = State::from_words(words);
        words[0] |= 0xf0 << 24;
        words[3] = 77;
        let mut state = State::from_words(words);
        assert_eq!(room.write(&mut state, &[Event::default()]), Err(Refusal::Malformed));
        assert_eq!(state.words(), words, "a refusal leaves them");
        assert_eq!((call(&mut state, &mut room), call(&mut clean, &mut room)), (Ok(()), Ok(())));
        assert_eq!(state, clean, "a call that is done writes them as 0");
    }
}

#[test]
fn a_writer_hands_out_its_property_bytes() {
    let mut room = Room::of(1, 1);
    let mut properties = [0; 8];
    let mut writer = Writer::start(0, false, false, room.memory(), &mut properties);
    writer.property(258, Value::UByte(9)).unwrap();
    assert_eq!(writer.properties(), [2, 1, 9]);
}
