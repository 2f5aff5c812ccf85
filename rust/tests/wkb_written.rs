//! Events written as well-known binary: every type, each refusal and which comes first, what a refusal leaves alone, and that
//! what is written is read back and what is read is written again.
mod common;
use bintolage::usable::{EVENT_BYTES, LEVELS, LOG_RECORDS};
use bintolage::{bare, event, geometry_type as ty, read_wkb, write_wkb, Event, Refusal, State};
use common::wkb::Order::Little;
use common::wkb::{every_type, nested_collection, plain_collection, point, points, simple, Told};
use common::{framed, line, numbered, pairs, point_begin, polygon, Pair, Room, FEATURE};

const PAIR: Pair = (1.0, 2.0);

fn records(events: &[Event]) -> Vec<u8> {
    events.iter().flat_map(Event::to_bytes).collect()
}

/// What is written of the records, where there is room for so many bytes. Nothing is touched behind it, and nothing at all
/// where it is refused.
fn written(records: &[u8], room: usize) -> Result<Vec<u8>, Refusal> {
    let mut out = vec![0xa5; room];
    let answer = write_wkb(records, &mut out);
    let length = answer.unwrap_or(0);
    assert!(out[length..].iter().all(|&byte| byte == 0xa5), "{answer:?}");
    out.truncate(length);
    answer.map(|_| out)
}

fn is_written(events: &[Event], bytes: &[u8]) {
    let records = records(events);
    for spare in [0, 1, 100] {
        assert_eq!(written(&records, bytes.len() + spare), Ok(bytes.to_vec()), "{events:?}");
    }
}

/// It is refused, with room for all that could be written of it.
fn is_refused(events: &[Event], refusal: Refusal) {
    let records = records(events);
    assert_eq!(written(&records, records.len()), Err(refusal), "{events:?}");
}

/// A geometry of each type, as it is written.
fn as_written() -> Vec<Told> {
    let collections = [plain_collection(Little, Little), nested_collection(Little, Little)];
    simple(Little, Little).into_iter().chain(collections).collect()
}

/// Other than those above: of no ring, no pair or no member.
fn empty() -> Vec<Told> {
    let told = |kind, bytes, events| Told { kind, bytes, events };
    let multi = |kind| told(kind, Little.of(kind, &[]), framed(kind, false, 0, &[]));
    let blocks = [Little.polygon(&[]), Little.polygon(&[vec![]])];
    let mut all = vec![
        told(ty::LINE_STRING, Little.line(&[]), line(true, 0, &[])),
        told(ty::POLYGON, Little.polygon(&[]), polygon(true, 0, &[])),
        told(ty::POLYGON, Little.polygon(&[vec![], vec![]]), polygon(true, 0, &[vec![], vec![]])),
        told(
            ty::MULTI_LINE_STRING,
            Little.of(ty::MULTI_LINE_STRING, &[Little.line(&[])]),
            framed(ty::MULTI_LINE_STRING, false, 0, &[line(false, 0, &[])]),
        ),
        told(
            ty::MULTI_POLYGON,
            Little.of(ty::MULTI_POLYGON, &blocks),
            framed(ty::MULTI_POLYGON, false, 0, &[polygon(false, 0, &[]), polygon(false, 1, &[vec![]])]),
        ),
    ];
    all.extend((ty::MULTI_POINT..=ty::GEOMETRY_COLLECTION).map(multi));
    all
}

// the builders could be wrong as the library is, so these are written out

#[test]
fn every_byte_of_a_point_in_its_place() {
    let (x, y) = (f64::from_bits(0x0102_0304_0506_0708), f64::from_bits(0x1112_1314_1516_1718));
    let bytes = [1, 1, 0, 0, 0, 8, 7, 6, 5, 4, 3, 2, 1, 0x18, 0x17, 0x16, 0x15, 0x14, 0x13, 0x12, 0x11];
    is_written(&point(0, (x, y)), &bytes);
}

#[test]
fn a_count_byte_by_byte() {
    let bytes = written(&records(&line(true, 0, &pairs(0x0102))), 9 + 16 * 0x0102).unwrap();
    assert_eq!(bytes[..9], [1, 2, 0, 0, 0, 2, 1, 0, 0]);
    assert_eq!(bytes.len(), 9 + 16 * 0x0102);
}

/// A ring has no head; a Multi's member has one, and so has a line behind a Polygon.
#[test]
fn heads_byte_by_byte() {
    let one: [u8; 16] = [0, 0, 0, 0, 0, 0, 0xf0, 0x3f, 0, 0, 0, 0, 0, 0, 0, 0x40];
    let pair = [PAIR];
    let members = [
        polygon(true, 0, &[pair.to_vec()]),
        line(true, 1, &pair),
        framed(ty::MULTI_POLYGON, false, 2, &[polygon(false, 0, &[pair.to_vec()])]),
        framed(ty::MULTI_LINE_STRING, false, 3, &[line(false, 0, &pair)]),
        points(4, &pair),
        point(5, PAIR),
    ];
    let bytes = [
        &[1, 7, 0, 0, 0, 6, 0, 0, 0][..],
        &[1, 3, 0, 0, 0, 1, 0, 0, 0, 1, 0, 0, 0],
        &one,
        &[1, 2, 0, 0, 0, 1, 0, 0, 0],
        &one,
        &[1, 6, 0, 0, 0, 1, 0, 0, 0, 1, 3, 0, 0, 0, 1, 0, 0, 0, 1, 0, 0, 0],
        &one,
        &[1, 5, 0, 0, 0, 1, 0, 0, 0, 1, 2, 0, 0, 0, 1, 0, 0, 0],
        &one,
        &[1, 4, 0, 0, 0, 1, 0, 0, 0, 1, 1, 0, 0, 0],
        &one,
        &[1, 1, 0, 0, 0],
        &one,
    ];
    is_written(&framed(ty::GEOMETRY_COLLECTION, false, 0, &members), &bytes.concat());
}

#[test]
fn a_geometry_of_every_type() {
    for Told { bytes, events, .. } in as_written() {
        is_written(&events, &bytes);
    }
}

#[test]
fn an_empty_geometry_of_every_type() {
    for Told { bytes, events, .. } in empty() {
        is_written(&events, &bytes);
    }
}

#[test]
fn a_nan_keeps_its_payload_and_a_zero_its_sign() {
    let (x, y) = (0x7ff8_0000_00c0_ffee, 0x8000_0000_0000_0000);
    let bytes = [Little.head(1), Little.double(x), Little.double(y)].concat();
    is_written(&point(0, (f64::from_bits(x), f64::from_bits(y))), &bytes);
}

/// The events of the bytes, as the records of a log that has room for no more.
fn read(bytes: &[u8], feature: u32, count: usize) -> Vec<u8> {
    let mut log = vec![0; count * EVENT_BYTES];
    let read = read_wkb(bytes, feature, &mut log);
    assert_eq!((read.answer, read.count), (Ok(()), count));
    log
}

#[test]
fn what_is_written_is_read_back_under_every_number() {
    for Told { bytes, events, .. } in as_written().into_iter().chain(empty()) {
        for feature in [0, 1, FEATURE, 1 << 31, u32::MAX] {
            let given = records(&numbered(feature, &events));
            assert_eq!(written(&given, bytes.len()).as_ref(), Ok(&bytes), "of feature {feature}");
            assert_eq!(read(&bytes, feature, events.len()), given);
        }
    }
}

/// Whatever the orders of the bytes that are read, the lowest byte comes first in what is written. Every type stands there once
/// for each choice of orders, in the same row.
#[test]
fn what_is_read_is_written_again() {
    let little: Vec<_> = as_written().into_iter().map(|told| told.bytes).collect();
    for (Told { bytes, events, .. }, wanted) in every_type().iter().zip(little.iter().cycle()) {
        let log = read(bytes, FEATURE, events.len());
        assert_eq!(written(&log, wanted.len()).as_ref(), Ok(wanted), "{bytes:x?}");
    }
    for Told { bytes, events, .. } in empty() {
        assert_eq!(written(&read(&bytes, FEATURE, events.len()), bytes.len()), Ok(bytes));
    }
}

#[test]
fn a_tree_is_written() {
    for Told { kind, bytes, events } in simple(Little, Little).into_iter().chain([plain_collection(Little, Little)]) {
        let mut room = Room::of(8, 64);
        room.feature(&mut State::start(kind, false, false), &events);
        let (_, said) = room.read(kind, 0);
        is_written(&said, &bytes);
        let (_, with_flags) = room.read(kind, event::Z);
        is_refused(&with_flags, Refusal::BadlyNested);
    }
}

/// No part of a list lies beyond a usable room: every record counts.
#[test]
fn a_list_longer_than_any_log() {
    let many = pairs(LOG_RECORDS as u32);
    let mut given = records(&line(true, 0, &many));
    assert_eq!(written(&given, 9 + 16 * LOG_RECORDS).unwrap(), Little.line(&many));
    let last = given.len() - EVENT_BYTES;
    given[last + 8] = 1;
    assert_eq!(written(&given, 9 + 16 * LOG_RECORDS), Err(Refusal::BadlyNested));
    given[last + 3] = 1;
    assert_eq!(written(&given, 9 + 16 * LOG_RECORDS), Err(Refusal::Malformed));
}

#[test]
fn no_room() {
    for Told { bytes, events, .. } in as_written().into_iter().chain(empty()) {
        let records = records(&events);
        for room in 0..bytes.len() {
            assert_eq!(written(&records, room), Err(Refusal::NoRoom), "{room} of {} bytes", bytes.len());
        }
    }
}

#[test]
fn malformed() {
    for Told { events, .. } in as_written() {
        let whole = records(&events);
        for i in 0..events.len() {
            let mut damaged = whole.clone();
            damaged[i * EVENT_BYTES + 3] = 1;
            assert_eq!(written(&damaged, whole.len()), Err(Refusal::Malformed), "a spare byte of record {i}");
            damaged[i * EVENT_BYTES..][..EVENT_BYTES].fill(0);
            assert_eq!(written(&damaged, whole.len()), Err(Refusal::Malformed), "record {i} of no kind");
        }
    }
}

#[test]
fn a_rest_that_is_no_record() {
    let whole = records(&point(0, PAIR));
    for length in 0..whole.len() {
        let refusal = if length % EVENT_BYTES == 0 { Refusal::BadlyNested } else { Refusal::Malformed };
        assert_eq!(written(&whole[..length], 64), Err(refusal), "{length} bytes");
    }
    for rest in 1..EVENT_BYTES {
        let longer = [&whole[..], &whole[..rest]].concat();
        assert_eq!(written(&longer, 64), Err(Refusal::Malformed), "{rest} bytes more");
    }
}

/// Every list that has one event changed.
fn each_changed(events: &[Event], change: impl Fn(&mut Event)) -> Vec<Vec<Event>> {
    let changed = |i: usize| {
        let mut list = events.to_vec();
        change(&mut list[i]);
        list
    };
    (0..events.len()).map(changed).filter(|list| list != events).collect()
}

fn has_tag(e: &Event) -> bool {
    [ty::LINE_STRING, ty::POLYGON].contains(&(e.kind % event::END)) && e.kind < event::XY
}

fn has_size(e: &Event) -> bool {
    (ty::LINE_STRING..=ty::GEOMETRY_COLLECTION).contains(&e.kind)
}

#[test]
fn one_event_too_few_or_too_many() {
    for Told { events, .. } in as_written().into_iter().chain(empty()) {
        for i in 0..events.len() {
            is_refused(&[&events[..i], &events[i + 1..]].concat(), Refusal::BadlyNested);
            is_refused(&[&events[..=i], &events[i..]].concat(), Refusal::BadlyNested);
        }
    }
}

#[test]
fn one_field_that_is_wrong() {
    let changes: [fn(&mut Event); 9] = [
        |e| e.idx = e.idx.wrapping_add(1),
        |e| e.idx = e.idx.wrapping_sub(1),
        |e| e.idx ^= 1 << 31,
        |e| e.size = e.size.wrapping_add(u32::from(has_size(e))),
        |e| e.size = e.size.wrapping_sub(u32::from(has_size(e))),
        |e| e.size ^= u32::from(has_size(e)) << 31,
        |e| e.tagged ^= has_tag(e),
        |e| e.feature ^= 1,
        |e| e.feature ^= 1 << 31,
    ];
    for Told { events, .. } in as_written().into_iter().chain(empty()) {
        for (i, change) in changes.iter().enumerate() {
            let lists = each_changed(&events, change);
            lists.iter().for_each(|list| is_refused(list, Refusal::BadlyNested));
            // a Point has no size, and only lines and Polygons are tagged
            assert!(!lists.is_empty() || (3..=6).contains(&i), "change {i} changes nothing");
        }
    }
}

/// A begin and its end agree, and still they may not stand there.
#[test]
fn tagged_where_it_may_not_be() {
    let (one, ring) = ([PAIR], [vec![PAIR]]);
    is_refused(&line(false, 0, &one), Refusal::BadlyNested);
    is_refused(&polygon(false, 0, &ring), Refusal::BadlyNested);
    for member in [line(false, 0, &one), polygon(false, 0, &ring)] {
        is_refused(&framed(ty::GEOMETRY_COLLECTION, false, 0, &[member]), Refusal::BadlyNested);
    }
    is_refused(&framed(ty::POLYGON, true, 0, &[line(true, 0, &one)]), Refusal::BadlyNested);
    is_refused(&framed(ty::MULTI_LINE_STRING, false, 0, &[line(true, 0, &one)]), Refusal::BadlyNested);
    is_refused(&framed(ty::MULTI_POLYGON, false, 0, &[polygon(true, 0, &ring)]), Refusal::BadlyNested);
}

/// The same events with another type at the outermost begin and end.
fn retyped(events: &[Event], kind: u8, tagged: bool) -> Vec<Event> {
    let mut list = events.to_vec();
    let last = list.len() - 1;
    list[0] = Event { kind, tagged, ..list[0] };
    list[last] = Event { kind: kind + event::END, tagged, ..list[last] };
    list
}

#[test]
fn members_that_may_not_stand_there() {
    let one = [PAIR];
    let members = [
        vec![Event::xy(FEATURE, 1.0, 2.0, 0)],
        point(0, PAIR),
        line(true, 0, &one),
        line(false, 0, &one),
        polygon(true, 0, &[one.to_vec()]),
        polygon(false, 0, &[one.to_vec()]),
        points(0, &one),
        framed(ty::MULTI_LINE_STRING, false, 0, &[line(false, 0, &one)]),
        framed(ty::MULTI_POLYGON, false, 0, &[polygon(false, 0, &[one.to_vec()])]),
        framed(ty::GEOMETRY_COLLECTION, false, 0, &[point(0, PAIR)]),
    ];
    let mut taken = 0;
    for kind in ty::LINE_STRING..=ty::GEOMETRY_COLLECTION {
        for member in &members {
            let list = framed(kind, kind <= ty::POLYGON, 0, std::slice::from_ref(member));
            let first = member[0];
            let may_stand = match kind {
                ty::LINE_STRING | ty::MULTI_POINT => first.kind == event::XY,
                ty::POLYGON | ty::MULTI_LINE_STRING => first.kind == ty::LINE_STRING && !first.tagged,
                ty::MULTI_POLYGON => first.kind == ty::POLYGON && !first.tagged,
                _ => first.kind != event::XY && first.tagged == has_tag(&first),
            };
            if may_stand {
                taken += 1;
                assert!(written(&records(&list), 256).is_ok(), "{list:?}");
            } else {
                is_refused(&list, Refusal::BadlyNested);
            }
        }
    }
    assert_eq!(taken, 12);
}

#[test]
fn a_type_above_7() {
    let above = [8, 9, 10, 11, 12, 15, 16];
    for Told { events, .. } in as_written() {
        let sized: Vec<_> = if events[0].kind == ty::POINT { points(0, &[PAIR]) } else { events };
        above.iter().for_each(|&kind| is_refused(&retyped(&sized, kind, false), Refusal::BadlyNested));
        is_refused(&retyped(&sized, ty::TRIANGLE, true), Refusal::BadlyNested);
    }
}

#[test]
fn an_end_of_another_type() {
    for Told { events, .. } in as_written() {
        let last = events.len() - 1;
        for kind in (ty::POINT..=ty::GEOMETRY_COLLECTION).filter(|kind| kind + event::END != events[last].kind) {
            let end = Event::end(FEATURE, kind, kind == ty::LINE_STRING || kind == ty::POLYGON, 0);
            is_refused(&[&events[..last], &[end]].concat(), Refusal::BadlyNested);
        }
    }
}

#[test]
fn a_pair_with_more_than_x_and_y() {
    let coordinates = [(None, None), (Some(3.0), None), (None, Some(4.0))]
        .map(|(z, m)| Event::coordinate(FEATURE, 1.0, 2.0, z, m, None, None, 0));
    for coordinate in coordinates {
        let ends = (point_begin(0), Event::end(FEATURE, ty::POINT, false, 0));
        is_refused(&[ends.0, coordinate, ends.1], Refusal::BadlyNested);
        is_refused(&framed(ty::LINE_STRING, true, 0, &[vec![coordinate]]), Refusal::BadlyNested);
        is_refused(&framed(ty::MULTI_POINT, false, 0, &[vec![coordinate]]), Refusal::BadlyNested);
    }
}

#[test]
fn a_point_of_no_pair_or_two() {
    let whole = point(0, PAIR);
    let second = Event::xy(FEATURE, 1.0, 2.0, 1);
    for list in [vec![whole[0], whole[2]], vec![whole[0], whole[1], second, whole[2]]] {
        is_refused(&list, Refusal::BadlyNested);
        is_refused(&framed(ty::GEOMETRY_COLLECTION, false, 0, &[list]), Refusal::BadlyNested);
    }
}

#[test]
fn no_geometry_or_two() {
    is_refused(&[], Refusal::BadlyNested);
    for Told { events, .. } in as_written() {
        let mut second = events.clone();
        is_refused(&[&events[..], &second].concat(), Refusal::BadlyNested);
        let last = second.len() - 1;
        (second[0].idx, second[last].idx) = (1, 1);
        is_refused(&[&events[..], &second].concat(), Refusal::BadlyNested);
        is_refused(&second, Refusal::BadlyNested);
        is_refused(&[&events[..], &numbered(FEATURE + 1, &events)].concat(), Refusal::BadlyNested);
        is_refused(&events.iter().copied().rev().collect::<Vec<_>>(), Refusal::BadlyNested);
    }
}

/// Collections one in the other, the outermost at level 1, and what the innermost has.
fn inside(collections: usize, members: &[Vec<Event>]) -> Vec<Event> {
    let begin = |size| Event::begin(FEATURE, ty::GEOMETRY_COLLECTION, false, size, 0);
    let end = Event::end(FEATURE, ty::GEOMETRY_COLLECTION, false, 0);
    let mut events = vec![begin(1); collections - 1];
    events.push(begin(members.len() as u32));
    events.extend(members.iter().flatten());
    events.extend(vec![end; collections]);
    events
}

#[test]
fn level_16_is_written() {
    let lines = framed(ty::MULTI_LINE_STRING, false, 0, &[line(false, 0, &[PAIR])]);
    let cases = [
        (inside(LEVELS, &[]), 9 * LEVELS),
        (inside(LEVELS - 1, &[point(0, PAIR)]), 9 * (LEVELS - 1) + 21),
        (inside(LEVELS - 1, &[points(0, &[])]), 9 * LEVELS),
        (inside(LEVELS - 1, &[polygon(true, 0, &[vec![PAIR]])]), 9 * LEVELS + 4 + 16),
        (inside(LEVELS - 2, &[lines]), 9 * LEVELS + 16),
    ];
    for (events, length) in cases {
        let bytes = written(&records(&events), length).unwrap();
        assert_eq!(bytes.len(), length);
        assert_eq!(read(&bytes, FEATURE, events.len()), records(&events));
    }
}

#[test]
fn too_deep() {
    let cases = [
        inside(LEVELS + 1, &[]),
        inside(LEVELS, &[point(0, PAIR)]),
        inside(LEVELS, &[line(true, 0, &[])]),
        inside(LEVELS, &[polygon(true, 0, &[])]),
        inside(LEVELS, &[points(0, &[])]),
        inside(LEVELS - 1, &[points(0, &[PAIR])]),
        inside(LEVELS - 1, &[framed(ty::MULTI_LINE_STRING, false, 0, &[line(false, 0, &[])])]),
        inside(LEVELS - 1, &[framed(ty::MULTI_POLYGON, false, 0, &[polygon(false, 0, &[])])]),
    ];
    for events in cases {
        is_refused(&events, Refusal::TooDeep);
        // what stands behind the deepest is at a level that may be
        let (idx, mut behind) = (1, events[..events.len() - 1].to_vec());
        behind[0].size = 2;
        behind.extend(point(idx, PAIR));
        behind.push(events[events.len() - 1]);
        is_refused(&behind, Refusal::TooDeep);
    }
}

/// So many that a judge of a fixed depth would not see the innermost.
#[test]
fn collections_of_any_depth_are_judged_to_the_innermost() {
    for collections in [17, 255, 256, 257, 258, 300, 511, 512, 513, 1000] {
        let events = inside(collections, &[]);
        is_refused(&events, Refusal::TooDeep);
        is_refused(&events[..events.len() - 1], Refusal::BadlyNested);
        is_refused(&[&events[..], &events[events.len() - 1..]].concat(), Refusal::BadlyNested);
        for innermost in [collections - 1, collections] {
            let mut changed = events.clone();
            changed[innermost].idx = 1;
            is_refused(&changed, Refusal::BadlyNested);
            changed[innermost] = Event { tagged: true, ..events[innermost] };
            is_refused(&changed, Refusal::Malformed);
        }
        let mut unfilled = events.clone();
        unfilled[collections - 1].size = 1;
        is_refused(&unfilled, Refusal::BadlyNested);
    }
}

#[test]
fn collections_are_judged_at_every_depth() {
    for collections in [300, 1000] {
        let mut given = records(&inside(collections, &[point(0, PAIR)]));
        assert_eq!(written(&given, 0), Err(Refusal::TooDeep));
        for at in (8..given.len()).step_by(EVENT_BYTES) {
            given[at] = 1;
            assert_eq!(written(&given, 0), Err(Refusal::BadlyNested), "idx at byte {at}");
            given[at] = 0;
        }
    }
}

/// 11, 21, 13, 12: the first that is due, wherever in the list it stands.
#[test]
fn the_order_of_refusals() {
    let malformed = |i: usize, mut events: Vec<Event>| {
        events[i].present = 1 << 4;
        events
    };
    let unnested = |i: usize, mut events: Vec<Event>| {
        events[i].idx = 7;
        events
    };
    let answer = |events: &[Event], room: usize| written(&records(events), room).map(|bytes| bytes.len());
    for collections in [LEVELS, LEVELS + 1, 300] {
        let good = inside(collections, &[]);
        let (first, last) = (0, good.len() - 1);
        let room = 9 * collections;
        let (deep, at_all) = if collections == LEVELS {
            (Err(Refusal::NoRoom), Ok(room))
        } else {
            (Err(Refusal::TooDeep), Err(Refusal::TooDeep))
        };
        assert_eq!((answer(&good, room - 1), answer(&good, room)), (deep, at_all));
        for (one, other) in [(first, last), (last, first)] {
            for room in [0, room - 1, room] {
                assert_eq!(answer(&unnested(one, good.clone()), room), Err(Refusal::BadlyNested));
                assert_eq!(answer(&malformed(one, good.clone()), room), Err(Refusal::Malformed));
                assert_eq!(answer(&malformed(other, unnested(one, good.clone())), room), Err(Refusal::Malformed));
            }
        }
        let rest = [&records(&unnested(first, good))[..], &[0]].concat();
        assert_eq!(written(&rest, 0), Err(Refusal::Malformed));
    }
    is_refused(&malformed(0, numbered(1, &point(0, PAIR))), Refusal::Malformed);
}

/// Whatever stood where the number of bytes goes.
#[test]
fn a_refusal_says_no_bytes() {
    let good = point(0, PAIR);
    let cases = [
        (records(&good), 21, 0, 21),
        (records(&good)[1..].to_vec(), 21, 11, 0),
        (records(&good[1..]), 21, 21, 0),
        (records(&inside(LEVELS + 1, &[])), 9 * (LEVELS + 1), 13, 0),
        (records(&good), 20, 12, 0),
    ];
    for (given, room, number, length) in cases {
        for before in [0, 7, usize::MAX] {
            let (mut out, mut said) = (vec![0; room], before);
            assert_eq!((bare::write_wkb(&given, &mut out, &mut said), said), (number, length));
        }
    }
}
