//! Well-known binary read as events: every type in both byte orders, each refusal with the records before it, and the tree that
//! the events make.
mod common;
use bintolage::usable::{EVENT_BYTES, LEVELS, LOG_RECORDS};
use bintolage::{geometry_type as ty, read_wkb, Event, Read, Refusal, State, Taken};
use common::wkb::Order::{Big, Little};
use common::wkb::{every_type, nested_collection, plain_collection, point, points, simple, Order, Told, ORDERS};
use common::{framed, line, pairs, point_begin, polygon, Pair, Room, FEATURE};

/// The answer, and the events in the log, which has room for so many. Nothing is written behind them.
fn read_into(records: usize, bytes: &[u8]) -> (Read, Vec<Event>) {
    let mut log = vec![0xa5; records * EVENT_BYTES + EVENT_BYTES - 1];
    let read = read_wkb(bytes, FEATURE, &mut log);
    assert!(log[read.count * EVENT_BYTES..].iter().all(|&byte| byte == 0xa5));
    let events = Event::in_log(&log, read.count).collect();
    (read, events)
}

fn is_read(bytes: &[u8], events: &[Event]) {
    let (read, said) = read_into(events.len(), bytes);
    assert_eq!((read.answer, said), (Ok(()), events.to_vec()), "{bytes:x?}");
}

/// It is refused, with so many records in the log.
fn is_refused(bytes: &[u8], refusal: Refusal, kept: usize) {
    let (read, _) = read_into(64, bytes);
    assert_eq!(read, Read { answer: Err(refusal), count: kept }, "{bytes:x?}");
}

// the builders could be wrong as the library is, so these are written out

#[test]
fn a_point_byte_by_byte() {
    let little = [1, 1, 0, 0, 0, 0, 0, 0, 0, 0, 0, 0xf0, 0x3f, 0, 0, 0, 0, 0, 0, 0, 0x40];
    let big = [0, 0, 0, 0, 1, 0x3f, 0xf0, 0, 0, 0, 0, 0, 0, 0x40, 0, 0, 0, 0, 0, 0, 0];
    is_read(&little, &point(0, (1.0, 2.0)));
    is_read(&big, &point(0, (1.0, 2.0)));
}

#[test]
fn every_byte_of_a_number_in_its_place() {
    let (x, y) = (f64::from_bits(0x0102_0304_0506_0708), f64::from_bits(0x1112_1314_1516_1718));
    let pair = Event::xy(FEATURE, x, y, 0);
    let wanted = [point_begin(0), pair, Event::end(FEATURE, ty::POINT, false, 0)];
    let big = [0, 0, 0, 0, 1, 1, 2, 3, 4, 5, 6, 7, 8, 0x11, 0x12, 0x13, 0x14, 0x15, 0x16, 0x17, 0x18];
    let little = [1, 1, 0, 0, 0, 8, 7, 6, 5, 4, 3, 2, 1, 0x18, 0x17, 0x16, 0x15, 0x14, 0x13, 0x12, 0x11];
    is_read(&big, &wanted);
    is_read(&little, &wanted);
    let (read, said) = read_into(2, &[0, 0, 0, 0, 2, 1, 2, 3, 4]);
    assert_eq!(read, Read { answer: Err(Refusal::WkbCut), count: 1 });
    assert_eq!(said, [Event::begin(FEATURE, ty::LINE_STRING, true, 0x0102_0304, 0)]);
    let (_, said) = read_into(2, &[1, 2, 0, 0, 0, 1, 2, 3, 4]);
    assert_eq!(said, [Event::begin(FEATURE, ty::LINE_STRING, true, 0x0403_0201, 0)]);
}

#[test]
fn a_member_goes_by_its_own_order_byte_by_byte() {
    // a big-endian collection of a little-endian line and a big-endian MultiPoint, both empty
    let collection = [0, 0, 0, 0, 7, 0, 0, 0, 2, 1, 2, 0, 0, 0, 0, 0, 0, 0, 0, 0, 0, 0, 4, 0, 0, 0, 0];
    is_read(&collection, &framed(ty::GEOMETRY_COLLECTION, false, 0, &[line(true, 0, &[]), points(1, &[])]));
    // a little-endian MultiLineString of a big-endian line without a pair, and of a little-endian line of one
    let mut lines = vec![1, 5, 0, 0, 0, 2, 0, 0, 0, 0, 0, 0, 0, 2, 0, 0, 0, 0, 1, 2, 0, 0, 0, 1, 0, 0, 0];
    lines.extend([0, 0, 0, 0, 0, 0, 0xf0, 0x3f, 0, 0, 0, 0, 0, 0, 0, 0x40]);
    let wanted = [line(false, 0, &[]), line(false, 1, &[(1.0, 2.0)])];
    is_read(&lines, &framed(ty::MULTI_LINE_STRING, false, 0, &wanted));
}

#[test]
fn a_geometry_of_every_type() {
    for Told { bytes, events, .. } in every_type() {
        is_read(&bytes, &events);
    }
}

#[test]
fn an_empty_geometry_of_every_type() {
    for order in ORDERS {
        is_read(&order.line(&[]), &line(true, 0, &[]));
        is_read(&order.polygon(&[]), &polygon(true, 0, &[]));
        is_read(&order.polygon(&[vec![], vec![]]), &polygon(true, 0, &[vec![], vec![]]));
        for kind in ty::MULTI_POINT..=ty::GEOMETRY_COLLECTION {
            is_read(&order.of(kind, &[]), &framed(kind, false, 0, &[]));
        }
        let blocks = order.of(ty::MULTI_POLYGON, &[order.polygon(&[]), order.polygon(&[vec![]])]);
        let wanted = [polygon(false, 0, &[]), polygon(false, 1, &[vec![]])];
        is_read(&blocks, &framed(ty::MULTI_POLYGON, false, 0, &wanted));
    }
}

#[test]
fn a_nan_keeps_its_payload_and_a_zero_its_sign() {
    for order in ORDERS {
        let (x, y) = (0x7ff8_0000_00c0_ffee, 0x8000_0000_0000_0000);
        let bytes = [order.head(1), order.double(x), order.double(y)].concat();
        let (read, said) = read_into(3, &bytes);
        assert_eq!((read.answer, said[1].x, said[1].y), (Ok(()), x, y));
    }
}

#[test]
fn every_record_says_the_feature() {
    let Told { bytes, events, .. } = nested_collection(Little, Big);
    for feature in [0, 1, FEATURE, 1 << 31, u32::MAX] {
        let mut log = vec![0; events.len() * EVENT_BYTES];
        let read = read_wkb(&bytes, feature, &mut log);
        assert_eq!(read, Read { answer: Ok(()), count: events.len() });
        let said: Vec<Event> = Event::in_log(&log, read.count).collect();
        assert_eq!(said, common::numbered(feature, &events));
    }
}

const PAIR: Pair = (1.0, 2.0);

/// The bytes are cut everywhere. Each place has the number of records of a cut before it, and behind the place before.
fn is_cut(bytes: &[u8], places: &[(usize, usize)]) {
    let mut from = 0;
    for &(place, kept) in places {
        (from..place).for_each(|length| is_refused(&bytes[..length], Refusal::WkbCut, kept));
        from = place;
    }
    assert_eq!(from, bytes.len());
}

#[test]
fn cut() {
    for order in ORDERS {
        let point = order.point(PAIR);
        // behind the head
        is_cut(&point, &[(5, 0), (21, 1)]);
        // behind the count, and a pair
        is_cut(&order.line(&pairs(2)), &[(9, 0), (25, 1), (41, 2)]);
        // behind the count, that of a ring, and its pair, with which the ring ends
        is_cut(&order.polygon(&[vec![PAIR], vec![]]), &[(9, 0), (13, 1), (29, 2), (33, 4)]);
        // behind the count, and the pair of a member
        is_cut(&order.of(ty::MULTI_POINT, &[point.clone(), point.clone()]), &[(9, 0), (30, 1), (51, 2)]);
        // behind the count, and that of a member
        is_cut(&order.of(ty::MULTI_LINE_STRING, &[order.line(&[PAIR])]), &[(9, 0), (18, 1), (34, 2)]);
        // behind the count, that of a member, that of its ring, and the ring
        let blocks = [order.polygon(&[vec![]]), order.polygon(&[])];
        is_cut(&order.of(ty::MULTI_POLYGON, &blocks), &[(9, 0), (18, 1), (22, 2), (31, 5)]);
        // behind the count, the head of a point, and its pair, with which it ends
        is_cut(&order.of(ty::GEOMETRY_COLLECTION, &[point, order.line(&[])]), &[(9, 0), (14, 1), (30, 2), (39, 4)]);
    }
}

#[test]
fn every_cut_keeps_the_events_before_it() {
    for Told { bytes, events, .. } in every_type() {
        for length in 0..bytes.len() {
            let (read, said) = read_into(events.len(), &bytes[..length]);
            assert_eq!((read.answer, &said[..]), (Err(Refusal::WkbCut), &events[..read.count]), "{length} bytes");
        }
    }
}

#[test]
fn a_count_of_more_than_there_is() {
    for order in ORDERS {
        let most = order.uint32(u32::MAX);
        let pair = order.pair(PAIR);
        is_refused(&[order.head(2), most.clone(), pair].concat(), Refusal::WkbCut, 2);
        is_refused(&[order.head(3), most.clone()].concat(), Refusal::WkbCut, 1);
        is_refused(&[order.head(7), most, order.polygon(&[])].concat(), Refusal::WkbCut, 3);
    }
}

#[test]
fn an_order_mark_that_is_neither_0_nor_1() {
    for (order, mark) in ORDERS.into_iter().flat_map(|order| (2..=255).map(move |mark| (order, mark))) {
        let point = order.point(PAIR);
        let marked = [&[mark], &point[1..]].concat();
        is_refused(&marked, Refusal::WkbUnknown, 0);
        is_refused(&[mark], Refusal::WkbUnknown, 0);
        is_refused(&order.of(ty::MULTI_POINT, &[point.clone(), marked.clone()]), Refusal::WkbUnknown, 2);
        is_refused(&order.of(ty::GEOMETRY_COLLECTION, &[point, marked]), Refusal::WkbUnknown, 4);
    }
}

/// No type, those above GeometryCollection, and the dialects of a Point with z, m, both, or a reference system.
const OTHER_TYPES: [u32; 13] =
    [0, 8, 9, 15, 17, 256, 1001, 2001, 3001, 0x8000_0001, 0x4000_0001, 0xc000_0001, 0x2000_0001];

#[test]
fn a_type_that_is_none() {
    for (order, kind) in ORDERS.into_iter().flat_map(|order| OTHER_TYPES.map(|kind| (order, kind))) {
        let other = [order.head(kind), order.pair(PAIR)].concat();
        is_refused(&other, Refusal::WkbUnknown, 0);
        is_refused(&other[..5], Refusal::WkbUnknown, 0);
        is_refused(&other[..4], Refusal::WkbCut, 0);
        is_refused(&order.of(ty::GEOMETRY_COLLECTION, &[order.point(PAIR), other]), Refusal::WkbUnknown, 4);
    }
}

#[test]
fn a_type_in_the_other_order() {
    for kind in 1..=7 {
        is_refused(&[vec![Big as u8], Little.uint32(kind)].concat(), Refusal::WkbUnknown, 0);
        is_refused(&[vec![Little as u8], Big.uint32(kind)].concat(), Refusal::WkbUnknown, 0);
    }
}

#[test]
fn a_member_that_is_not_of_its_multis_single_type() {
    for (order, multi) in ORDERS.into_iter().flat_map(|order| [4, 5, 6].map(|multi| (order, multi))) {
        for kind in 0..=8 {
            let member = order.head(kind);
            let refusal = if kind + 3 == u32::from(multi) { Refusal::WkbCut } else { Refusal::WkbUnknown };
            is_refused(&order.of(multi, &[member]), refusal, 1);
        }
    }
}

/// Collections one in the other, the outermost at level 1, and what the innermost has.
fn inside(collections: usize, order: Order, members: &[Vec<u8>]) -> Vec<u8> {
    let innermost = order.of(ty::GEOMETRY_COLLECTION, members);
    (1..collections).fold(innermost, |inner, _| order.of(ty::GEOMETRY_COLLECTION, &[inner]))
}

#[test]
fn level_16_is_read() {
    for order in ORDERS {
        let lines = order.of(ty::MULTI_LINE_STRING, &[order.line(&[PAIR])]);
        let cases = [
            (inside(LEVELS, order, &[]), 2 * LEVELS),
            (inside(LEVELS - 1, order, &[order.point(PAIR)]), 2 * (LEVELS - 1) + 3),
            (inside(LEVELS - 1, order, &[order.of(ty::MULTI_POINT, &[])]), 2 * LEVELS),
            (inside(LEVELS - 2, order, &[lines]), 2 * LEVELS + 1),
        ];
        for (bytes, count) in cases {
            assert_eq!(read_into(64, &bytes).0, Read { answer: Ok(()), count });
        }
    }
}

#[test]
fn too_deep() {
    for order in ORDERS {
        is_refused(&inside(LEVELS + 1, order, &[]), Refusal::TooDeep, LEVELS);
        is_refused(&inside(LEVELS, order, &[order.point(PAIR)]), Refusal::TooDeep, LEVELS);
        for (multi, single) in [(ty::MULTI_POINT, 1), (ty::MULTI_LINE_STRING, 2), (ty::MULTI_POLYGON, 3)] {
            let members = [order.of(multi, &[order.head(single)])];
            is_refused(&inside(LEVELS - 1, order, &members), Refusal::TooDeep, LEVELS);
        }
    }
}

#[test]
fn too_deep_comes_behind_the_type() {
    for order in ORDERS {
        is_refused(&inside(LEVELS, order, &[order.head(1)]), Refusal::TooDeep, LEVELS);
        is_refused(&inside(LEVELS, order, &[order.head(1)[..4].to_vec()]), Refusal::WkbCut, LEVELS);
        is_refused(&inside(LEVELS, order, &[vec![2]]), Refusal::WkbUnknown, LEVELS);
        is_refused(&inside(LEVELS, order, &[order.head(8)]), Refusal::WkbUnknown, LEVELS);
        let points = [order.of(ty::MULTI_POINT, &[order.head(2)])];
        is_refused(&inside(LEVELS - 1, order, &points), Refusal::WkbUnknown, LEVELS);
    }
}

#[test]
fn log_full() {
    for Told { bytes, events, .. } in every_type() {
        for room in 0..events.len() {
            let (read, said) = read_into(room, &bytes);
            assert_eq!(read, Read { answer: Err(Refusal::LogFull), count: room });
            assert_eq!(said, events[..room]);
        }
    }
}

#[test]
fn a_full_log_is_met_at_the_record() {
    for order in ORDERS {
        let point = order.point(PAIR);
        let answer = |records: usize, bytes: &[u8]| read_into(records, bytes).0.answer;
        assert_eq!(answer(0, &point[..5]), Err(Refusal::LogFull), "a Point's begin, before its x is looked at");
        assert_eq!(answer(1, &point[..20]), Err(Refusal::WkbCut), "a pair that is cut is no record");
        assert_eq!(answer(0, &order.line(&[])[..8]), Err(Refusal::WkbCut), "a count stands before its begin");
        assert_eq!(answer(2, &[&point[..], &[0]].concat()), Err(Refusal::LogFull), "the end, before what is left over");
    }
}

#[test]
fn a_longer_log_is_full_at_its_usable_room() {
    let bytes = [Little.head(2), Little.uint32(LOG_RECORDS as u32), vec![0; 16 * LOG_RECORDS]].concat();
    let (read, _) = read_into(LOG_RECORDS + 2, &bytes);
    assert_eq!(read, Read { answer: Err(Refusal::LogFull), count: LOG_RECORDS });
}

#[test]
fn left_over() {
    for Told { bytes, events, .. } in every_type() {
        for behind in [&[0][..], &[1], &[255], &bytes] {
            let (read, said) = read_into(events.len(), &[&bytes, behind].concat());
            assert_eq!((read.answer, &said), (Err(Refusal::WkbLeftOver), &events));
        }
    }
}

/// A table and its pools.
fn lists(room: Room) -> (Vec<u8>, Vec<u64>, Vec<u32>) {
    (room.table, room.xy, room.ends)
}

#[test]
fn the_tree_is_that_of_events_given_by_hand() {
    for Told { kind, bytes, events } in every_type() {
        let (mut by_hand, mut from_wkb) = (Room::of(32, 64), Room::of(32, 64));
        let mut wanted = State::start(kind, false, false);
        let mut state = wanted;
        by_hand.feature(&mut wanted, &events);
        let mut log = vec![0; events.len() * EVENT_BYTES];
        assert_eq!(read_wkb(&bytes, FEATURE, &mut log).answer, Ok(()));
        let taken = state.events(&log, &mut from_wkb.memory());
        assert_eq!(taken, Taken { answer: Ok(()), count: events.len() });
        state.finish(&mut from_wkb.memory()).unwrap();
        assert_eq!(state, wanted, "type {kind}");
        assert_eq!(lists(from_wkb), lists(by_hand), "type {kind}");
    }
}

/// Of the collections, the one that the writer keeps as it is.
#[test]
fn the_tree_reads_back_as_what_was_read() {
    for (own, inner) in ORDERS.into_iter().flat_map(|own| ORDERS.map(|inner| (own, inner))) {
        for Told { kind, bytes, .. } in simple(own, inner).into_iter().chain([plain_collection(own, inner)]) {
            let (_, events) = read_into(64, &bytes);
            let mut room = Room::of(8, 64);
            room.feature(&mut State::start(kind, false, false), &events);
            let (read, said) = room.read(kind, 0);
            assert_eq!((read.answer, said), (Ok(()), events), "type {kind}");
        }
    }
}
