//! Geometries of the types 1 to 7, as well-known binary and as events.
use super::{framed, line, pairs, point_begin, polygon, Pair, FEATURE};
use bintolage::{geometry_type as ty, Event};
use Order::{Big, Little};

/// Which byte of a number comes first, by its order mark.
#[derive(Clone, Copy, PartialEq)]
pub enum Order {
    Big = 0,
    Little = 1,
}

pub const ORDERS: [Order; 2] = [Big, Little];

impl Order {
    pub fn uint32(self, number: u32) -> Vec<u8> {
        let bytes = if self == Big { number.to_be_bytes() } else { number.to_le_bytes() };
        bytes.to_vec()
    }

    pub fn double(self, bits: u64) -> Vec<u8> {
        let bytes = if self == Big { bits.to_be_bytes() } else { bits.to_le_bytes() };
        bytes.to_vec()
    }

    pub fn head(self, kind: u32) -> Vec<u8> {
        [vec![self as u8], self.uint32(kind)].concat()
    }

    pub fn pair(self, (x, y): Pair) -> Vec<u8> {
        [self.double(x.to_bits()), self.double(y.to_bits())].concat()
    }

    /// A count, and what it counts.
    pub fn counted(self, things: &[Vec<u8>]) -> Vec<u8> {
        [self.uint32(things.len() as u32), things.concat()].concat()
    }

    /// A ring has no head.
    pub fn ring(self, pairs: &[Pair]) -> Vec<u8> {
        self.counted(&pairs.iter().map(|&pair| self.pair(pair)).collect::<Vec<_>>())
    }

    pub fn point(self, pair: Pair) -> Vec<u8> {
        [self.head(1), self.pair(pair)].concat()
    }

    pub fn line(self, pairs: &[Pair]) -> Vec<u8> {
        [self.head(2), self.ring(pairs)].concat()
    }

    pub fn polygon(self, rings: &[Vec<Pair>]) -> Vec<u8> {
        [self.head(3), self.counted(&rings.iter().map(|ring| self.ring(ring)).collect::<Vec<_>>())].concat()
    }

    /// A Multi or a collection, of members that each have an order of their own.
    pub fn of(self, kind: u8, members: &[Vec<u8>]) -> Vec<u8> {
        [self.head(kind.into()), self.counted(members)].concat()
    }
}

pub fn point(idx: u32, (x, y): Pair) -> Vec<Event> {
    vec![point_begin(idx), Event::xy(FEATURE, x, y, 0), Event::end(FEATURE, ty::POINT, false, idx)]
}

/// A MultiPoint: each member is a pair.
pub fn points(idx: u32, pairs: &[Pair]) -> Vec<Event> {
    let members: Vec<_> = pairs.iter().zip(0..).map(|(&(x, y), i)| vec![Event::xy(FEATURE, x, y, i)]).collect();
    framed(ty::MULTI_POINT, false, idx, &members)
}

/// A geometry as its bytes and as its events.
pub struct Told {
    pub kind: u8,
    pub bytes: Vec<u8>,
    pub events: Vec<Event>,
}

/// A geometry of each type but GeometryCollection, in one order, with its members in another.
pub fn simple(own: Order, inner: Order) -> Vec<Told> {
    let (first, second) = (pairs(5), pairs(3));
    let rings = [pairs(5), pairs(4)];
    let told = |kind, bytes, events| Told { kind, bytes, events };
    vec![
        told(ty::POINT, own.point((1.5, -2.0)), point(0, (1.5, -2.0))),
        told(ty::LINE_STRING, own.line(&first), line(true, 0, &first)),
        told(ty::POLYGON, own.polygon(&rings), polygon(true, 0, &rings)),
        told(
            ty::MULTI_POINT,
            own.of(ty::MULTI_POINT, &second.iter().map(|&pair| inner.point(pair)).collect::<Vec<_>>()),
            points(0, &second),
        ),
        told(
            ty::MULTI_LINE_STRING,
            own.of(ty::MULTI_LINE_STRING, &[inner.line(&first), own.line(&second)]),
            framed(ty::MULTI_LINE_STRING, false, 0, &[line(false, 0, &first), line(false, 1, &second)]),
        ),
        told(
            ty::MULTI_POLYGON,
            own.of(ty::MULTI_POLYGON, &[inner.polygon(&rings), own.polygon(&rings[1..])]),
            framed(ty::MULTI_POLYGON, false, 0, &[polygon(false, 0, &rings), polygon(false, 1, &rings[1..])]),
        ),
    ]
}

/// Of Points and LineStrings, which the writer keeps as they are.
pub fn plain_collection(own: Order, inner: Order) -> Told {
    let (pair, pairs) = ((7.0, 8.0), pairs(2));
    Told {
        kind: ty::GEOMETRY_COLLECTION,
        bytes: own.of(ty::GEOMETRY_COLLECTION, &[inner.point(pair), own.line(&pairs), inner.line(&pairs)]),
        events: framed(
            ty::GEOMETRY_COLLECTION,
            false,
            0,
            &[point(0, pair), line(true, 1, &pairs), line(true, 2, &pairs)],
        ),
    }
}

/// The same events with another idx at the outermost begin and end.
fn numbered_within(idx: u32, mut events: Vec<Event>) -> Vec<Event> {
    let last = events.len() - 1;
    events[0].idx = idx;
    events[last].idx = idx;
    events
}

/// A geometry of each type, the last of them the collection above.
pub fn nested_collection(own: Order, inner: Order) -> Told {
    let mut members = simple(inner, own);
    members.push(plain_collection(inner, own));
    let bytes: Vec<_> = members.iter().map(|told| told.bytes.clone()).collect();
    let events: Vec<_> = members.into_iter().zip(0..).map(|(told, i)| numbered_within(i, told.events)).collect();
    Told {
        kind: ty::GEOMETRY_COLLECTION,
        bytes: own.of(ty::GEOMETRY_COLLECTION, &bytes),
        events: framed(ty::GEOMETRY_COLLECTION, false, 0, &events),
    }
}

/// Every type in both orders, with members in both orders.
pub fn every_type() -> Vec<Told> {
    let orders = ORDERS.into_iter().flat_map(|own| ORDERS.map(|inner| (own, inner)));
    orders
        .flat_map(|(own, inner)| {
            let collections = [plain_collection(own, inner), nested_collection(own, inner)];
            simple(own, inner).into_iter().chain(collections)
        })
        .collect()
}
