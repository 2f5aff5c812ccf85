//! Well-known binary (SPEC 14), made from event records.
use crate::inputs::{EVENT, LINE_STRING, MULTI_POLYGON, POLYGON, XY};

/// Which byte of a number stands first; its number is the order mark.
#[derive(Clone, Copy)]
pub enum Order {
    Highest = 0,
    Lowest = 1,
}

/// Puts a number, which has its lowest byte first as in an event record.
fn put(bytes: &mut Vec<u8>, order: Order, number: &[u8]) {
    match order {
        Order::Highest => bytes.extend(number.iter().rev()),
        Order::Lowest => bytes.extend(number),
    }
}

/// The geometry that these events tell of: a LineString, Polygon or MultiPolygon, in which every untagged line is a ring.
pub fn of(events: &[u8], order: Order) -> Vec<u8> {
    const UNTAGGED: u8 = 0;
    let mut bytes = Vec::new();
    for event in events.chunks_exact(EVENT) {
        match (event[0], event[1]) {
            (LINE_STRING, UNTAGGED) => put(&mut bytes, order, &event[4..8]),
            (kind @ (LINE_STRING | POLYGON | MULTI_POLYGON), _) => {
                bytes.push(order as u8);
                put(&mut bytes, order, &u32::from(kind).to_le_bytes());
                put(&mut bytes, order, &event[4..8]);
            }
            (XY, _) => {
                put(&mut bytes, order, &event[16..24]);
                put(&mut bytes, order, &event[24..32]);
            }
            // An end has no bytes.
            _ => {}
        }
    }
    bytes
}
