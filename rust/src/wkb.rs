use crate::{bare, Read, Refusal};

/// Reads well-known binary as event records from the log's start, which [`crate::Writer::events`] takes as they are: a
/// geometry of the types 1 to 7, two-dimensional, each geometry in it by its own byte order. `feature` is the number that
/// every record says. A dialect that says z, m or a reference system in the type's number is refused with 19. Refused: 18,
/// 19, 13, 9, 20.
pub fn read_wkb(bytes: &[u8], feature: u32, log: &mut [u8]) -> Read {
    let mut count = 0;
    let number = bare::read_wkb(bytes, feature, log, &mut count);
    Read { answer: Refusal::of(number), count: count as usize }
}

/// Writes event records as well-known binary from the start of `out`, and says how many bytes: the records of one geometry
/// and one feature, as [`read_wkb`] says them, or [`crate::Tree::read`] without flags. Every geometry is written with the
/// lowest byte of each number first. A refusal is over the whole list, and leaves `out` as it was. Refused: 11, 21, 13, 12.
pub fn write_wkb(events: &[u8], out: &mut [u8]) -> Result<usize, Refusal> {
    let mut written = 0;
    let number = bare::write_wkb(events, out, &mut written);
    Refusal::of(number).map(|()| written)
}
