//! Rows whose events have features' numbers: alike, another at one event or from one on, another in each feature; and what stands
//! before and behind 17 in the order 11, 15, 17, 5, 12.
use super::odd;
use crate::input::{Call, Input, Row, What};
use crate::port::Lengths;

/// Numbers of which a byte is easily lost.
pub const NUMBERS: [u32; 7] = [0, 1, u32::MAX, 0x0403_0201, 1 << 31, 1 << 8, 1 << 16];

/// One of them, in turn.
pub fn number(code: usize) -> u32 {
    NUMBERS[code % NUMBERS.len()]
}

/// Two different ones.
const PAIRS: [(u32, u32); 6] = [(0, 1), (1, 0), (u32::MAX, 0), (0x0403_0201, 0x8403_0201), (0, 1 << 16), (7, 0x107)];

/// Puts a number into every event: `number_of` is asked by how many events and how many nexts came before it.
pub fn put_numbers(calls: &mut [Call], mut number_of: impl FnMut(usize, usize) -> u32) {
    let (mut events, mut nexts) = (0, 0);
    for call in calls {
        match &mut call.what {
            What::Event { bytes, .. } => {
                put_number(bytes, number_of(events, nexts));
                events += 1;
            }
            What::Next => nexts += 1,
            _ => {}
        }
    }
}

/// Of an event that is cut short, nothing where it has not all four bytes.
pub fn put_number(event: &mut [u8], number: u32) {
    if let Some(bytes) = event.get_mut(12..16) {
        bytes.copy_from_slice(&number.to_le_bytes());
    }
}

/// What it shows, the declared type, the calls as `odd` has them; the number of an event stands behind an `@`.
const ROWS: [(&str, u8, &str); 14] = [
    ("numbers that agree", 0, "1@7 xy@7 -1@7 done"),
    ("0 is a number as any other", 0, "1@0 xy@1 xy@0 -1@0 done"),
    ("another number after next", 0, "1@7 xy@7 -1@7 done 1@8 xy@8 -1@8 done"),
    ("the same number after next", 0, "1@7 xy@7 -1@7 done 1@7 xy@7 -1@7 done"),
    ("the number is kept over finish", 0, "1@7 xy@7 finish next xy@8 finish next"),
    ("a feature without events holds none", 0, "done xy@8 done done xy@7 done"),
    ("while a feature waits, 15 comes first", 0, "xy@7 finish xy@8 xy@7 next xy@8 xy@7 done"),
    ("malformed comes first", 0, "xy@7 bad@8 bad@7 finish bad@8 next bad@8 xy@7 done"),
    ("before mixed types", 2, "2t@7 3t@8 3t@7 xy@7 -2t@7 done"),
    ("a mixed begin sets none", 2, "3t@8 2t@7 xy@7 -2t@7 done"),
    ("a malformed event sets none", 2, "bad@8 2t@7 xy@7 -2t@7 done"),
    ("an event that waits sets none", 2, "finish 2t@8 xy@8 next 2t@7 xy@7 -2t@7 done"),
    ("what is carried over has no number", 7, "7@7 1@7 xy@7 -1@7 4@7 xy@7 -4@7 -7@7 done 7@8 1@8 xy@8 -1@8 -7@8 done"),
    ("a begin that sets no type holds a number", 3, "2@7 3t@8 3t@7 2@7 xy@7 -2@7 -3t@7 done"),
];

/// Room for all of `ROWS` and of `odd`'s, and room that ends within most of them.
const HELD: [Lengths; 2] = [[512, 32, 8, 4, 4, 4, 4, 8], [128, 2, 1, 0, 0, 0, 0, 8]];

pub fn each(give: &mut dyn FnMut(Input)) {
    for held in HELD {
        let mut give = |row: Row| give(Input::Row(Row { held, ..row }));
        for (what, declared, text) in ROWS {
            give(odd::row(what, declared, 0, text));
        }
        for row in odd::rows() {
            variants(&row, &mut give);
        }
    }
}

fn variants(row: &Row, give: &mut dyn FnMut(Row)) {
    let mut with = |number_of: &dyn Fn(usize, usize) -> u32| {
        let mut row = row.clone();
        put_numbers(&mut row.calls, number_of);
        give(row);
    };
    let events = row.calls.iter().filter(|call| matches!(call.what, What::Event { .. })).count();
    NUMBERS.iter().for_each(|number| with(&|_, _| *number));
    for (number, other) in PAIRS {
        with(&|_, nexts| if nexts % 2 == 0 { number } else { other });
        for place in 0..events {
            with(&|at, _| if at == place { other } else { number });
            with(&|at, _| if at < place { number } else { other });
        }
    }
}
