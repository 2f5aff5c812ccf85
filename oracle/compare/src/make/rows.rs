//! Random rows of calls: well nested features, wild events, malformed ones, events of other features, and memory lent just long enough
//! or not quite.
use super::lists::text;
use super::numbers::{put_number, put_numbers};
use super::pick::Pick;
use super::records::{begin, coordinate, end, xy, TAGGED_TYPES, TYPES};
use crate::input::{once, Call, Row, What};
use crate::port::Lengths;
use original::events::feature_of;

pub fn row(pick: &mut Pick) -> Row {
    let declared = match pick.below(8) {
        0..=2 => 0,
        3 => 7,
        4 => pick.of(&[5, 6]),
        5 | 6 => pick.below(18) as u8,
        _ => pick.byte(),
    };
    let mut row = Row {
        declared,
        detect: pick.one_in(2),
        promote: pick.one_in(2),
        held: held(pick),
        scrambled: pick.one_in(4),
        calls: vec![],
    };
    match pick.below(4) {
        0 | 1 => features(pick, &mut row),
        2 => wild(pick, &mut row),
        _ => {
            features(pick, &mut row);
            damage(pick, &mut row);
        }
    }
    if pick.one_in(4) {
        stray(pick, &mut row);
    }
    row
}

/// Mostly room enough; sometimes hardly any.
fn held(pick: &mut Pick) -> Lengths {
    let scale = if pick.one_in(4) { 4 } else { 16 };
    let mut length = |most: usize| pick.below(most * scale + 1);
    let mut held = [0; 8];
    held[0] = 64 * length(1) + length(3) % 64;
    held[1] = length(4) + 2;
    held[2..7].fill_with(|| length(2));
    held[7] = length(6);
    held
}

fn features(pick: &mut Pick, row: &mut Row) {
    let near = [row.declared, row.declared.wrapping_sub(3)];
    let likely: Vec<u8> = near.into_iter().filter(|kind| TYPES.contains(kind)).collect();
    for _ in 0..1 + pick.below(3) {
        let kind = if likely.is_empty() || pick.one_in(4) { pick.of(&TYPES) } else { pick.of(&likely) };
        for _ in 0..pick.below(3) {
            let property = property(pick);
            row.calls.push(property.into());
        }
        geometry(pick, kind, 1, 3, &mut row.calls);
        row.calls.push(What::Finish.into());
        row.calls.push(What::Next.into());
    }
    let numbers = [pick.number(), pick.number(), pick.number()];
    put_numbers(&mut row.calls, |_, nexts| numbers[nexts]);
}

/// Some events have another number, any or one of another event.
fn stray(pick: &mut Pick, row: &mut Row) {
    for _ in 0..(1 + pick.below(3)).min(row.calls.len()) {
        let (at, other) = (pick.below(row.calls.len()), pick.below(row.calls.len()));
        let number = match &row.calls[other].what {
            What::Event { bytes, .. } if bytes.len() == 64 && pick.one_in(2) => feature_of(bytes),
            _ => pick.number(),
        };
        if let What::Event { bytes, .. } = &mut row.calls[at].what {
            put_number(bytes, number);
        }
    }
}

/// What stands inside a type; nothing for those of pairs.
fn inside(kind: u8) -> &'static [u8] {
    match kind {
        3 | 5 | 17 => &[2],
        6 | 15 => &[3],
        7 => &TYPES,
        9 => &[2, 8],
        10 | 11 => &[2, 8, 9],
        12 => &[2, 3, 8, 9, 10],
        16 => &[17],
        _ => &[],
    }
}

/// The events of a geometry, as a reader would say them.
fn geometry(pick: &mut Pick, kind: u8, tagged: u8, levels: usize, calls: &mut Vec<Call>) {
    let tagged = if TAGGED_TYPES.contains(&kind) { tagged } else { 0 };
    let size = if kind == 1 { 0 } else { pick.of(&[0, 1, 2, 7, u32::MAX]) };
    let idx = pick.below(3) as u32;
    calls.push(once(begin(kind, tagged, size, idx)).into());
    let inside = inside(kind);
    let count = if kind == 1 { 1 } else { pick.below(4) };
    for i in 0..count {
        if inside.is_empty() {
            calls.push(once(pair(pick, i as u32)).into());
        } else if levels > 0 {
            let part = pick.of(inside);
            geometry(pick, part, u8::from(kind == 7), levels - 1, calls);
        }
    }
    calls.push(once(end(kind, tagged, idx)).into());
}

fn pair(pick: &mut Pick, idx: u32) -> [u8; 64] {
    let (x, y) = (pick.double(), pick.double());
    if pick.one_in(2) {
        return xy(x, y, idx);
    }
    let present = pick.byte() % 16;
    coordinate(x, y, present, [pick.double(), pick.double(), pick.double(), pick.word()], idx)
}

fn wild(pick: &mut Pick, row: &mut Row) {
    for _ in 0..pick.below(30) {
        let what = match pick.below(16) {
            0 => What::Finish,
            1 => What::Next,
            2 => property(pick),
            3 => malformed(pick),
            _ => once(wild_event(pick)),
        };
        let cut = pick.one_in(4).then(|| cut(pick));
        row.calls.push(Call { what, cut });
    }
    let numbers = [pick.number(), pick.number()];
    let strays = pick.one_in(2);
    put_numbers(&mut row.calls, |_, nexts| numbers[(nexts + usize::from(strays && pick.one_in(6))) % 2]);
}

fn wild_event(pick: &mut Pick) -> [u8; 64] {
    let kind = if pick.one_in(2) { pick.of(&TYPES) } else { pick.of(&[1, 2, 3, 7]) };
    let tagged = if TAGGED_TYPES.contains(&kind) { pick.byte() % 2 } else { 0 };
    match pick.below(3) {
        0 => pair(pick, 0),
        1 => begin(kind, tagged, if kind == 1 { 0 } else { pick.below(9) as u32 }, 0),
        _ => end(kind, tagged, 0),
    }
}

fn malformed(pick: &mut Pick) -> What {
    let mut bytes = wild_event(pick).to_vec();
    match pick.below(4) {
        0 => bytes.truncate(pick.below(64)),
        1 => bytes.extend_from_slice(&[0; 9][..1 + pick.below(9)]),
        2 => bytes[pick.of(&[0, 1, 2, 3])] = pick.byte(),
        _ => bytes[pick.below(64)] ^= 1 << pick.below(8),
    }
    What::Event { bytes, times: 1 }
}

fn property(pick: &mut Pick) -> What {
    let kind = if pick.one_in(20) { pick.byte() } else { pick.byte() % 15 };
    let column = if pick.one_in(20) { pick.of(&[65535, 65536, 65537, u32::MAX]) } else { pick.below(300) as u32 };
    let width = original::properties::WIDTHS.get(usize::from(kind)).copied().unwrap_or(8);
    let bits = if pick.one_in(20) { pick.double() } else { pick.double() >> (64 - 8 * width) };
    let bits = if kind == 2 && !pick.one_in(10) { bits & 1 } else { bits };
    What::Property { column, kind, bits, text: text(pick) }
}

fn cut(pick: &mut Pick) -> (u8, i8) {
    (pick.below(8) as u8, pick.of(&[-2, -1, 0, 1, 2, 3]))
}

/// Calls left out, repeated, exchanged, damaged, and lent too little.
fn damage(pick: &mut Pick, row: &mut Row) {
    for _ in 0..1 + pick.below(4) {
        let (at, other) = (pick.below(row.calls.len()), pick.below(row.calls.len()));
        match pick.below(6) {
            0 if row.calls.len() > 1 => drop(row.calls.remove(at)),
            1 => row.calls.insert(at, row.calls[other].clone()),
            2 => row.calls.swap(at, other),
            3 => row.calls[at].what = malformed(pick),
            _ => row.calls[at].cut = Some(cut(pick)),
        }
    }
}
