//! Random property bytes, good and damaged.
use super::pick::Pick;
use crate::input::Properties;
use original::properties::WIDTHS;

const TEXTS: [&str; 10] =
    ["", "a", "plough", "\0", "\u{7f}\u{80}", "\u{7ff}\u{800}", "\u{d7ff}\u{e000}", "\u{ffff}\u{10000}", "\u{10ffff}", "äöü €"];

/// Mostly UTF-8.
pub fn text(pick: &mut Pick) -> Vec<u8> {
    let mut bytes: Vec<u8> = (0..1 + pick.below(3)).flat_map(|_| pick.of(&TEXTS).bytes()).collect();
    if pick.one_in(12) {
        damage(pick, &mut bytes);
    } else if pick.one_in(40) {
        bytes = pick.bytes(4);
    }
    bytes
}

pub fn properties(pick: &mut Pick) -> Properties {
    let columns: Vec<u8> = (0..pick.below(6)).map(|_| if pick.one_in(10) { pick.byte() } else { pick.byte() % 15 }).collect();
    let mut bytes = vec![];
    let items = if columns.is_empty() { 0 } else { pick.below(7) };
    for _ in 0..items {
        let column = pick.below(columns.len());
        bytes.extend_from_slice(&(column as u16).to_le_bytes());
        match columns[column] {
            11..=14 => {
                let text = text(pick);
                bytes.extend_from_slice(&(text.len() as u32).to_le_bytes());
                bytes.extend_from_slice(&text);
            }
            kind => bytes.extend(pick.bytes(WIDTHS.get(usize::from(kind)).copied().unwrap_or(0) as usize)),
        }
    }
    if pick.one_in(3) {
        damage(pick, &mut bytes);
    }
    let stop = pick.of(&[0, 1, 2, 3, 65535, 65536, 65537, u32::MAX]);
    let columns = (!pick.one_in(30)).then_some(columns);
    Properties { bytes, columns, stop, cut: pick.word() as u32 }
}

fn damage(pick: &mut Pick, bytes: &mut Vec<u8>) {
    let at = pick.below(bytes.len() + 1);
    match pick.below(3) {
        0 => bytes.truncate(at),
        1 => bytes.insert(at, pick.byte()),
        _ => {
            if let Some(byte) = bytes.get_mut(at) {
                *byte ^= 1 << pick.below(8);
            }
        }
    }
}
