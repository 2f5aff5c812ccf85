//! Texts that are UTF-8 and texts that go bad somewhere, each read and each written, as String, Json and DateTime, and as Binary, of
//! which no byte is bad.
use crate::input::{Call, Input, Properties, Row, What};

const TYPES: [u8; 4] = [11, 12, 13, 14];
/// The columns of a list: one for the text in each of these types, then those of the other values.
const COLUMNS: [u8; 9] = [11, 12, 13, 14, 1, 10, 15, 12, 14];
/// Before the text: a UByte, a column that has no values, a Double, another text, a Binary that would be a bad one, an empty text.
const BEFORE: [&[u8]; 6] = [
    &[4, 0, 7],
    &[6, 0],
    &[5, 0, 1, 2, 3, 4, 5, 6, 7, 8],
    &[7, 0, 2, 0, 0, 0, 0xC3, 0xA9],
    &[8, 0, 1, 0, 0, 0, 0xFF],
    &[7, 0, 0, 0, 0, 0],
];
const BEHIND: [u8; 3] = [4, 0, 9];

pub fn each(give: &mut dyn FnMut(Input)) {
    short(give);
    at_the_turns(give);
    spoilt(give);
    long(give);
}

/// Room for all texts of a row, but for the long ones.
const ROOM: usize = 2_600;

/// Every text of one and two bytes.
fn short(give: &mut dyn FnMut(Input)) {
    for kind in TYPES {
        for first in 0..=255 {
            let texts: Vec<Vec<u8>> = (0..=255).map(|second| vec![first, second]).chain([vec![first]]).collect();
            both_ways(give, kind, &texts, &[ROOM]);
        }
    }
}

/// Where the ranges of RFC 3629 begin and end, and a letter.
const TURNS: [u8; 25] = [
    0x00, 0x41, 0x7F, 0x80, 0x8F, 0x90, 0x9F, 0xA0, 0xBF, 0xC0, 0xC1, 0xC2, 0xDF, 0xE0, 0xE1, 0xEC, 0xED, 0xEE, 0xEF, 0xF0, 0xF1,
    0xF3, 0xF4, 0xF5, 0xFF,
];

/// Every text of three and four of these bytes: those of three in every type, those of four in one or another.
fn at_the_turns(give: &mut dyn FnMut(Input)) {
    for code in 0..TURNS.len().pow(3) {
        let at = |place: u32| TURNS[code / TURNS.len().pow(place) % TURNS.len()];
        let first = [at(0), at(1), at(2)];
        let longer: Vec<Vec<u8>> = TURNS.iter().map(|last| [&first[..], &[*last]].concat()).collect();
        both_ways(give, TYPES[code % 3], &longer, &[ROOM]);
        TYPES.iter().for_each(|kind| both_ways(give, *kind, &[first.to_vec()], &[ROOM]));
    }
}

/// Of one byte, two, three and four, and one of each.
const CHARACTERS: [&str; 5] = ["a", "\u{e9}", "\u{20ac}", "\u{1f33e}", "a\u{e9}\u{20ac}\u{1f33e}"];
/// No character has the first; the next only goes on; the others begin characters of two bytes, three, four and one.
const SPOILING: [u8; 6] = [0xFF, 0x80, 0xC2, 0xE1, 0xF1, 0x41];

/// Texts of more places than a byte counts, with one other byte at every place, cut there, or without the byte there.
fn spoilt(give: &mut dyn FnMut(Input)) {
    for characters in CHARACTERS {
        let whole = of_length(characters, 300);
        for at in 0..whole.len() {
            let mut texts: Vec<Vec<u8>> = SPOILING.iter().map(|byte| spoilt_at(&whole, at, *byte)).collect();
            texts.push(whole[..at].to_vec());
            texts.push([&whole[..at], &whole[at + 1..]].concat());
            for kind in TYPES {
                both_ways(give, kind, &texts, &[ROOM, at]);
                among_others(give, kind, &texts);
            }
        }
    }
}

/// Lengths of a text that fits a property buffer just so or not quite, and of one that is longer than two.
const LENGTHS: [usize; 4] = [65_529, 65_530, 65_531, 140_000];
const PLACES: [usize; 14] = [0, 1, 255, 256, 65_527, 65_528, 65_529, 65_530, 65_535, 65_536, 65_537, 131_071, 131_072, 139_999];

/// Texts about the end of all that is usable, with a bad byte before, at and behind it, and with none but where they are cut.
fn long(give: &mut dyn FnMut(Input)) {
    for (i, characters) in CHARACTERS.into_iter().enumerate() {
        for length in LENGTHS {
            let whole = of_length(characters, length);
            let places = PLACES.iter().filter(|place| **place < length);
            let texts: Vec<Vec<u8>> = places.map(|place| spoilt_at(&whole, *place, 0xFF)).chain([whole.clone()]).collect();
            both_ways(give, TYPES[i % 3], &texts, &[65_540, 10, 0]);
            among_others(give, TYPES[i % 3], &texts);
        }
    }
}

/// So many bytes of characters; the last one may be cut.
fn of_length(characters: &str, length: usize) -> Vec<u8> {
    characters.bytes().cycle().take(length).collect()
}

fn spoilt_at(text: &[u8], place: usize, byte: u8) -> Vec<u8> {
    let mut spoilt = text.to_vec();
    spoilt[place] = byte;
    spoilt
}

/// Each text is read, alone in its list; all are written in a row, once for each room.
fn both_ways(give: &mut dyn FnMut(Input), kind: u8, texts: &[Vec<u8>], rooms: &[usize]) {
    texts.iter().enumerate().for_each(|(i, text)| give(read(kind, &[], text, i)));
    rooms.iter().for_each(|room| give(written(kind, texts, *room)));
}

/// Each text is read among other values.
fn among_others(give: &mut dyn FnMut(Input), kind: u8, texts: &[Vec<u8>]) {
    let before = BEFORE.concat();
    texts.iter().enumerate().for_each(|(i, text)| give(read(kind, &before, text, i)));
}

/// In every second list its column is the one to stop at; the log is cut elsewhere in each.
fn read(kind: u8, before: &[u8], text: &[u8], nth: usize) -> Input {
    let column = kind - TYPES[0];
    let length = (text.len() as u32).to_le_bytes();
    let bytes = [before, &[column, 0], &length, text, &BEHIND].concat();
    let stop = [65_536, column.into()][nth % 2];
    Input::Properties(Properties { bytes, columns: Some(COLUMNS.to_vec()), stop, cut: nth as u32 })
}

/// The last one is also written to a column that is too large, and while the feature waits.
fn written(kind: u8, texts: &[Vec<u8>], room: usize) -> Input {
    let to_column = |column: u32, text: &Vec<u8>| What::Property { column, kind, bits: 0, text: text.clone() };
    let mut calls: Vec<What> = texts.iter().map(|text| to_column(kind.into(), text)).collect();
    let last = &texts[texts.len() - 1];
    calls.extend([to_column(65_536, last), What::Finish, to_column(0, last), What::Next]);
    let calls = calls.into_iter().map(Call::from).collect();
    Input::Row(Row { declared: 0, detect: false, promote: false, held: [64, 2, 1, 1, 1, 1, 1, room], scrambled: false, calls })
}
