//! All short inputs over small alphabets.
use super::numbers::{number, put_numbers};
use super::records::{begin, coordinate, end, laid, xy, Node, TAGGED_TYPES, TYPES};
use crate::input::{once, Call, Input, Properties, Row, Tree, What};

pub fn each(give: &mut dyn FnMut(Input)) {
    rows(give);
    rows_of_two_features(give);
    ends(give);
    part_types(give);
    boxes(give);
    box_lists(give);
    property_bytes(give);
}

const ONE: u64 = 0x3FF << 52;

/// Every begin and end, tagged and not, two kinds of pair, a property, and a finish with its next.
fn alphabet() -> Vec<Vec<What>> {
    let mut letters = vec![
        vec![once(xy(ONE, 1, 0))],
        vec![once(coordinate(2, ONE, 15, [3, 4, 5, 6], 0))],
        vec![What::Property { column: 1, kind: 1, bits: 7, text: vec![] }],
        vec![What::Finish, What::Next],
    ];
    for kind in TYPES {
        let tags = if TAGGED_TYPES.contains(&kind) { 0..2 } else { 0..1 };
        for tagged in tags {
            letters.push(vec![once(begin(kind, tagged, 0, 0))]);
            letters.push(vec![once(end(kind, tagged, 0))]);
        }
    }
    letters
}

/// Rows of up to three letters, each closed by a finish and a next: three for the declared types that have rules of their own, two
/// for all others. The events of each row have one number.
fn rows(give: &mut dyn FnMut(Input)) {
    let letters = alphabet();
    for declared in (0..=18).chain([255]) {
        let longest = if matches!(declared, 0 | 5 | 6 | 7) { 3 } else { 2 };
        for switches in 0..4 {
            for length in 0..=longest {
                for code in 0..letters.len().pow(length) {
                    let mut row = row(&letters, declared, switches, length, code);
                    put_numbers(&mut row.calls, |_, _| number(code));
                    give(Input::Row(row));
                }
            }
        }
    }
}

/// Rows of two letters under every declared type, and of three under that of a collection, in which some events have another number
/// than the first.
fn rows_of_two_features(give: &mut dyn FnMut(Input)) {
    let letters = alphabet();
    for declared in (0..=18).chain([255]) {
        for length in if declared == COLLECTION { 2..=3 } else { 2..=2 } {
            for switches in 0..if length == 2 { 4 } else { 1 } {
                for code in 0..letters.len().pow(length) {
                    // The bits of `others` say which events these are, from the second on.
                    for others in 1..1usize << (length - 1) {
                        let mut row = row(&letters, declared, switches, length, code);
                        put_numbers(&mut row.calls, |place, _| number(code + (others << 1 >> place & 1)));
                        give(Input::Row(row));
                    }
                }
            }
        }
    }
}

const COLLECTION: u8 = 7;

/// The row of so many letters that a code stands for.
fn row(letters: &[Vec<What>], declared: u8, switches: u8, length: u32, code: usize) -> Row {
    let at = |place: u32| &letters[code / letters.len().pow(place) % letters.len()];
    let closing = [What::Finish, What::Next];
    let calls = (0..length).flat_map(at).chain(&closing).cloned().map(Call::from).collect();
    let (detect, promote) = (switches & 1 != 0, switches & 2 != 0);
    Row { declared, detect, promote, held: [320, 12, 5, 4, 4, 4, 4, 20], scrambled: false, calls }
}

/// Ends lists of up to three over 0 to 3, and one of 2^31, in every type that reads ends, over xy lists of up to seven words.
fn ends(give: &mut dyn FnMut(Input)) {
    let values = [0, 1, 2, 3, 1 << 31];
    for length in 0..=3 {
        for code in 0..values.len().pow(length) {
            let ends: Vec<u64> = (0..length).map(|place| values[code / values.len().pow(place) % values.len()]).collect();
            for kind in [3, 5, 16, 17, 6] {
                for words in [None, Some(0), Some(1), Some(2), Some(4), Some(5), Some(6), Some(7)] {
                    for flags in [0, 1] {
                        give(Input::Tree(with_ends(kind, &ends, words, flags, code as u32)));
                    }
                }
            }
        }
    }
}

fn with_ends(kind: u8, ends: &[u64], words: Option<u64>, flags: u8, cut: u32) -> Tree {
    let own = |kind: u8| {
        let xy = words.map(|count| (0..count).map(|i| ONE + i).collect());
        Node { kind, lists: [xy, Some(ends.to_vec()), Some(vec![1, 2, 3]), None, None, None], parts: None }
    };
    let root = if kind == 6 { Node { kind, parts: Some(vec![own(3)]), ..Default::default() } } else { own(kind) };
    Tree { store: laid(root, || 0), declared: 0, flags, feature: number(cut as usize), cut }
}

/// Every type inside every type, under every declared type that there is, and every type number at the root.
fn part_types(give: &mut dyn FnMut(Input)) {
    let leaf = |kind: u8| Node {
        kind,
        lists: [Some(vec![1, 2, 3, 4]), Some(vec![1, 2]), None, None, None, None],
        parts: Some(vec![Node { kind: 2, lists: [Some(vec![5, 6]), None, None, None, None, None], parts: None }]),
    };
    for declared in 0..=18 {
        for stored in 0..=18 {
            for kind in 0..=18 {
                let root = Node { parts: Some(vec![leaf(kind), leaf(2)]), ..leaf(stored) };
                let feature = number(usize::from(stored) + usize::from(kind));
                give(Input::Tree(Tree { store: laid(root, || 0), declared, flags: 0, feature, cut: kind.into() }));
            }
        }
    }
    for kind in 0..=255 {
        let (feature, cut) = (number(kind.into()), kind.into());
        give(Input::Tree(Tree { store: laid(leaf(kind), || 0), declared: 0, flags: 0, feature, cut }));
        give(Input::Tree(Tree { store: laid(leaf(3), || 0), declared: kind, flags: 2, feature, cut }));
    }
}

/// Three pairs over doubles that a comparison can get wrong: both zeros, ones, infinities, NaNs, the least. They stand in one record;
/// and one in a record, the second in a part and the third in that part's part, or in a part beside it.
fn boxes(give: &mut dyn FnMut(Input)) {
    let doubles = [0, 1 << 63, ONE, ONE | 1 << 63, 0x7FF << 52, 0xFFF << 52, 0x7FF8 << 48, 0xFFF0_0000_0000_0001, 1];
    for code in 0..doubles.len().pow(3) {
        let at = |place: u32| doubles[code / doubles.len().pow(place) % doubles.len()];
        let words = vec![at(0), at(2), at(1), at(0), at(2), at(1)];
        let pair = |place: usize| Some(words[2 * place..2 * place + 2].to_vec());
        boxed(give, [pair(0), pair(1), pair(2)]);
        boxed(give, [Some(words), None, None]);
    }
}

/// In each of three records no list, or up to three words: odd last words, present lists that are empty, absent ones.
fn box_lists(give: &mut dyn FnMut(Input)) {
    let list = |code: u64, first: u64| code.checked_sub(1).map(|count| (first..first + count).collect::<Vec<_>>());
    for code in 0..125 {
        boxed(give, [list(code % 5, ONE), list(code / 5 % 5, ONE + 3), list(code / 25, ONE + 6)]);
        boxed(give, [list(code % 5, ONE + 6), list(code / 5 % 5, ONE + 3), list(code / 25, ONE)]);
    }
}

/// Trees of three records with these xy lists: a root with a part in a part, and one with two parts.
fn boxed(give: &mut dyn FnMut(Input), lists: [Option<Vec<u64>>; 3]) {
    let [root, second, third] = lists.map(|xy| Node { kind: 4, lists: [xy, None, None, None, None, None], parts: None });
    let nested = Node { parts: Some(vec![third.clone()]), ..second.clone() };
    for parts in [vec![nested], vec![second, third]] {
        let root = Node { parts: Some(parts), ..root.clone() };
        give(Input::Tree(Tree { store: laid(root, || 0), declared: 0, flags: 0, feature: 1, cut: 0 }));
    }
}

/// Strings of up to seven bytes over four, for every column type and one above.
fn property_bytes(give: &mut dyn FnMut(Input)) {
    let values = [0, 1, 2, 0xC3];
    for length in 0..=7u32 {
        for code in 0..values.len().pow(length) {
            let bytes: Vec<u8> = (0..length).map(|place| values[code / values.len().pow(place) % values.len()]).collect();
            for kind in 0..=15 {
                // The longest only for the types that have a length before them, and for one that has none.
                if length < 6 || matches!(kind, 1 | 11 | 14) {
                    let columns = Some(vec![kind, 1]);
                    give(Input::Properties(Properties {
                        bytes: bytes.clone(),
                        columns,
                        stop: 65536 - code as u32 % 2,
                        cut: code as u32,
                    }));
                }
            }
        }
    }
}
