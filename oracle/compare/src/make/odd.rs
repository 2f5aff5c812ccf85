//! The smallest inputs of what docs/DIFFERENCES.md tells of writing, and other rows that a porter could get wrong.
use super::numbers::put_number;
use super::records::{begin, coordinate, end, xy};
use crate::input::{once, Call, Input, Row, What};

const DETECT: u8 = 1;
const PROMOTE: u8 = 2;

/// What it shows, the declared type, the switches, the calls: a begin is its type's number, an end has a minus before it, `t` is
/// tagged, `bad` is malformed, `done` is finish and next. Behind an `@` stands the number of an event's feature, which is else 0.
const ROWS: [(&str, u8, u8, &str); 28] = [
    ("B3", 3, 0, "3t -3t done"),
    ("B5", 5, PROMOTE, "2t xy xy -2t done"),
    ("B6", 5, 0, "2t xy xy -2t done"),
    ("B7", 6, 0, "6 -6 done"),
    ("B8", 7, 0, "7 3t 2 xy xy xy xy -2 -3t -7 done"),
    ("B9", 0, 0, "7 1 xy -1 -7 done"),
    ("B10", 1, 0, "1 -1 done"),
    ("a MultiLineString with no line", 5, 0, "5 -5 done"),
    ("a MultiPoint alone in a collection makes no part", 7, 0, "7 4 xy -4 -7 done"),
    ("a MultiPoint in a collection joins the next member", 7, 0, "7 4 xy -4 1 xy -1 -7 done"),
    ("a MultiPoint last in a collection joins the next feature", 7, 0, "7 1 xy -1 4 xy -4 -7 done 7 1 xy -1 -7 done"),
    ("a CircularString in a collection makes no part", 7, 0, "7 8 xy -8 -7 done"),
    ("a MultiLineString in a collection makes a part of each line", 7, 0, "7 5 2 xy -2 2 xy xy -2 -5 -7 done"),
    ("a MultiPolygon in a collection makes parts without parts", 7, 0, "7 6 3 2 xy -2 -3 -6 -7 done"),
    ("a collection in a collection is flattened", 7, 0, "7 7 1 xy -1 -7 -7 done"),
    ("after a collection in a collection, a member is refused", 7, 0, "7 7 1 xy -1 -7 1 xy -1 -7 done"),
    ("promotion in a collection: a line leaves it", 0, PROMOTE, "7 2t xy xy -2t 1 xy -1 -7 done"),
    ("promotion in a collection: a polygon leaves it", 0, PROMOTE, "7 3t 2 xy xy -2 -3t -7 done"),
    ("a detected collection", 0, DETECT, "7 2t xy xy -2t 1 xy -1 -7 done 1 xy -1 done"),
    ("the first promoted line fixes the type", 0, DETECT | PROMOTE, "2t xy xy -2t done 1 done 3t done"),
    ("a promotion without its end lasts over finish", 5, PROMOTE, "2t xy done 5 2 xy -2 -5 done"),
    ("two tagged lines are joined", 2, 0, "2t xy -2t 2t xy -2t done"),
    ("the content of a refused begin is taken", 1, 0, "2t xy -2t done"),
    ("the current type is kept", 0, 0, "1 xy -1 done done"),
    ("a pair after the only ring joins it", 3, 0, "3t 2 xy xy -2 xy -3t done"),
    ("a pair after two rings is stored and not read", 3, 0, "3t 2 xy -2 2 xy -2 xy -3t done"),
    ("z on some pairs only", 2, 0, "2t xy z -2t done"),
    ("a collection left open lasts over finish", 7, 0, "7 1 xy -1 done 1 xy -1 done"),
];

pub fn each(give: &mut dyn FnMut(Input)) {
    rows().for_each(|row| give(Input::Row(row)));
}

pub fn rows() -> impl Iterator<Item = Row> {
    ROWS.into_iter().map(|(what, declared, switches, text)| row(what, declared, switches, text))
}

pub fn row(what: &str, declared: u8, switches: u8, text: &str) -> Row {
    let calls: Option<Vec<Vec<What>>> = text.split(' ').map(letter).collect();
    let calls = calls.unwrap_or_else(|| panic!("{what}: not calls")).into_iter().flatten().map(Call::from).collect();
    let (detect, promote) = (switches & DETECT != 0, switches & PROMOTE != 0);
    Row { declared, detect, promote, held: [512, 32, 8, 4, 4, 4, 4, 8], scrambled: true, calls }
}

fn letter(word: &str) -> Option<Vec<What>> {
    match word {
        "done" => return Some(vec![What::Finish, What::Next]),
        "finish" => return Some(vec![What::Finish]),
        "next" => return Some(vec![What::Next]),
        _ => {}
    }
    let (word, number) = word.split_once('@').unwrap_or((word, "0"));
    let mut event = event(word)?;
    put_number(&mut event, number.parse().ok()?);
    Some(vec![once(event)])
}

fn event(word: &str) -> Option<[u8; 64]> {
    Some(match word {
        "bad" => begin(64, 1, 0, 0),
        "xy" => xy(3, 4, 0),
        "z" => coordinate(5, 6, 1, [7, 0, 0, 0], 0),
        _ => {
            let (kind, tagged) = word.strip_suffix('t').map_or((word, 0), |kind| (kind, 1));
            match kind.strip_prefix('-') {
                Some(kind) => end(kind.parse().ok()?, tagged, 0),
                None => begin(kind.parse().ok()?, tagged, 0, 0),
            }
        }
    })
}
