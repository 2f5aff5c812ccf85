//! What stands in the library's crate, in the C header and in this wrapper alike: each call's arguments, in order and by name,
//! and the words of each refusal.
use bintolage::Refusal;
use std::fs;

fn text_of(file: &str) -> String {
    let path = format!("{}/../{file}", env!("CARGO_MANIFEST_DIR"));
    fs::read_to_string(&path).unwrap_or_else(|error| panic!("{path}: {error}"))
}

const CALLS: [&str; 11] = [
    "start",
    "event",
    "events",
    "property",
    "finish",
    "next",
    "read",
    "read_wkb",
    "write_wkb",
    "read_properties",
    "box",
];

/// What stands between the brackets of the call's first declaration, at its commas.
fn arguments(text: &str, declared_by: &str, call: &str) -> Vec<String> {
    let opening = format!("{declared_by}bintolage_{call}(");
    let (_, behind) = text.split_once(&opening).unwrap_or_else(|| panic!("{opening} is missing"));
    let (between, _) = behind.split_once(')').unwrap();
    between.split(',').map(|argument| argument.trim().to_string()).filter(|argument| !argument.is_empty()).collect()
}

/// The names in C: an argument's last word, without the star or the length of an array.
fn in_header(header: &str, call: &str) -> Vec<String> {
    let declared_by = if call == "start" { "\nvoid " } else { "\nuint8_t " };
    let name = |argument: String| argument.split([' ', '*']).next_back().unwrap().replace("[4]", "");
    arguments(header, declared_by, call).into_iter().map(name).collect()
}

/// The names in Rust and in Rattle: what stands before the colon.
fn before_colons(text: &str, call: &str) -> Vec<String> {
    let name = |argument: String| argument.split(':').next().unwrap().to_string();
    arguments(text, "fn ", call).into_iter().map(name).collect()
}

/// Without the counts, each of which stands behind its list and has the list's name and a unit.
fn without_counts(names: &[String]) -> Vec<String> {
    let counts = |list: &String| ["bytes", "words", "count"].map(|unit| format!("{list}_{unit}"));
    let is_count = |i: usize| i > 0 && counts(&names[i - 1]).contains(&names[i]);
    (0..names.len()).filter(|&i| !is_count(i)).map(|i| names[i].clone()).collect()
}

#[test]
fn a_call_has_the_same_arguments_everywhere() {
    let (header, link) = (text_of("include/bintolage.h"), text_of("rust/src/link.rs"));
    let (library, exports) = (text_of("crates/bintolage/src/lib.rt"), text_of("crates/bintolage_c/src/lib.rt"));
    for call in CALLS {
        let names = in_header(&header, call);
        assert_eq!(before_colons(&link, call), names, "{call}, in rust/src/link.rs and in the header");
        assert_eq!(before_colons(&library, call), without_counts(&names), "{call}, in the crate and in the header");
        assert_eq!(before_colons(&exports, call), without_counts(&names), "{call}, as it is exported and in the header");
    }
}

const REFUSALS: [Refusal; 22] = [
    Refusal::XyAbsent,
    Refusal::PartsAbsent,
    Refusal::ColumnUnknown,
    Refusal::TypeUnknown,
    Refusal::TypeNotACurve,
    Refusal::TypesMixed,
    Refusal::NotUtf8 { at: 0 },
    Refusal::PastList,
    Refusal::BadEnd,
    Refusal::LogFull,
    Refusal::BadRecord,
    Refusal::Malformed,
    Refusal::NoRoom,
    Refusal::TooDeep,
    Refusal::ValueCut,
    Refusal::NotItsTurn,
    Refusal::ColumnTooLarge,
    Refusal::OtherFeature,
    Refusal::WkbCut,
    Refusal::WkbUnknown,
    Refusal::WkbLeftOver,
    Refusal::BadlyNested,
];

/// The number of a name that the header defines.
fn number_of(header: &str, name: &str) -> u8 {
    let (_, behind) = header.split_once(&format!("#define {name} ")).unwrap_or_else(|| panic!("{name} is not defined"));
    behind.split_whitespace().next().unwrap().parse().unwrap()
}

/// The numbers and words of the header's `bintolage_refusal`.
fn words_in_header(header: &str) -> Vec<(u8, String)> {
    let case = |line: &str| {
        let (name, words) = line.trim().strip_prefix("case ")?.split_once(": return \"")?;
        Some((number_of(header, name), words.strip_suffix("\";")?.to_string()))
    };
    header.lines().filter_map(case).collect()
}

#[test]
fn a_refusal_has_the_same_words_everywhere() {
    let mut wanted = vec![(0, "done".to_string())];
    for refusal in REFUSALS {
        match wanted.last_mut() {
            Some((number, words)) if *number == refusal.number() => *words += &format!(", or {}", refusal.words()),
            _ => wanted.push((refusal.number(), refusal.words().to_string())),
        }
    }
    assert_eq!(words_in_header(&text_of("include/bintolage.h")), wanted);
}
