//! What is given to both sides, and how an input is kept in a file.
use crate::port::Lengths;
use original::tree::Store;
use std::fmt::Write;

#[derive(Clone, Debug, PartialEq, Eq)]
pub enum Input {
    Row(Row),
    Tree(Tree),
    Properties(Properties),
}

/// A fresh writer and calls to it.
#[derive(Clone, Debug, PartialEq, Eq)]
pub struct Row {
    pub declared: u8,
    pub detect: bool,
    pub promote: bool,
    /// All the memory that there is to lend.
    pub held: Lengths,
    /// Between calls, what the state does not use is overwritten.
    pub scrambled: bool,
    pub calls: Vec<Call>,
}

#[derive(Clone, Debug, PartialEq, Eq)]
pub struct Call {
    pub what: What,
    /// One slice is lent only so far past what the state uses of it (or short of that); all else is lent whole.
    pub cut: Option<(u8, i8)>,
}

#[derive(Clone, Debug, PartialEq, Eq)]
pub enum What {
    Event { bytes: Vec<u8>, times: u32 },
    Property { column: u32, kind: u8, bits: u64, text: Vec<u8> },
    Finish,
    Next,
}

/// A tree to read, and the feature's number to read it under. `cut` picks the shorter log that it is read into too.
#[derive(Clone, Debug, PartialEq, Eq)]
pub struct Tree {
    pub store: Store,
    pub declared: u8,
    pub flags: u8,
    pub feature: u32,
    pub cut: u32,
}

/// Property bytes to read.
#[derive(Clone, Debug, PartialEq, Eq)]
pub struct Properties {
    pub bytes: Vec<u8>,
    pub columns: Option<Vec<u8>>,
    pub stop: u32,
    pub cut: u32,
}

impl From<What> for Call {
    fn from(what: What) -> Call {
        Call { what, cut: None }
    }
}

/// An event given once.
pub fn once(event: [u8; 64]) -> What {
    What::Event { bytes: event.to_vec(), times: 1 }
}

/// A kept input is one line of words: numbers, and bytes in hexadecimal digits, `-` for none.
pub fn to_line(input: &Input) -> String {
    let mut line = Line(String::new());
    match input {
        Input::Row(row) => {
            line.word("row");
            for number in [row.declared, row.detect as u8, row.promote as u8, row.scrambled as u8] {
                line.number(number.into());
            }
            row.held.iter().for_each(|length| line.number(*length as u64));
            row.calls.iter().for_each(|call| line.call(call));
        }
        Input::Tree(tree) => {
            line.word("tree");
            for number in [tree.declared.into(), tree.flags.into(), tree.feature, tree.cut] {
                line.number(number.into());
            }
            line.bytes(&tree.store.table);
            for pool in &tree.store.pools {
                line.bytes(&pool.iter().flat_map(|word| word.to_le_bytes()).collect::<Vec<_>>());
            }
        }
        Input::Properties(list) => {
            line.word("properties");
            for number in [list.columns.is_some().into(), list.stop, list.cut] {
                line.number(number.into());
            }
            line.bytes(list.columns.as_deref().unwrap_or_default());
            line.bytes(&list.bytes);
        }
    }
    line.0
}

struct Line(String);

impl Line {
    fn word(&mut self, word: &str) {
        if !self.0.is_empty() {
            self.0.push(' ');
        }
        self.0.push_str(word);
    }
    fn number(&mut self, number: u64) {
        self.word(&number.to_string());
    }
    fn bytes(&mut self, bytes: &[u8]) {
        let mut digits = String::new();
        bytes.iter().for_each(|byte| write!(digits, "{byte:02x}").expect("a string takes all"));
        self.word(if bytes.is_empty() { "-" } else { &digits });
    }
    fn call(&mut self, call: &Call) {
        match &call.what {
            What::Event { bytes, times } => {
                self.word("event");
                self.bytes(bytes);
                self.number((*times).into());
            }
            What::Property { column, kind, bits, text } => {
                self.word("property");
                self.number((*column).into());
                self.number((*kind).into());
                self.number(*bits);
                self.bytes(text);
            }
            What::Finish => self.word("finish"),
            What::Next => self.word("next"),
        }
        match call.cut {
            Some((slice, spare)) => self.word(&format!("{slice}{spare:+}")),
            None => self.word("whole"),
        }
    }
}

/// The input of a line that `to_line` made, or nothing.
pub fn from_line(line: &str) -> Option<Input> {
    let mut words = Words(line.split_whitespace());
    Some(match words.0.next()? {
        "row" => Input::Row(Row {
            declared: words.number()?,
            detect: words.number::<u8>()? != 0,
            promote: words.number::<u8>()? != 0,
            scrambled: words.number::<u8>()? != 0,
            held: words.lengths()?,
            calls: words.calls()?,
        }),
        "tree" => Input::Tree(Tree {
            declared: words.number()?,
            flags: words.number()?,
            feature: words.number()?,
            cut: words.number()?,
            store: Store { table: words.bytes()?, pools: words.pools()? },
        }),
        "properties" => {
            let (has_columns, stop, cut) = (words.number::<u8>()? != 0, words.number()?, words.number()?);
            let columns = words.bytes()?;
            Input::Properties(Properties { columns: has_columns.then_some(columns), stop, cut, bytes: words.bytes()? })
        }
        _ => return None,
    })
}

struct Words<'l>(std::str::SplitWhitespace<'l>);

impl Words<'_> {
    fn number<N: std::str::FromStr>(&mut self) -> Option<N> {
        self.0.next()?.parse().ok()
    }
    fn bytes(&mut self) -> Option<Vec<u8>> {
        let digits = self.0.next()?;
        let pair = |at: usize| u8::from_str_radix(digits.get(at..at + 2)?, 16).ok();
        if digits == "-" {
            return Some(vec![]);
        }
        (0..digits.len()).step_by(2).map(pair).collect()
    }
    fn lengths(&mut self) -> Option<Lengths> {
        let mut lengths = [0; 8];
        for length in &mut lengths {
            *length = self.number()?;
        }
        Some(lengths)
    }
    fn pools(&mut self) -> Option<[Vec<u64>; 6]> {
        let mut pools = [const { vec![] }; 6];
        for pool in &mut pools {
            *pool = self.bytes()?.chunks_exact(8).map(|word| u64::from_le_bytes(word.try_into().unwrap())).collect();
        }
        Some(pools)
    }
    fn calls(&mut self) -> Option<Vec<Call>> {
        let mut calls = vec![];
        while let Some(word) = self.0.next() {
            let what = match word {
                "event" => What::Event { bytes: self.bytes()?, times: self.number()? },
                "property" => {
                    What::Property { column: self.number()?, kind: self.number()?, bits: self.number()?, text: self.bytes()? }
                }
                "finish" => What::Finish,
                "next" => What::Next,
                _ => return None,
            };
            calls.push(Call { what, cut: self.cut()? });
        }
        Some(calls)
    }
    fn cut(&mut self) -> Option<Option<(u8, i8)>> {
        let word = self.0.next()?;
        if word == "whole" {
            return Some(None);
        }
        Some(Some((word.get(..1)?.parse().ok()?, word.get(1..)?.parse().ok()?)))
    }
}
