use crate::{bare, Refusal, Tree};

/// What a reading came to: the log's first `count` records are events, refused or not.
#[derive(Clone, Copy, Debug, PartialEq, Eq)]
pub struct Read {
    pub answer: Result<(), Refusal>,
    pub count: usize,
}

/// A box; with a refusal, the one that every box begins with: plus infinity twice, minus infinity twice.
#[derive(Clone, Copy, Debug, PartialEq)]
pub struct Boxed {
    pub answer: Result<(), Refusal>,
    pub least_x: f64,
    pub least_y: f64,
    pub greatest_x: f64,
    pub greatest_y: f64,
}

impl Tree<'_> {
    /// Reads the tree as event records from the log's start, under a declared type or, with 0, the root's own. `flags` says
    /// which of z, m, t and tm are wanted; with any, every pair is a coordinate. `feature` is the number that every record
    /// says, by which it is found again in a log that has several features. Refused: 1, 2, 3, 4, 7, 8, 9, 10, 13.
    pub fn read(&self, declared: u8, flags: u8, feature: u32, log: &mut [u8]) -> Read {
        let mut count = 0;
        let number = bare::read(*self, declared, flags, feature, log, &mut count);
        Read { answer: Refusal::of(number), count: count as usize }
    }

    /// The box around the geometry of record `n` with all its parts; that of record 0 is the whole feature's. Its own pairs
    /// come first, then each part's in order, parts of every type. Record `n` is level 1. Refused: 13, 10.
    pub fn bbox(&self, n: u32) -> Boxed {
        let mut edges = [0; 4];
        let number = bare::bbox(*self, n, &mut edges);
        let [least_x, least_y, greatest_x, greatest_y] = edges.map(f64::from_bits);
        Boxed { answer: Refusal::of(number), least_x, least_y, greatest_x, greatest_y }
    }
}
