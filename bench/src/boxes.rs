//! Boxes: beside the Rust's own fold, and of trees that are made to be walked far.
use crate::inputs::{Feature, Shared};
use crate::port::Port;
use crate::rows::written;
use crate::timing::{in_turn, timed, Rounds};
use original::packed_r_tree::NodeItem;
use original::tree::{geometry_of, Store};
use std::hint::black_box;
use std::time::Duration;

pub struct BoxTimes {
    pub rust: Duration,
    pub list: Duration,
    pub parts: Duration,
}

/// The Rust's own box over a list, widened pair by pair.
fn fold(words: &[u64]) -> [u64; 4] {
    let mut bounds = NodeItem::create(0);
    for pair in words.chunks_exact(2) {
        bounds.expand_xy(f64::from_bits(pair[0]), f64::from_bits(pair[1]));
    }
    [bounds.min_x, bounds.min_y, bounds.max_x, bounds.max_y].map(f64::to_bits)
}

fn time_box(port: &mut Port) -> Duration {
    timed(|| {
        black_box(port.edges());
    })
}

/// The box of a feature whose pairs are in its parts, beside that of one that has the same pairs in one list.
pub fn of_parts(rounds: Rounds, parts: &Feature, list: &Feature) -> BoxTimes {
    let (bytes, mut parts) = written(parts);
    let (_, mut list) = written(list);
    let [words, ..] = Store::from_geometry(geometry_of(&bytes)).pools;
    assert_eq!([parts.edges(), list.edges()], [fold(&words); 2], "all sides have the same box");
    let mut rust = || {
        timed(|| {
            black_box(fold(black_box(&words)));
        })
    };
    let (mut list, mut parts) = (|| time_box(&mut list), || time_box(&mut parts));
    let [rust, list, parts] = in_turn(rounds, [&mut rust, &mut list, &mut parts]);
    BoxTimes { rust, list, parts }
}

/// The box of a tree of which every way down is accepted. The pairs of its first record and its last are the outermost.
pub fn of_shared(rounds: Rounds, shared: Shared) -> Duration {
    let around = fold(&shared.tree.pools[0]);
    let mut port = Port::holding(shared.tree);
    assert_eq!(port.edges(), around, "the box is around every pair");
    let [time] = in_turn(rounds, [&mut || time_box(&mut port)]);
    time
}
