//! The sides of a row, taken in turn; the least time of each counts.
use std::time::{Duration, Instant};

pub fn timed(run: impl FnOnce()) -> Duration {
    let start = Instant::now();
    run();
    start.elapsed()
}

#[derive(Clone, Copy)]
pub struct Rounds {
    pub warming: usize,
    pub counted: usize,
}

pub struct Times {
    /// The crate's own Rust, or GEOS; none where that is not installed.
    pub peer: Option<Duration>,
    pub port: Duration,
    pub copy: Duration,
}

/// Each side answers how long what it was asked for took. Their buffers are warm: the first rounds are not counted.
pub fn in_turn<const SIDES: usize>(rounds: Rounds, mut sides: [&mut dyn FnMut() -> Duration; SIDES]) -> [Duration; SIDES] {
    let mut least = [Duration::MAX; SIDES];
    for round in 0..rounds.warming + rounds.counted {
        for (side, least) in sides.iter_mut().zip(&mut least) {
            let time = side();
            if round >= rounds.warming {
                *least = time.min(*least);
            }
        }
    }
    least
}

/// The two sides, and a copy of so many bytes.
pub fn least(rounds: Rounds, bytes: usize, rust: impl FnMut() -> Duration, port: impl FnMut() -> Duration) -> Times {
    least_beside(rounds, bytes, Some(rust), port)
}

/// The same, where the other side may be missing.
pub fn least_beside(
    rounds: Rounds,
    bytes: usize,
    peer: Option<impl FnMut() -> Duration>,
    mut port: impl FnMut() -> Duration,
) -> Times {
    let from = vec![1u8; bytes];
    let mut to = vec![0u8; bytes];
    let mut copy = || timed(|| std::hint::black_box(&mut to[..]).copy_from_slice(std::hint::black_box(&from)));
    if let Some(mut peer) = peer {
        let [peer, port, copy] = in_turn(rounds, [&mut peer, &mut port, &mut copy]);
        Times { peer: Some(peer), port, copy }
    } else {
        let [port, copy] = in_turn(rounds, [&mut port, &mut copy]);
        Times { peer: None, port, copy }
    }
}
