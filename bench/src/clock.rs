//! The times of two calls that do the same work: the best of several rounds, which take turns.

use std::{env, hint::black_box, time::Instant};

// A round takes about this many nanoseconds or one call, whichever is more.
const ROUND: f64 = 500_000.0;

/// The nanoseconds of one call of each.
#[derive(Clone, Copy)]
pub struct Times {
    pub ours: f64,
    pub theirs: f64,
}

fn rounds() -> u32 {
    env::var("ROUNDS")
        .ok()
        .and_then(|n| n.parse().ok())
        .unwrap_or(15)
}

fn nanoseconds(calls: u64, work: &mut impl FnMut() -> u64) -> f64 {
    let start = Instant::now();
    for _ in 0..calls {
        black_box(work());
    }
    start.elapsed().as_nanos() as f64 / calls as f64
}

fn calls(work: &mut impl FnMut() -> u64) -> u64 {
    let once = nanoseconds(1, work).max(1.0);
    ((ROUND / once) as u64).clamp(1, 100_000)
}

/// Times both.
pub fn race(mut ours: impl FnMut() -> u64, mut theirs: impl FnMut() -> u64) -> Times {
    let (n, m) = (calls(&mut ours), calls(&mut theirs));
    let mut best = Times {
        ours: f64::INFINITY,
        theirs: f64::INFINITY,
    };
    for _ in 0..rounds() {
        best.ours = best.ours.min(nanoseconds(n, &mut ours));
        best.theirs = best.theirs.min(nanoseconds(m, &mut theirs));
    }
    best
}
