//! Medians of many runs.
use std::hint::black_box;
use std::time::Instant;

/// The time of one run, in nanoseconds.
pub fn time<T>(run: impl FnOnce() -> T) -> f64 {
    let start = Instant::now();
    black_box(run());
    start.elapsed().as_nanos() as f64
}

/// Runs what the instructions are counted of: callgrind collects inside this function alone (compare/instructions), so
/// it stays one by itself.
#[inline(never)]
pub fn counted<T>(run: impl FnOnce() -> T) {
    black_box(run());
}

/// Medians of so many runs of several sides, each run after the other, so that all see the same machine.
pub fn medians<const SIDES: usize>(runs: usize, mut sides: [&mut dyn FnMut() -> f64; SIDES]) -> [f64; SIDES] {
    let mut times: [Vec<f64>; SIDES] = std::array::from_fn(|_| Vec::with_capacity(runs));
    for _ in 0..runs {
        for (side, times) in sides.iter_mut().zip(&mut times) {
            times.push(side());
        }
    }
    times.map(|mut times| {
        times.sort_by(f64::total_cmp);
        times[runs / 2]
    })
}
