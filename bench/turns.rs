//! Two sides in turn on one round of items, so that a change of the machine's speed meets both.

use std::time::Instant;

/// How many items a round has.
pub const COUNT: usize = 4096;
const ROUNDS: usize = 1000;

/// Best seconds an item of both sides; the library is the first.
pub fn best(mut library: impl FnMut(), mut rust: impl FnMut()) -> [f64; 2] {
    let mut best = [f64::MAX; 2];
    for _ in 0..ROUNDS {
        let mut time = |side: usize, run: &mut dyn FnMut()| {
            let start = Instant::now();
            run();
            best[side] = best[side].min(start.elapsed().as_secs_f64() / COUNT as f64);
        };
        time(0, &mut library);
        time(1, &mut rust);
    }
    best
}
