//! Patterns of f32, all of them if asked for.

use std::sync::atomic::{AtomicBool, AtomicU64, Ordering::Relaxed};
use std::sync::Mutex;
use std::thread;
use std::time::Instant;

use crate::every::{at, place_of};
use oracle::value::{Kind, Value};

/// Patterns on either side of each border of exponents.
const NEAR: u32 = 64;

/// The work is done in so many parts, each taken by the thread that is free.
const PARTS: u64 = 256;

/// What was done, or the first pattern found whose answer differs.
pub fn every_f32(step: u64) -> Result<String, String> {
    let borders = borders();
    for &bits in &borders {
        at(Kind::F32, place_of(Value::new(Kind::F32, bits.into())))?;
    }
    let count = (1u64 << 32).div_ceil(step);
    let start = Instant::now();
    let (next, stop) = (AtomicU64::new(0), AtomicBool::new(false));
    let difference = Mutex::new(None);
    let work = || loop {
        let part = next.fetch_add(1, Relaxed);
        if part >= PARTS || stop.load(Relaxed) {
            return;
        }
        let mut places = part * count / PARTS..(part + 1) * count / PARTS;
        if let Err(text) = places.try_for_each(|n| at(Kind::F32, n * step)) {
            stop.store(true, Relaxed);
            difference.lock().expect("no panic").get_or_insert(text);
            return;
        }
        if count > 1 << 24 && part % 16 == 15 {
            let seconds = start.elapsed().as_secs();
            eprintln!("every-f32: {} of {PARTS} parts, {seconds} s", part + 1);
        }
    };
    thread::scope(|scope| {
        for _ in 0..thread::available_parallelism().map_or(1, |n| n.get()) {
            scope.spawn(work);
        }
    });
    match difference.into_inner().expect("no panic") {
        Some(text) => Err(text),
        None => Ok(format!(
            "every-f32: {count} patterns in steps of {step}, and {} near borders, none differs, {} s",
            borders.len(),
            start.elapsed().as_secs()
        )),
    }
}

/// Both zeros, and where each exponent begins, with either sign.
fn borders() -> Vec<u32> {
    let begins = (0..512u32).map(|exponent| exponent << 23);
    let near = |begin: u32| (0..2 * NEAR).map(move |n| begin.wrapping_sub(NEAR).wrapping_add(n));
    begins.flat_map(near).collect()
}
