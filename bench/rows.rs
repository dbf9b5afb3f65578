//! Rows of samples: a clamp in place and four conversions, each beside a plain copy of the row.

use std::hint::black_box;
use std::time::Instant;

use crate::boundary::{self, Answer, DONE};
use crate::random::Random;
use crate::rust_rows as rust;
use crate::table::Line;

type Boundary<S, D> = unsafe extern "C" fn(*const S, usize, *mut D, usize) -> Answer;

/// One side of a comparison: from a row into a row. A clamp works on the second one alone.
type Run<S, D> = Box<dyn Fn(&[S], &mut [D]) -> Answer>;

fn library<S: 'static, D: 'static>(call: Boundary<S, D>) -> Run<S, D> {
    // SAFETY: pointers and lengths are those of slices that are lent for the call.
    Box::new(move |src, dst| unsafe { call(src.as_ptr(), src.len(), dst.as_mut_ptr(), dst.len()) })
}

const SIZES: [(&str, usize); 3] = [("4 Ki", 4 << 10), ("1 Mi", 1 << 20), ("16 Mi", 16 << 20)];

/// Numbers below 2^24, each made a sample.
fn samples<T>(count: usize, sample: impl Fn(u32) -> T) -> Vec<T> {
    let mut random = Random::new();
    (0..count).map(|_| sample((random.next() >> 40) as u32)).collect()
}

/// The sides in turn, so that a change of the machine's speed meets all of them; the library is the first, the copy the last.
fn compare<S: Copy, D: Copy + PartialEq>(work: &str, size: &str, src: &[S], before: &[D], sides: &[Run<S, D>]) {
    let rounds = (200_000_000 / before.len()).clamp(40, 20_000);
    let mut best = vec![f64::MAX; sides.len() + 1];
    let (mut dst, mut twin) = (before.to_vec(), src.to_vec());
    let mut first = None;
    for round in 0..rounds {
        for (side, run) in sides.iter().enumerate() {
            dst.copy_from_slice(before);
            let start = Instant::now();
            let answer = run(black_box(src), black_box(&mut dst));
            let time = start.elapsed().as_secs_f64();
            if round == 0 {
                assert!(answer == DONE && *first.get_or_insert_with(|| dst.clone()) == dst, "{work}: side {side} differs");
            }
            best[side] = best[side].min(time);
        }
        let start = Instant::now();
        black_box(&mut twin).copy_from_slice(black_box(src));
        best[sides.len()] = best[sides.len()].min(start.elapsed().as_secs_f64());
    }
    let position = (sides.len() == 3).then(|| best[2]);
    Line { work, size, library: best[0], rust: best[1], position, copy: best.last().copied() }.print();
}

pub fn run() {
    for (size, count) in SIZES {
        // from -0.5 to 1.5, so that some lie below, some within and some above the bounds
        let before = samples(count, |n| n as f32 / (1 << 23) as f32 - 0.5);
        // SAFETY: the pointer and the length are those of a slice that is lent for the call.
        let library: Run<f32, f32> = Box::new(|_, row| unsafe { boundary::silamogo_row_clamp(row.as_mut_ptr(), row.len(), 0.0, 1.0) });
        let sides = [library, Box::new(|_, row| rust::clamp::<true>(row, 0.0, 1.0)), Box::new(|_, row| rust::clamp::<false>(row, 0.0, 1.0))];
        compare("clamp of f32 in place", size, &before, &before, &sides);
    }
    for (size, count) in SIZES {
        let sides = [library(boundary::silamogo_row_u8_to_u16), Box::new(rust::widen)];
        compare("u8 to u16", size, &samples(count, |n| n as u8), &vec![0; count], &sides);
    }
    for (size, count) in SIZES {
        let sides = [library(boundary::silamogo_row_u16_to_f32), Box::new(rust::widen)];
        compare("u16 to f32", size, &samples(count, |n| n as u16), &vec![0.0; count], &sides);
    }
    for (size, count) in SIZES {
        let sides = [library(boundary::silamogo_row_u16_to_u8), Box::new(rust::u16_to_u8::<true>), Box::new(rust::u16_to_u8::<false>)];
        compare("u16 to u8", size, &samples(count, |n| n as u16 & 0xff), &vec![0; count], &sides);
    }
    for (size, count) in SIZES {
        let sides = [library(boundary::silamogo_row_f32_to_u16), Box::new(rust::f32_to_u16::<true>), Box::new(rust::f32_to_u16::<false>)];
        compare("f32 to u16", size, &samples(count, |n| (n & 0xffff) as f32), &vec![0; count], &sides);
    }
}
