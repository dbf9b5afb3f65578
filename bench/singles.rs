//! One sample a call: a float to an integer kind.

use std::hint::black_box;

use crate::boundary::{self, Given, Sample};
use crate::random::Random;
use crate::rust_singles as rust;
use crate::table::Line;
use crate::turns::{best, COUNT};

type Convert = fn(Sample, u8) -> Given<Sample>;

const F64: u8 = 9;
const I64: u8 = 7;

fn wholes(call: Convert, samples: &[Sample], to: u8, wholes: &mut [u64]) {
    for (whole, &sample) in wholes.iter_mut().zip(samples) {
        let given = call(sample, to);
        assert!(given.number == 0);
        *whole = given.result.bits;
    }
}

/// An f32 or f64: any pattern, or a few digits around the point; now and then bits that the kind lacks, or a kind that has no name.
fn any_float(random: &mut Random) -> Sample {
    let few = (random.next() >> 48) as f64 * 2f64.powi(random.below(80) as i32 - 16);
    let signed = if random.below(2) == 0 { few } else { -few };
    let (kind, bits) = match random.below(8) {
        0 => (8, random.next() >> 32),
        1 => (9, random.next()),
        2 => (random.below(256) as u8 | 16, random.next() >> 32),
        3 => (8, random.next()),
        4..6 => (8, (signed as f32).to_bits().into()),
        _ => (9, signed.to_bits()),
    };
    Sample { kind, bits }
}

/// Both sides, of every integer kind and a kind that has no name.
fn answer_alike(random: &mut Random) {
    for _ in 0..200_000 {
        let (sample, to) = (any_float(random), [0, 1, 2, 3, 4, 5, 6, I64, 11][random.below(9)]);
        let answers = [boundary::convert, rust::float_to_integer].map(|call: Convert| call(sample, to));
        assert!(answers[0] == answers[1], "{sample:x?} {to}: {answers:x?}");
    }
}

pub fn run() {
    let mut random = Random::new();
    answer_alike(&mut random);
    // 1 to 2^62 in no order: of an f64's 53 digits all but the first are 0, and up to 52 of them stand below the point
    let power = |random: &mut Random| Sample { kind: F64, bits: ((1u64 << random.below(63)) as f64).to_bits() };
    let samples: Vec<Sample> = (0..COUNT).map(|_| power(&mut random)).collect();
    let (mut ours, mut theirs) = ([0; COUNT], [0; COUNT]);
    let [library, rust] = best(
        || wholes(boundary::convert, black_box(&samples), black_box(I64), &mut ours),
        || wholes(rust::float_to_integer, black_box(&samples), black_box(I64), &mut theirs),
    );
    assert!(ours == theirs, "whole numbers differ");
    Line { work: "float to integer, one sample", size: "f64 → i64", library, rust, position: None, copy: None }.print();
}
