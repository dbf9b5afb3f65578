//! The same work in Rust: a row is refused whole or done whole. BLOCKS picks how the first bad sample is looked for.

use crate::boundary::{Answer, DONE};

const LENGTHS: Answer = Answer { number: 9, place: 0 };

/// By blocks of 256, as the library does; or as it would be written first, by `position`, which stops at the sample.
#[inline(always)]
fn first<const BLOCKS: bool, T: Copy>(row: &[T], bad: impl Fn(T) -> bool) -> Option<usize> {
    if !BLOCKS {
        return row.iter().position(|x| bad(*x));
    }
    let mut at = 0;
    for block in row.chunks(256) {
        if block.iter().fold(false, |found, x| found | bad(*x)) {
            return block.iter().position(|x| bad(*x)).map(|i| at + i);
        }
        at += block.len();
    }
    None
}

#[inline(never)]
pub fn clamp<const BLOCKS: bool>(row: &mut [f32], lower: f32, upper: f32) -> Answer {
    if !(lower <= upper) {
        return Answer { number: 6, place: 0 };
    }
    if let Some(place) = first::<BLOCKS, f32>(row, |x| x.is_nan()) {
        return Answer { number: 8, place };
    }
    for x in row.iter_mut() {
        let v = *x;
        *x = if v < lower {
            lower
        } else if upper < v {
            upper
        } else {
            v
        };
    }
    DONE
}

/// u8 to u16 and u16 to f32.
#[inline(never)]
pub fn widen<S: Copy, D: From<S>>(src: &[S], dst: &mut [D]) -> Answer {
    if src.len() != dst.len() {
        return LENGTHS;
    }
    for (y, x) in dst.iter_mut().zip(src) {
        *y = D::from(*x);
    }
    DONE
}

#[inline(never)]
pub fn u16_to_u8<const BLOCKS: bool>(src: &[u16], dst: &mut [u8]) -> Answer {
    if src.len() != dst.len() {
        return LENGTHS;
    }
    if let Some(place) = first::<BLOCKS, u16>(src, |x| x > 255) {
        return Answer { number: 4, place };
    }
    for (y, x) in dst.iter_mut().zip(src) {
        *y = *x as u8;
    }
    DONE
}

fn refusal_of(x: f32) -> u8 {
    match x {
        x if x.is_nan() => 1,
        x if x.is_infinite() => 2,
        x if x.to_bits() == 1 << 31 => 13,
        x if x.fract() != 0.0 => 3,
        _ => 4,
    }
}

/// Check and cast: a sample converts when its cast, cast back, has its bits; minus zero's doesn't.
#[inline(never)]
pub fn f32_to_u16<const BLOCKS: bool>(src: &[f32], dst: &mut [u16]) -> Answer {
    if src.len() != dst.len() {
        return LENGTHS;
    }
    if let Some(place) = first::<BLOCKS, f32>(src, |x| f32::from(x as u16).to_bits() != x.to_bits()) {
        return Answer { number: refusal_of(src[place]), place };
    }
    for (y, x) in dst.iter_mut().zip(src) {
        *y = *x as u16;
    }
    DONE
}
