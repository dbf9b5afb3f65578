//! The same work in Rust: the same refusals in the same order, the same answers.

use crate::boundary::{Given, Sample};
use crate::rust_records::highest;

/// From the lowest number to the end, which isn't one of them: of u8, u16, u32, u64, i8, i16, i32, i64.
const RANGES: [(f64, f64); 8] = [
    (0.0, 256.0),
    (0.0, 65536.0),
    (0.0, 4294967296.0),
    (0.0, 18446744073709551616.0),
    (-128.0, 128.0),
    (-32768.0, 32768.0),
    (-2147483648.0, 2147483648.0),
    (-9223372036854775808.0, 9223372036854775808.0),
];

/// Of an f32 or f64 to one of the integer kinds.
#[inline(never)]
pub fn float_to_integer(v: Sample, to: u8) -> Given<Sample> {
    let (number, result) = match whole(v, to) {
        Ok(bits) => (0, Sample { kind: to, bits }),
        Err(number) => (number, Sample { kind: 0, bits: 0 }),
    };
    Given { number, place: 0, result }
}

fn whole(v: Sample, to: u8) -> Result<u64, u8> {
    let Some(&(lowest, end)) = RANGES.get(usize::from(to)) else {
        return Err(7);
    };
    let x = match v.kind {
        8 if v.bits > highest(8) => return Err(4),
        8 => f64::from(f32::from_bits(v.bits as u32)),
        9 => f64::from_bits(v.bits),
        _ => return Err(7),
    };
    if x.is_nan() {
        return Err(1);
    }
    if x.is_infinite() {
        return Err(2);
    }
    if x.to_bits() == 1 << 63 {
        return Err(13);
    }
    if x.fract() != 0.0 {
        return Err(3);
    }
    if x < lowest || end <= x {
        return Err(4);
    }
    let bits = if to < 4 { x as u64 } else { x as i64 as u64 };
    Ok(bits & highest(to))
}
