//! The numbers that bits stand for.

use std::cmp::Ordering;

use crate::value::{Form, Value};

/// A magnitude in whole numbers, low limb first. The greatest, of f64, is below
/// 2^2098.
#[derive(Clone, Copy, PartialEq, Eq, Debug)]
pub struct Whole(pub [u64; 33]);

impl Whole {
    pub const ZERO: Whole = Whole([0; 33]);

    /// A number times a power of two.
    pub fn shifted(number: u64, by: u32) -> Whole {
        let mut whole = Whole::ZERO;
        let (limb, bit) = (by as usize / 64, by % 64);
        let wide = u128::from(number) << bit;
        whole.0[limb] = wide as u64;
        // The high part of a number in the last limb is always 0.
        if limb + 1 < whole.0.len() {
            whole.0[limb + 1] = (wide >> 64) as u64;
        }
        whole
    }

    pub fn order(&self, other: &Whole) -> Ordering {
        self.0.iter().rev().cmp(other.0.iter().rev())
    }
}

/// The sign bit is set.
pub fn negative(value: Value) -> bool {
    value.bits >= value.kind.top()
}

/// The bits without the sign bit.
pub fn abs(value: Value) -> u64 {
    value.bits - if negative(value) { value.kind.top() } else { 0 }
}

/// The magnitude of a finite float's scaled number, times a power of two.
pub fn scaled(value: Value, power: u32) -> Whole {
    let unit = value.kind.unit();
    let (exponent, fraction) = ((abs(value) / unit) as u32, abs(value) % unit);
    match exponent {
        0 => Whole::shifted(fraction, power),
        _ => Whole::shifted(unit + fraction, exponent - 1 + power),
    }
}

/// The number that an integer kind's bits stand for.
pub fn integer(value: Value) -> i128 {
    let below = value.kind.form() == Form::Signed && negative(value);
    let below = if below {
        1i128 << value.kind.width()
    } else {
        0
    };
    i128::from(value.bits) - below
}

#[cfg(test)]
mod tests {
    use super::*;
    use crate::value::Kind;

    /// Marked case 4, and the value that a scaled number is 2^149 times of.
    #[test]
    fn scaled_numbers() {
        let scaled = |bits| scaled(Value::new(Kind::F32, bits), 0);
        assert_eq!(scaled(0x007f_ffff), Whole::shifted(8388607, 0));
        assert_eq!(scaled(0x0080_0000), Whole::shifted(8388608, 0));
        assert_eq!(scaled(0x8000_0001), Whole::shifted(1, 0));
        // The same of f16: 1023 and 1024, and the greatest, 65504 times 2^24.
        let half = |bits| super::scaled(Value::new(Kind::F16, bits), 0);
        assert_eq!(half(0x03ff), Whole::shifted(1023, 0));
        assert_eq!(half(0x8400), Whole::shifted(1024, 0));
        assert_eq!(half(0x7bff), Whole::shifted(65504, 24));
        for float in [1f32, -2.5, 1e-20, 3e38, 65535.0] {
            // At most 24 bits are significant, so no step rounds.
            let limbs = scaled(float.to_bits().into()).0.into_iter().rev();
            let number = limbs.fold(0.0, |number, limb| number * 2f64.powi(64) + limb as f64);
            assert_eq!(number * 2f64.powi(-149), f64::from(float.abs()));
        }
    }
}
