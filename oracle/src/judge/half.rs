//! binary16, which stable Rust lacks: each pattern as the f32 of the same number.
//! The bits of a NaN are moved up, so both orders of f32 are those of the patterns.

use std::num::FpCategory;

/// The step of the least numbers, 2^-24: every finite number is a whole number
/// of such steps.
const STEP: f32 = 1.0 / (1 << 24) as f32;

/// The least normal number, 2^-14.
const MIN_POSITIVE: f32 = 1024.0 * STEP;

/// Only what binary16 has is held.
#[derive(Clone, Copy, PartialEq, PartialOrd, Debug)]
pub struct Half(pub f32);

impl Half {
    pub const MAX: f32 = 65504.0;

    pub fn from_bits(bits: u16) -> Half {
        let (exponent, fraction) = (bits / 1024 % 32, bits % 1024);
        let size = match exponent {
            0 => f32::from(fraction) * STEP,
            31 => f32::from_bits(f32::INFINITY.to_bits() | u32::from(fraction) << 13),
            _ => f32::from(1024 + fraction) * (1 << (exponent - 1)) as f32 * STEP,
        };
        Half(if bits < 0x8000 { size } else { -size })
    }

    pub fn to_bits(self) -> u16 {
        let size = self.0.abs();
        // From 2^-14 on f32 has the same fraction, 13 digits higher; its exponents
        // begin elsewhere.
        let bits = match size.classify() {
            _ if size < MIN_POSITIVE => (size / STEP) as u32,
            FpCategory::Nan | FpCategory::Infinite => (size.to_bits() >> 13) - (255 - 31) * 1024,
            _ => (size.to_bits() >> 13) - (127 - 15) * 1024,
        };
        let sign = u16::from(self.0.is_sign_negative()) << 15;
        sign | bits as u16
    }

    /// The number that is nearest to another, which is no NaN; of two the even one,
    /// and past the greatest an infinity.
    pub fn nearest(x: f64) -> Half {
        let mut step = f64::from(STEP);
        while x.abs() >= 2048.0 * step && step < 32.0 {
            step *= 2.0;
        }
        let nearest = (x / step).round_ties_even() * step;
        Half(match nearest.abs() > f64::from(Half::MAX) {
            true => f32::INFINITY.copysign(nearest as f32),
            false => nearest as f32,
        })
    }

    pub fn classify(self) -> FpCategory {
        let size = self.0.abs();
        match 0.0 < size && size < MIN_POSITIVE {
            true => FpCategory::Subnormal,
            false => self.0.classify(),
        }
    }
}

#[cfg(test)]
mod tests {
    use super::*;

    fn number(bits: u16) -> f64 {
        Half::from_bits(bits).0.into()
    }

    #[test]
    fn numbers_by_hand() {
        assert_eq!(number(0x0001), 2f64.powi(-24));
        assert_eq!(number(0x03ff), 1023.0 / 16_777_216.0);
        assert_eq!(number(0x0400), 2f64.powi(-14));
        assert_eq!(number(0x3555), 0.333251953125);
        assert_eq!(number(0x3c01), 1.0 + 2f64.powi(-10));
        assert_eq!(number(0xc248), -3.140625);
        assert_eq!(number(0x6800), 2048.0);
        assert_eq!(number(0x7bff), 65504.0);
        assert_eq!(number(0xfc00), f64::NEG_INFINITY);
        assert_eq!(number(0x8000).to_bits(), (-0.0f64).to_bits());
    }

    /// Every pattern comes back, and in the total order each is above the one
    /// before it; of those that are finite each number but zero too.
    #[test]
    fn every_pattern() {
        let minus = (0x8000..=0xffff).rev();
        let all: Vec<u16> = minus.chain(0..0x8000).collect();
        assert_eq!(all.len(), 0x1_0000);
        for &bits in &all {
            assert_eq!(Half::from_bits(bits).to_bits(), bits);
        }
        for pair in all.windows(2) {
            let [low, high] = [pair[0], pair[1]].map(Half::from_bits);
            assert!(low.0.total_cmp(&high.0).is_lt(), "{pair:x?}");
            let nan = low.0.is_nan() || high.0.is_nan();
            assert_eq!(low < high, !nan && pair[0] != 0x8000, "{pair:x?}");
        }
    }

    /// As many of each class as the widths say.
    #[test]
    fn classes() {
        let all = (0..=0xffff).map(|bits| Half::from_bits(bits).classify());
        let mut counts = [0; 5];
        all.for_each(|class| counts[class as usize] += 1);
        let of = |class: FpCategory| counts[class as usize];
        assert_eq!(of(FpCategory::Zero), 2);
        assert_eq!(of(FpCategory::Subnormal), 2 * 1023);
        assert_eq!(of(FpCategory::Normal), 2 * 30 * 1024);
        assert_eq!(of(FpCategory::Infinite), 2);
        assert_eq!(of(FpCategory::Nan), 2 * 1023);
    }

    /// Around every number, and half a step from it: past the greatest a step
    /// further would be 65536, which an infinity stands for.
    #[test]
    fn nearest_numbers() {
        for low in 0..0x7c00u16 {
            let x = number(low);
            let next = if low < 0x7bff {
                number(low + 1)
            } else {
                65536.0
            };
            let middle = (x + next) / 2.0;
            let even = low + low % 2;
            for (x, wanted) in [
                (x, low),
                ((x + middle) / 2.0, low),
                (f64::from_bits(middle.to_bits() - 1), low),
                (middle, even),
                (f64::from_bits(middle.to_bits() + 1), low + 1),
            ] {
                assert_eq!(Half::nearest(x).to_bits(), wanted, "{x}");
                assert_eq!(Half::nearest(-x).to_bits(), 0x8000 | wanted, "-{x}");
            }
        }
        for far in [65536.0, 131_072.0, 1e300, f64::INFINITY] {
            assert_eq!(Half::nearest(far).to_bits(), 0x7c00);
            assert_eq!(Half::nearest(-far).to_bits(), 0xfc00);
        }
        assert_eq!(Half::nearest(f64::from_bits(1)).to_bits(), 0);
    }
}
