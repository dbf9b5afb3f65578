//! Rust's own number type of each kind, and what the judges ask of it. For f16,
//! which stable Rust lacks, `Half` stands in.

use std::cmp::{max_by, min_by, Ordering};
use std::num::FpCategory;

use super::half::Half;
use crate::value::Value;

/// A number as Rust holds it without loss, whatever its kind.
#[derive(Clone, Copy)]
pub enum Number {
    Integer(i128),
    Float(f64),
}

pub trait Native: Copy + PartialOrd {
    fn of(value: Value) -> Self;
    fn bits(self) -> u64;
    /// Floats alone have one.
    fn class(self) -> Option<FpCategory>;
    fn total(self, other: Self) -> Ordering;
    // Of numbers that aren't NaN, between bounds that are bounds.
    fn min(self, other: Self) -> Self;
    fn max(self, other: Self) -> Self;
    fn clamp(self, lower: Self, upper: Self) -> Self;
    fn number(self) -> Number;
    /// The number that is equal, or the number of the refusal.
    fn exact(number: Number) -> Result<Self, u32>;
    /// Rounded to a float; of an integer the low bits.
    fn nearest(number: Number) -> Self;
    /// What the key of a number has, high byte first.
    fn key(self) -> Vec<u8>;
}

/// Calls a function of Rust's own number type for a kind.
macro_rules! native {
    ($kind:expr, $function:ident($($argument:expr),*)) => {
        match $kind {
            Kind::U8 => $function::<u8>($($argument),*),
            Kind::U16 => $function::<u16>($($argument),*),
            Kind::U32 => $function::<u32>($($argument),*),
            Kind::U64 => $function::<u64>($($argument),*),
            Kind::I8 => $function::<i8>($($argument),*),
            Kind::I16 => $function::<i16>($($argument),*),
            Kind::I32 => $function::<i32>($($argument),*),
            Kind::I64 => $function::<i64>($($argument),*),
            Kind::F32 => $function::<f32>($($argument),*),
            Kind::F64 => $function::<f64>($($argument),*),
            Kind::F16 => $function::<$crate::judge::half::Half>($($argument),*),
        }
    };
}
pub(crate) use native;

macro_rules! integers {
    ($($integer:ident)+) => {$(
        impl Native for $integer {
            fn of(value: Value) -> $integer {
                value.bits as $integer
            }

            fn bits(self) -> u64 {
                self as u64
            }

            fn class(self) -> Option<FpCategory> {
                None
            }

            fn total(self, other: $integer) -> Ordering {
                self.cmp(&other)
            }

            fn min(self, other: $integer) -> $integer {
                Ord::min(self, other)
            }

            fn max(self, other: $integer) -> $integer {
                Ord::max(self, other)
            }

            fn clamp(self, lower: $integer, upper: $integer) -> $integer {
                Ord::clamp(self, lower, upper)
            }

            fn number(self) -> Number {
                Number::Integer(self.into())
            }

            fn exact(number: Number) -> Result<$integer, u32> {
                match number {
                    Number::Integer(n) => n.try_into().map_err(|_| 4),
                    Number::Float(x) if x.is_infinite() => Err(2),
                    Number::Float(x) if x == 0.0 && x.is_sign_negative() => Err(13),
                    Number::Float(x) if x.fract() != 0.0 => Err(3),
                    // A number past 128 bits saturates, and is still out of range.
                    Number::Float(x) => (x as i128).try_into().map_err(|_| 4),
                }
            }

            fn nearest(number: Number) -> $integer {
                match number {
                    Number::Integer(n) => n as $integer,
                    Number::Float(x) => x as i128 as $integer,
                }
            }

            fn key(self) -> Vec<u8> {
                self.abs_diff($integer::MIN).to_be_bytes().to_vec()
            }
        }
    )+};
}

macro_rules! floats {
    ($($float:ident $word:ident;)+) => {$(
        impl Native for $float {
            fn of(value: Value) -> $float {
                $float::from_bits(value.bits as $word)
            }

            fn bits(self) -> u64 {
                self.to_bits().into()
            }

            fn class(self) -> Option<FpCategory> {
                Some(self.classify())
            }

            fn total(self, other: $float) -> Ordering {
                self.total_cmp(&other)
            }

            fn min(self, other: $float) -> $float {
                min_by(self, other, |x, y| x.partial_cmp(y).expect("no NaN"))
            }

            fn max(self, other: $float) -> $float {
                max_by(self, other, |x, y| x.partial_cmp(y).expect("no NaN"))
            }

            fn clamp(self, lower: $float, upper: $float) -> $float {
                match self.clamp(lower, upper) {
                    // Either zero: Rust leaves open which, so the comparisons decide.
                    0.0 if self < lower => lower,
                    0.0 if self > upper => upper,
                    0.0 => self,
                    clamped => clamped,
                }
            }

            fn number(self) -> Number {
                Number::Float(self.into())
            }

            fn exact(number: Number) -> Result<$float, u32> {
                let nearest = <$float as Native>::nearest(number);
                match number {
                    Number::Integer(n) if nearest as i128 == n => Ok(nearest),
                    Number::Float(x) if f64::from(nearest) == x => Ok(nearest),
                    Number::Float(x) if x.abs() > f64::from($float::MAX) => Err(4),
                    _ => Err(5),
                }
            }

            fn nearest(number: Number) -> $float {
                match number {
                    Number::Integer(n) => n as $float,
                    Number::Float(x) => x as $float,
                }
            }

            fn key(self) -> Vec<u8> {
                // Minus zero and plus zero together are plus zero.
                let bits = (self + 0.0).to_bits();
                let sign = (-0.0 as $float).to_bits();
                let rank = if self < 0.0 { !bits } else { sign + bits };
                rank.to_be_bytes().to_vec()
            }
        }
    )+};
}

integers! { u8 u16 u32 u64 i8 i16 i32 i64 }
floats! {
    f32 u32;
    f64 u64;
}

/// By the f32 of the same number, which has the same orders.
impl Native for Half {
    fn of(value: Value) -> Half {
        Half::from_bits(value.bits as u16)
    }

    fn bits(self) -> u64 {
        self.to_bits().into()
    }

    fn class(self) -> Option<FpCategory> {
        Some(self.classify())
    }

    fn total(self, other: Half) -> Ordering {
        self.0.total_cmp(&other.0)
    }

    fn min(self, other: Half) -> Half {
        Half(Native::min(self.0, other.0))
    }

    fn max(self, other: Half) -> Half {
        Half(Native::max(self.0, other.0))
    }

    fn clamp(self, lower: Half, upper: Half) -> Half {
        Half(Native::clamp(self.0, lower.0, upper.0))
    }

    fn number(self) -> Number {
        self.0.number()
    }

    fn exact(number: Number) -> Result<Half, u32> {
        let nearest = <Half as Native>::nearest(number);
        match as_f64(number) {
            x if f64::from(nearest.0) == x => Ok(nearest),
            x if x.abs() > f64::from(Half::MAX) => Err(4),
            _ => Err(5),
        }
    }

    fn nearest(number: Number) -> Half {
        Half::nearest(as_f64(number))
    }

    fn key(self) -> Vec<u8> {
        // Minus zero and plus zero together are plus zero.
        let bits = Half(self.0 + 0.0).to_bits();
        let rank = if self.0 < 0.0 { !bits } else { 0x8000 + bits };
        rank.to_be_bytes().to_vec()
    }
}

/// Whole numbers that f64 lacks are far past the greatest of f16, and stay there.
fn as_f64(number: Number) -> f64 {
    match number {
        Number::Integer(n) => n as f64,
        Number::Float(x) => x,
    }
}
