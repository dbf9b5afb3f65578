//! The kinds, and a value as its kind and its bits.

use std::fmt;

use crate::text;

#[derive(Clone, Copy, PartialEq, Eq, Debug)]
pub enum Form {
    Unsigned,
    Signed,
    /// So many fraction bits; a sign bit and the exponent take the rest.
    Float {
        fraction: u32,
    },
}

macro_rules! kinds {
    ($($kind:ident $name:literal $width:literal $form:expr;)+) => {
        #[derive(Clone, Copy, PartialEq, Eq, Debug)]
        pub enum Kind {
            $($kind),+
        }

        impl Kind {
            pub const ALL: &'static [Kind] = &[$(Kind::$kind),+];

            /// Name, width in bits and form.
            const fn entry(self) -> (&'static str, u32, Form) {
                match self {
                    $(Kind::$kind => ($name, $width, $form)),+
                }
            }
        }
    };
}

// A kind is added here, and where judge/native.rs names Rust's type for it. Its
// place in this table is its number at the C boundary.
kinds! {
    U8 "u8" 8 Form::Unsigned;
    U16 "u16" 16 Form::Unsigned;
    U32 "u32" 32 Form::Unsigned;
    U64 "u64" 64 Form::Unsigned;
    I8 "i8" 8 Form::Signed;
    I16 "i16" 16 Form::Signed;
    I32 "i32" 32 Form::Signed;
    I64 "i64" 64 Form::Signed;
    F32 "f32" 32 Form::Float { fraction: 23 };
    F64 "f64" 64 Form::Float { fraction: 52 };
    F16 "f16" 16 Form::Float { fraction: 10 };
}

impl Kind {
    pub fn floats() -> Vec<Kind> {
        let all = Kind::ALL.iter().copied();
        all.filter(|kind| kind.is_float()).collect()
    }

    pub fn integers() -> Vec<Kind> {
        let all = Kind::ALL.iter().copied();
        all.filter(|kind| !kind.is_float()).collect()
    }

    pub fn parse(text: &[u8]) -> Option<Kind> {
        let mut all = Kind::ALL.iter().copied();
        all.find(|kind| kind.name().as_bytes() == text)
    }

    pub fn name(self) -> &'static str {
        self.entry().0
    }

    /// Width in bits.
    pub fn width(self) -> u32 {
        self.entry().1
    }

    pub fn form(self) -> Form {
        self.entry().2
    }

    pub fn is_float(self) -> bool {
        matches!(self.form(), Form::Float { .. })
    }

    /// Width in bytes.
    pub fn bytes(self) -> usize {
        self.width() as usize / 8
    }

    /// Number of hex digits of a value of this kind.
    pub fn digits(self) -> usize {
        self.width() as usize / 4
    }

    /// All bits of the kind set.
    pub fn mask(self) -> u64 {
        u64::MAX >> (64 - self.width())
    }

    /// The highest bit alone.
    pub fn top(self) -> u64 {
        1 << (self.width() - 1)
    }
}

/// What float kinds alone have.
impl Kind {
    /// Number of fraction bits.
    pub fn fraction(self) -> u32 {
        match self.form() {
            Form::Float { fraction } => fraction,
            _ => panic!("{self:?} is no float kind"),
        }
    }

    /// The exponent field of 1.
    pub fn bias(self) -> u32 {
        (1 << (self.width() - 2 - self.fraction())) - 1
    }

    /// The least normal pattern: the least exponent field but 0.
    pub fn unit(self) -> u64 {
        1 << self.fraction()
    }

    /// The pattern of 1.
    pub fn one(self) -> u64 {
        u64::from(self.bias()) << self.fraction()
    }

    /// The pattern of plus infinity; those above it are NaN.
    pub fn infinity(self) -> u64 {
        self.top() - self.unit()
    }
}

/// The bits stand in the low end of `bits`; the rest is zero.
#[derive(Clone, Copy, PartialEq, Eq, Debug)]
pub struct Value {
    pub kind: Kind,
    pub bits: u64,
}

impl Value {
    /// Keeps the low bits that the kind has room for.
    pub fn new(kind: Kind, bits: u64) -> Value {
        let bits = bits & kind.mask();
        Value { kind, bits }
    }

    pub fn parse(text: &[u8]) -> Option<Value> {
        let colon = text.iter().position(|&byte| byte == b':')?;
        let kind = Kind::parse(&text[..colon])?;
        Value::of_digits(kind, &text[colon + 1..])
    }

    /// A value of a known kind, written as its digits alone.
    pub fn of_digits(kind: Kind, digits: &[u8]) -> Option<Value> {
        if digits.len() != kind.digits() {
            return None;
        }
        let bits = text::hex(digits)?;
        Some(Value { kind, bits })
    }

    pub fn digits(self) -> String {
        format!("{:0width$x}", self.bits, width = self.kind.digits())
    }

    /// By its bits; the judges ask Rust's own floats.
    pub fn is_nan(self) -> bool {
        self.kind.is_float() && self.bits & !self.kind.top() > self.kind.infinity()
    }

    pub fn is_zero(self) -> bool {
        self.bits == 0 || self.kind.is_float() && self.bits == self.kind.top()
    }

    /// The value so many steps further by bits, around the end of the width.
    pub fn stepped(self, steps: i64) -> Value {
        Value::new(self.kind, self.bits.wrapping_add(steps as u64))
    }
}

impl fmt::Display for Value {
    fn fmt(&self, out: &mut fmt::Formatter) -> fmt::Result {
        write!(out, "{}:{}", self.kind.name(), self.digits())
    }
}

pub type Record = Vec<Value>;

pub fn shape(record: &[Value]) -> Vec<Kind> {
    record.iter().map(|value| value.kind).collect()
}

/// The number of bytes that a key of the shape has.
pub fn key_length(shape: &[Kind]) -> usize {
    shape.iter().map(|kind| kind.bytes()).sum()
}

#[cfg(test)]
mod tests {
    use super::*;

    /// The table against Rust's own constants.
    #[test]
    fn floats_are_as_the_table_says() {
        assert_eq!(Kind::F32.infinity(), u64::from(f32::INFINITY.to_bits()));
        assert_eq!(Kind::F64.infinity(), f64::INFINITY.to_bits());
        assert_eq!(Kind::F32.one(), u64::from(1f32.to_bits()));
        assert_eq!(Kind::F64.one(), 1f64.to_bits());
        assert_eq!(Kind::F32.unit(), u64::from(f32::MIN_POSITIVE.to_bits()));
        assert_eq!(Kind::F64.unit(), f64::MIN_POSITIVE.to_bits());
        // Rust has no f16.
        assert_eq!(Kind::F16.infinity(), 0x7c00);
        assert_eq!(Kind::F16.one(), 0x3c00);
        assert_eq!(Kind::F16.unit(), 0x0400);
    }

    /// The numbers that the C boundary has for them.
    #[test]
    fn numbers_of_kinds() {
        let numbers = Kind::ALL.iter().map(|&kind| kind as usize);
        assert!(numbers.eq(0..11));
        assert_eq!(Kind::parse(b"f16"), Some(Kind::F16));
        assert_eq!(
            [Kind::U8, Kind::F32, Kind::F64, Kind::F16].map(|kind| kind as u8),
            [0, 8, 9, 10]
        );
    }

    #[test]
    fn printed_form() {
        assert_eq!(Value::new(Kind::I16, -1i16 as u64).to_string(), "i16:ffff");
        assert_eq!(Value::new(Kind::U8, 5).to_string(), "u8:05");
        for &kind in Kind::ALL {
            for bits in [0, 5, 0x0123_4567_89ab_cdef, u64::MAX] {
                let value = Value::new(kind, bits);
                let text = value.to_string();
                assert_eq!(text.len(), kind.name().len() + 1 + kind.digits());
                assert_eq!(Value::parse(text.as_bytes()), Some(value));
            }
        }
        for text in [
            "", "u8", "u8:", "u8:5", "u8:005", "u8:0A", "u8:+5", "U8:05", "u9:05",
        ] {
            assert_eq!(Value::parse(text.as_bytes()), None, "{text}");
        }
    }
}
