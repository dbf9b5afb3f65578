//! Silamogo from Rust: a safe wrapper around the boundary, in one file for `mod silamogo;`, with the standard library alone.
//! Edition 2021 or later; link with `-L native=target/staticlib`, where `./build silamogo` writes the proved library.
//!
//! A call gives its result or the refusal with its number and place; after a refusal everything that was lent is as it was. No call
//! panics or keeps what it was lent, and none but `keys_write` allocates. docs/RULES.md has the rules.
#![allow(dead_code)] // a program may use a part

use std::cmp::Ordering;
use std::fmt;

/// The kinds, under their numbers.
#[repr(u8)]
#[derive(Clone, Copy, Debug, PartialEq, Eq, Hash)]
pub enum Kind {
    U8,
    U16,
    U32,
    U64,
    I8,
    I16,
    I32,
    I64,
    F32,
    F64,
    F16,
}

impl Kind {
    pub const ALL: [Kind; 11] =
        [Kind::U8, Kind::U16, Kind::U32, Kind::U64, Kind::I8, Kind::I16, Kind::I32, Kind::I64, Kind::F32, Kind::F64, Kind::F16];
}

/// The longest key: 12 fields of 8 bytes.
pub const LONGEST_KEY: usize = 96;

/// A kind and the bits of a number of that kind, a signed one in two's complement of its own width; the bits above are 0, else every call
/// refuses the sample with 4. `Sample::from` makes one from a number, and `try_from` gives the number by exact conversion; `Sample::f16` makes
/// one of the kind that Rust has no stable type for.
#[derive(Clone, Copy, Debug, PartialEq, Eq, Hash)]
pub struct Sample {
    pub kind: Kind,
    pub bits: u64,
}

impl Sample {
    /// An f16 by its bits: 1 of sign, 5 of exponent, 10 of fraction. The way back is `convert(s, Kind::F16)?.bits as u16`.
    pub const fn f16(bits: u16) -> Sample {
        Sample { kind: Kind::F16, bits: bits as u64 }
    }
}

#[derive(Clone, Copy, Debug, PartialEq, Eq, Hash)]
pub enum Class {
    Zero,
    Subnormal,
    Normal,
    Infinite,
    Nan,
}

/// Why a call gave no result: the first rule of its list that holds, and the index of the first field or sample that it holds for, else 0.
#[derive(Clone, Copy, Debug, PartialEq, Eq, Hash)]
pub struct Refusal {
    pub number: u8,
    pub place: usize,
}

impl Refusal {
    pub fn sentence(self) -> &'static str {
        match self.number {
            1 => "a NaN has no number to convert, and no key",
            2 => "an infinity has no place in an integer kind",
            3 => "a number with a fraction has no place in an integer kind",
            4 => "the number lies outside the kind's range",
            5 => "the float kind has no such number",
            6 => "the bounds aren't lower <= upper",
            7 => "the kinds or shapes don't fit each other or the call",
            8 => "a NaN has no order",
            9 => "the lengths don't fit, or bytes are left over",
            10 => "the buffer is shorter than the key",
            11 => "a record has 1 to 12 fields",
            12 => "no record has this key",
            13 => "minus zero, the mark of a masked pixel, has no place in an integer kind",
            _ => "a refusal that has no sentence here",
        }
    }
}

impl fmt::Display for Refusal {
    fn fmt(&self, out: &mut fmt::Formatter) -> fmt::Result {
        write!(out, "refused with {} at {}: {}", self.number, self.place, self.sentence())
    }
}

impl std::error::Error for Refusal {}

pub type Result<T> = std::result::Result<T, Refusal>;

/// The class of a float; 7 for an integer kind.
pub fn classify(s: Sample) -> Result<Class> {
    let class = given(unsafe { c::silamogo_classify(s.into()) })?;
    Ok([Class::Zero, Class::Subnormal, Class::Normal, Class::Infinite, Class::Nan][usize::from(class)])
}

/// The place of a float in the total order; 7 for an integer kind.
pub fn position(s: Sample) -> Result<i64> {
    given(unsafe { c::silamogo_position(s.into()) })
}

/// IEEE 754 comparison, nothing when a NaN is there; 7 for two kinds.
pub fn compare(a: Sample, b: Sample) -> Result<Option<Ordering>> {
    ordered(unsafe { c::silamogo_compare(a.into(), b.into()) })
}

/// The total order, in which every pattern has its own place; 7 for two kinds.
pub fn total_order(a: Sample, b: Sample) -> Result<Ordering> {
    ordered(unsafe { c::silamogo_total_order(a.into(), b.into()) }).map(|order| order.expect("a total order"))
}

/// The lesser, of equal ones the first; 7 for two kinds, 8 for a NaN.
pub fn min(a: Sample, b: Sample) -> Result<Sample> {
    sampled(unsafe { c::silamogo_min(a.into(), b.into()) })
}

/// The greater, of equal ones the second; 7 for two kinds, 8 for a NaN.
pub fn max(a: Sample, b: Sample) -> Result<Sample> {
    sampled(unsafe { c::silamogo_max(a.into(), b.into()) })
}

/// The value, or the bound that it lies beyond; 7 for kinds that differ, 6 for the bounds, 8 for a NaN.
pub fn clamp(value: Sample, lower: Sample, upper: Sample) -> Result<Sample> {
    sampled(unsafe { c::silamogo_clamp(value.into(), lower.into(), upper.into()) })
}

/// The same number in another kind, never rounded; 1, 2, 13, 3, 4, 5.
pub fn convert(value: Sample, to: Kind) -> Result<Sample> {
    sampled(unsafe { c::silamogo_convert(value.into(), to as u8) })
}

// SAFETY of all below: pointers and lengths are those of slices that are lent for the call, so what is written is lent to it alone.

/// Each sample clamped in place; 6 for the bounds, 8 at the first NaN.
pub fn row_clamp(row: &mut [f32], lower: f32, upper: f32) -> Result<()> {
    answered(unsafe { c::silamogo_row_clamp(row.as_mut_ptr(), row.len(), lower, upper) })
}

/// 9 for lengths that differ.
pub fn row_u8_to_u16(src: &[u8], dst: &mut [u16]) -> Result<()> {
    answered(unsafe { c::silamogo_row_u8_to_u16(src.as_ptr(), src.len(), dst.as_mut_ptr(), dst.len()) })
}

/// 9 for lengths that differ, 4 at the first sample above 255.
pub fn row_u16_to_u8(src: &[u16], dst: &mut [u8]) -> Result<()> {
    answered(unsafe { c::silamogo_row_u16_to_u8(src.as_ptr(), src.len(), dst.as_mut_ptr(), dst.len()) })
}

/// 9 for lengths that differ.
pub fn row_u16_to_f32(src: &[u16], dst: &mut [f32]) -> Result<()> {
    answered(unsafe { c::silamogo_row_u16_to_f32(src.as_ptr(), src.len(), dst.as_mut_ptr(), dst.len()) })
}

/// 9 for lengths that differ; then 1, 2, 13, 3 or 4 at the first sample that u16 doesn't have.
pub fn row_f32_to_u16(src: &[f32], dst: &mut [u16]) -> Result<()> {
    answered(unsafe { c::silamogo_row_f32_to_u16(src.as_ptr(), src.len(), dst.as_mut_ptr(), dst.len()) })
}

/// A record is its kinds and its bits, field by field. The first field that isn't Equal decides; nothing when a NaN does.
/// 11 for a count, 9 for kinds and bits of two lengths, 4 for bits that the kind doesn't have, 7 for shapes that differ.
pub fn record_compare(a_kinds: &[Kind], a_bits: &[u64], b_kinds: &[Kind], b_bits: &[u64]) -> Result<Option<Ordering>> {
    let [a, b] = [a_kinds, b_kinds].map(|kinds| kinds.as_ptr().cast::<u8>());
    let (x, y) = (a_bits.as_ptr(), b_bits.as_ptr());
    ordered(unsafe { c::silamogo_record_compare(a, a_kinds.len(), x, a_bits.len(), b, b_kinds.len(), y, b_bits.len()) })
}

/// The key's length; the key stands at the start of the buffer. 11, 9, 4 as above; then 10 for the buffer, 1 at the first NaN.
pub fn key_write(kinds: &[Kind], bits: &[u64], buffer: &mut [u8]) -> Result<usize> {
    let kind_numbers = kinds.as_ptr().cast::<u8>();
    given(unsafe { c::silamogo_key_write(kind_numbers, kinds.len(), bits.as_ptr(), bits.len(), buffer.as_mut_ptr(), buffer.len()) })
}

/// The keys of as many records of one shape as there are `lengths`, which get the lengths; `bits` has the records one behind the other. Key i
/// begins at i times the bytes of the shape's longest key, with 00 behind it if it is shorter; bytes behind the last stay. 11 for the count
/// of fields, 9 for bits that aren't so many records, 10 for the buffer; then of the first record that has one 4 or 1, at the index of its bits.
pub fn keys_write(shape: &[Kind], bits: &[u64], buffer: &mut [u8], lengths: &mut [u64]) -> Result<()> {
    let (count, fields) = (lengths.len(), shape.len());
    let longest = key_write(shape, &vec![0; fields], &mut [0; LONGEST_KEY])?; // the key of zeros is as long; 11
    if count.checked_mul(fields) != Some(bits.len()) {
        return Err(Refusal { number: 9, place: 0 });
    }
    if buffer.len() / longest < count {
        return Err(Refusal { number: 10, place: 0 });
    }
    let (mut keys, mut measured) = (vec![0; count * longest], vec![0; count]);
    let records = bits.chunks_exact(fields).zip(keys.chunks_exact_mut(longest)).zip(&mut measured);
    for (record, ((bits, key), length)) in records.enumerate() {
        let written = key_write(shape, bits, key).map_err(|refusal| Refusal { place: record * fields + refusal.place, ..refusal })?;
        *length = written as u64;
    }
    buffer[..keys.len()].copy_from_slice(&keys);
    lengths.copy_from_slice(&measured);
    Ok(())
}

/// The bits of a key's fields. 11 for the count, 9 for kinds and bits of two lengths, 9 for the key's length, 12 at the first field that
/// no key has.
pub fn key_read(kinds: &[Kind], key: &[u8], bits: &mut [u64]) -> Result<()> {
    let kind_numbers = kinds.as_ptr().cast::<u8>();
    answered(unsafe { c::silamogo_key_read(kind_numbers, kinds.len(), key.as_ptr(), key.len(), bits.as_mut_ptr(), bits.len()) })
}

/// A sample from each of Rust's own numbers, and back by exact conversion.
macro_rules! numbers {
    ($($number:ty, $kind:ident, $word:ty, $to_word:expr, $of_word:expr;)+) => {$(
        impl From<$number> for Sample {
            fn from(x: $number) -> Sample {
                let word: $word = $to_word(x);
                Sample { kind: Kind::$kind, bits: word.into() }
            }
        }

        impl TryFrom<Sample> for $number {
            type Error = Refusal;

            fn try_from(s: Sample) -> Result<$number> {
                convert(s, Kind::$kind).map(|s| $of_word(s.bits as $word))
            }
        }
    )+};
}

numbers! {
    u8, U8, u8, |n| n, |n| n;
    u16, U16, u16, |n| n, |n| n;
    u32, U32, u32, |n| n, |n| n;
    u64, U64, u64, |n| n, |n| n;
    i8, I8, u8, |n| n as u8, |n| n as i8;
    i16, I16, u16, |n| n as u16, |n| n as i16;
    i32, I32, u32, |n| n as u32, |n| n as i32;
    i64, I64, u64, |n| n as u64, |n| n as i64;
    f32, F32, u32, f32::to_bits, f32::from_bits;
    f64, F64, u64, f64::to_bits, f64::from_bits;
}

fn done(number: u8, place: usize) -> Result<()> {
    match number {
        0 => Ok(()),
        _ => Err(Refusal { number, place }),
    }
}

fn answered(a: c::Answer) -> Result<()> {
    done(a.number, a.place)
}

fn given<T>(a: c::Given<T>) -> Result<T> {
    done(a.number, a.place)?;
    Ok(a.result)
}

fn ordered(a: c::Given<u8>) -> Result<Option<Ordering>> {
    Ok([Some(Ordering::Less), Some(Ordering::Equal), Some(Ordering::Greater), None][usize::from(given(a)?)])
}

fn sampled(a: c::Given<c::Sample>) -> Result<Sample> {
    let s = given(a)?;
    Ok(Sample { kind: Kind::ALL[usize::from(s.kind)], bits: s.bits })
}

impl From<Sample> for c::Sample {
    fn from(s: Sample) -> c::Sample {
        c::Sample { kind: s.kind as u8, bits: s.bits }
    }
}

/// The boundary itself, as include/silamogo.h has it, for callers with kind numbers of their own.
pub mod c {
    #[repr(C)]
    #[derive(Clone, Copy, Debug, PartialEq, Eq)]
    pub struct Sample {
        pub kind: u8,
        pub bits: u64,
    }

    #[repr(C)]
    #[derive(Clone, Copy, Debug, PartialEq, Eq)]
    pub struct Answer {
        pub number: u8,
        pub place: usize,
    }

    /// An answer with a result: an order, a class, a position, a sample or a length.
    #[repr(C)]
    #[derive(Clone, Copy, Debug, PartialEq, Eq)]
    pub struct Given<T> {
        pub number: u8,
        pub place: usize,
        pub result: T,
    }

    #[link(name = "silamogo", kind = "static")]
    extern "C" {
        pub fn silamogo_classify(s: Sample) -> Given<u8>;
        pub fn silamogo_position(s: Sample) -> Given<i64>;
        pub fn silamogo_compare(a: Sample, b: Sample) -> Given<u8>;
        pub fn silamogo_total_order(a: Sample, b: Sample) -> Given<u8>;
        pub fn silamogo_min(a: Sample, b: Sample) -> Given<Sample>;
        pub fn silamogo_max(a: Sample, b: Sample) -> Given<Sample>;
        pub fn silamogo_clamp(v: Sample, lower: Sample, upper: Sample) -> Given<Sample>;
        pub fn silamogo_convert(v: Sample, to: u8) -> Given<Sample>;
        pub fn silamogo_row_clamp(row: *mut f32, length: usize, lower: f32, upper: f32) -> Answer;
        pub fn silamogo_row_u8_to_u16(src: *const u8, src_length: usize, dst: *mut u16, dst_length: usize) -> Answer;
        pub fn silamogo_row_u16_to_u8(src: *const u16, src_length: usize, dst: *mut u8, dst_length: usize) -> Answer;
        pub fn silamogo_row_u16_to_f32(src: *const u16, src_length: usize, dst: *mut f32, dst_length: usize) -> Answer;
        pub fn silamogo_row_f32_to_u16(src: *const f32, src_length: usize, dst: *mut u16, dst_length: usize) -> Answer;
        pub fn silamogo_record_compare(
            a_kinds: *const u8, a_kinds_length: usize, a_bits: *const u64, a_bits_length: usize,
            b_kinds: *const u8, b_kinds_length: usize, b_bits: *const u64, b_bits_length: usize,
        ) -> Given<u8>;
        pub fn silamogo_key_write(
            kinds: *const u8, kinds_length: usize, bits: *const u64, bits_length: usize, buffer: *mut u8, buffer_length: usize,
        ) -> Given<usize>;
        pub fn silamogo_key_read(
            kinds: *const u8, kinds_length: usize, key: *const u8, key_length: usize, bits: *mut u64, bits_length: usize,
        ) -> Answer;
    }
}
