//! The same work in Rust: the same slices of kind numbers and bits, the same refusals in the same order, the same answers.

use std::cmp::Ordering;

use crate::boundary::{Answer, Given, DONE};

struct Refused {
    number: u8,
    place: usize,
}

const fn refused<T>(number: u8, place: usize) -> Result<T, Refused> {
    Err(Refused { number, place })
}

/// Of the kinds u8, u16, u32, u64, i8, i16, i32, i64, f32, f64, f16.
const BYTES: [usize; 11] = [1, 2, 4, 8, 1, 2, 4, 8, 4, 8, 2];

fn bytes(kind: u8) -> usize {
    BYTES[usize::from(kind)]
}

pub fn highest(kind: u8) -> u64 {
    u64::MAX >> (64 - 8 * bytes(kind))
}

/// The highest bit alone.
fn top(kind: u8) -> u64 {
    1 << (8 * bytes(kind) - 1)
}

fn named(kinds: &[u8]) -> Result<(), Refused> {
    match kinds.iter().all(|&kind| kind < 11) {
        true => Ok(()),
        false => refused(7, 0),
    }
}

fn even(kinds: &[u8], bits: &[u64]) -> Result<(), Refused> {
    match kinds.len() == bits.len() {
        true => Ok(()),
        false => refused(9, 0),
    }
}

fn held(kinds: &[u8], bits: &[u64]) -> Result<(), Refused> {
    let wide = kinds.iter().zip(bits).position(|(&kind, &bits)| bits > highest(kind));
    wide.map_or(Ok(()), |place| refused(4, place))
}

fn counted(kinds: &[u8]) -> Result<(), Refused> {
    match (1..=12).contains(&kinds.len()) {
        true => Ok(()),
        false => refused(11, 0),
    }
}

#[inline(never)]
pub fn record_compare(a_kinds: &[u8], a_bits: &[u64], b_kinds: &[u8], b_bits: &[u64]) -> Given<u8> {
    match compared(a_kinds, a_bits, b_kinds, b_bits) {
        Ok(order) => {
            let order = match order {
                Some(Ordering::Less) => 0,
                Some(Ordering::Equal) => 1,
                Some(Ordering::Greater) => 2,
                None => 3,
            };
            Given { number: 0, place: 0, result: order }
        }
        Err(Refused { number, place }) => Given { number, place, result: 0 },
    }
}

fn compared(a_kinds: &[u8], a_bits: &[u64], b_kinds: &[u8], b_bits: &[u64]) -> Result<Option<Ordering>, Refused> {
    counted(a_kinds)?;
    counted(b_kinds)?;
    named(a_kinds)?;
    named(b_kinds)?;
    even(a_kinds, a_bits)?;
    even(b_kinds, b_bits)?;
    held(a_kinds, a_bits)?;
    held(b_kinds, b_bits)?;
    if a_kinds != b_kinds {
        return refused(7, 0);
    }
    for ((&kind, &a), &b) in a_kinds.iter().zip(a_bits).zip(b_bits) {
        let order = field_order(kind, a, b);
        if order != Some(Ordering::Equal) {
            return Ok(order);
        }
    }
    Ok(Some(Ordering::Equal))
}

fn field_order(kind: u8, a: u64, b: u64) -> Option<Ordering> {
    match kind {
        0..=3 => Some(a.cmp(&b)),
        4 => Some((a as i8).cmp(&(b as i8))),
        5 => Some((a as i16).cmp(&(b as i16))),
        6 => Some((a as i32).cmp(&(b as i32))),
        7 => Some((a as i64).cmp(&(b as i64))),
        8 => f32::from_bits(a as u32).partial_cmp(&f32::from_bits(b as u32)),
        9 => f64::from_bits(a).partial_cmp(&f64::from_bits(b)),
        _ => half_order(a as u16, b as u16),
    }
}

/// Of two f16, for which Rust has no type: by the magnitude with its sign, a whole number, so that the two zeros are equal.
fn half_order(a: u16, b: u16) -> Option<Ordering> {
    let [a, b] = [a, b].map(|x| if x < 0x8000 { i32::from(x) } else { 0x8000 - i32::from(x) });
    (a.abs() <= 0x7c00 && b.abs() <= 0x7c00).then(|| a.cmp(&b))
}

#[inline(never)]
pub fn key_write(kinds: &[u8], bits: &[u64], buffer: &mut [u8]) -> Given<usize> {
    match written(kinds, bits, buffer) {
        Ok(length) => Given { number: 0, place: 0, result: length },
        Err(Refused { number, place }) => Given { number, place, result: 0 },
    }
}

fn written(kinds: &[u8], bits: &[u64], buffer: &mut [u8]) -> Result<usize, Refused> {
    counted(kinds)?;
    named(kinds)?;
    even(kinds, bits)?;
    held(kinds, bits)?;
    let length = kinds.iter().map(|&kind| bytes(kind)).sum();
    if buffer.len() < length {
        return refused(10, 0);
    }
    if let Some(place) = kinds.iter().zip(bits).position(|(&kind, &bits)| is_nan(kind, bits)) {
        return refused(1, place);
    }
    let mut rest = buffer;
    for (&kind, &bits) in kinds.iter().zip(bits) {
        let (field, behind) = rest.split_at_mut(bytes(kind));
        field.copy_from_slice(&field_key(kind, bits).to_be_bytes()[8 - field.len()..]);
        rest = behind;
    }
    Ok(length)
}

pub fn is_nan(kind: u8, bits: u64) -> bool {
    match kind {
        8 => f32::from_bits(bits as u32).is_nan(),
        9 => f64::from_bits(bits).is_nan(),
        10 => bits & 0x7fff > 0x7c00,
        _ => false,
    }
}

fn field_key(kind: u8, bits: u64) -> u64 {
    let top = top(kind);
    match kind {
        0..=3 => bits,
        4..=7 => bits ^ top,
        _ if bits < top => bits + top,
        // minus zero has the key of plus zero
        _ if bits == top => top,
        _ => highest(kind) - bits,
    }
}

#[inline(never)]
pub fn key_read(kinds: &[u8], key: &[u8], bits: &mut [u64]) -> Answer {
    match read(kinds, key, bits) {
        Ok(()) => DONE,
        Err(Refused { number, place }) => Answer { number, place },
    }
}

/// The fields stand aside until the last one is known to be well.
fn read(kinds: &[u8], key: &[u8], bits: &mut [u64]) -> Result<(), Refused> {
    counted(kinds)?;
    named(kinds)?;
    even(kinds, bits)?;
    if key.len() != kinds.iter().map(|&kind| bytes(kind)).sum() {
        return refused(9, 0);
    }
    let mut fields = [0; 12];
    let mut rest = key;
    for (place, (&kind, field)) in kinds.iter().zip(&mut fields).enumerate() {
        let (bytes, behind) = rest.split_at(bytes(kind));
        rest = behind;
        match field_of(kind, bytes.iter().fold(0, |n, &byte| n << 8 | u64::from(byte))) {
            Some(bits) => *field = bits,
            None => return refused(12, place),
        }
    }
    bits.copy_from_slice(&fields[..bits.len()]);
    Ok(())
}

/// Nothing where no field has the key.
fn field_of(kind: u8, key: u64) -> Option<u64> {
    let top = top(kind);
    match kind {
        0..=3 => Some(key),
        4..=7 => Some(key ^ top),
        _ => {
            let bits = if key < top { highest(kind) - key } else { key - top };
            (bits != top && !is_nan(kind, bits)).then_some(bits)
        }
    }
}
