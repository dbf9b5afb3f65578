//! Exact conversion in whole numbers, of units of 2^-1074.

use std::cmp::Ordering;

use super::whole::{abs, integer, negative, scaled, Whole};
use crate::answer::{Answer, Row};
use crate::value::{Kind, Value};

/// How many times one stands above the unit, as a power of two.
const ONE: u32 = 1074;

pub fn convert(value: Value, to: Kind) -> Answer<Value> {
    if value.kind == to {
        return Ok(value);
    }
    let (minus, size) = if value.kind.is_float() {
        (negative(value), size_of_float(value)?)
    } else {
        let n = integer(value);
        let size = Whole::shifted(n.unsigned_abs() as u64, ONE);
        (n < 0, Some(size))
    };
    match (size, to.is_float()) {
        (None, false) => Err((2, 0)),
        (None, true) => Ok(signed(to, minus, to.infinity())),
        (Some(size), false) => integer_of(to, minus, size),
        (Some(size), true) => Ok(signed(to, minus, pattern_of(to, size)?)),
    }
}

/// All of a row that fits its room, or the refusal of its first sample that is
/// refused.
pub fn row(row: &[Value], to: Kind, room: usize) -> Answer<Row> {
    if row.len() != room {
        return Err((9, 0));
    }
    let mut converted = Vec::new();
    for (place, &sample) in row.iter().enumerate() {
        converted.push(convert(sample, to).map_err(|(number, _)| (number, place))?);
    }
    Ok(Row(converted))
}

/// Nothing for an infinity.
fn size_of_float(value: Value) -> Answer<Option<Whole>> {
    match abs(value).cmp(&value.kind.infinity()) {
        Ordering::Greater => Err((1, 0)),
        Ordering::Equal => Ok(None),
        Ordering::Less => Ok(Some(in_units(value))),
    }
}

/// The scaled number of 1 is two to the power of bias + fraction bits - 1.
fn in_units(value: Value) -> Whole {
    scaled(value, ONE + 1 - value.kind.bias() - value.kind.fraction())
}

/// The units of one are 16 limbs and 50 bits.
fn integer_of(to: Kind, minus: bool, size: Whole) -> Answer<Value> {
    let limbs = size.0;
    if minus && limbs.iter().all(|&limb| limb == 0) {
        return Err((13, 0));
    }
    if limbs[..16].iter().any(|&limb| limb != 0) || limbs[16] << 14 != 0 {
        return Err((3, 0));
    }
    let magnitude = limbs[16] >> 50 | limbs[17] << 14;
    if Whole::shifted(magnitude, ONE) != size {
        return Err((4, 0));
    }
    let n = i128::from(magnitude) * if minus { -1 } else { 1 };
    let made = Value::new(to, n as u64);
    // Read back, the bits that the kind kept are the number if it is in range.
    if integer(made) == n {
        Ok(made)
    } else {
        Err((4, 0))
    }
}

/// The finite pattern whose reading is the number. Sizes rise with the patterns,
/// so it is found by halving.
fn pattern_of(to: Kind, size: Whole) -> Answer<u64> {
    let read = |pattern| in_units(Value::new(to, pattern));
    let (mut low, mut end) = (0, to.infinity());
    while end - low > 1 {
        let middle = low + (end - low) / 2;
        if read(middle).order(&size) == Ordering::Greater {
            end = middle;
        } else {
            low = middle;
        }
    }
    if read(low) == size {
        Ok(low)
    } else if end == to.infinity() {
        Err((4, 0))
    } else {
        Err((5, 0))
    }
}

fn signed(kind: Kind, minus: bool, abs: u64) -> Value {
    Value::new(kind, if minus { kind.top() | abs } else { abs })
}
