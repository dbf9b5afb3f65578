//! Keys as whole numbers.

use super::record::check_count;
use super::whole::{abs, integer, negative};
use crate::answer::{Answer, Written};
use crate::value::{Form, Kind, Record, Value};

/// Two to the width of a kind, and half of that.
fn sizes(kind: Kind) -> (i128, i128) {
    let all = 1 << kind.width();
    (all, all / 2)
}

/// The number that the key of a field has.
fn field_number(value: Value) -> i128 {
    let (all, half) = sizes(value.kind);
    let bits = i128::from(value.bits);
    match value.kind.form() {
        Form::Unsigned => bits,
        Form::Signed => integer(value) + half,
        Form::Float { .. } if abs(value) == 0 => half,
        Form::Float { .. } if negative(value) => all - 1 - bits,
        Form::Float { .. } => bits + half,
    }
}

pub fn write(record: &Record, room: usize) -> Answer<Written> {
    check_count(record.len())?;
    let length = record
        .iter()
        .map(|value| value.kind.width() as usize / 8)
        .sum();
    if room < length {
        return Err((10, 0));
    }
    let mut buffer = Vec::new();
    for (place, &value) in record.iter().enumerate() {
        if value.kind.is_float() && abs(value) > value.kind.infinity() {
            return Err((1, place));
        }
        let number = field_number(value);
        let mut weight = sizes(value.kind).0;
        while weight > 1 {
            weight /= 256;
            buffer.push((number / weight % 256) as u8);
        }
    }
    buffer.resize(room, 0xa5);
    Ok(Written(length, buffer))
}

pub fn read(shape: &[Kind], key: &[u8]) -> Answer<Record> {
    check_count(shape.len())?;
    let widths = shape.iter().map(|kind| kind.width() as usize / 8);
    if key.len() != widths.sum::<usize>() {
        return Err((9, 0));
    }
    let mut bytes = key.iter();
    let mut record = Vec::new();
    for (place, &kind) in shape.iter().enumerate() {
        let mut number = 0;
        for &byte in bytes.by_ref().take(kind.width() as usize / 8) {
            number = number * 256 + i128::from(byte);
        }
        record.push(field(kind, number).ok_or((12, place))?);
    }
    Ok(record)
}

/// The value whose key has the number; nothing when there is none. A float is
/// accepted by the two ends of its range.
fn field(kind: Kind, number: i128) -> Option<Value> {
    let (all, half) = sizes(kind);
    let bits = match kind.form() {
        Form::Unsigned => number,
        Form::Signed => number - half,
        Form::Float { .. } => {
            let infinity = i128::from(kind.infinity());
            if number < half - 1 - infinity || number == half - 1 || number > half + infinity {
                return None;
            }
            if number >= half {
                number - half
            } else {
                all - 1 - number
            }
        }
    };
    Some(Value::new(kind, bits as u64))
}
