//! Judges of keys: `abs_diff` from the least integer, the bits of a float after
//! plus zero is added, and `to_be_bytes`. A key is read by what was written.

use super::native::{native, Native};
use super::order::is_nan;
use super::record::count;
use crate::answer::{placed, Answer, Written};
use crate::value::{key_length, shape, Form, Kind, Record, Value};

/// Every byte of a buffer before a key is written.
pub const BEFORE: u8 = 0xa5;

pub fn write(record: &Record, room: usize) -> Answer<Written> {
    count(record.len())?;
    if room < key_length(&shape(record)) {
        return Err((10, 0));
    }
    if let Some(place) = record.iter().position(|&value| is_nan(value)) {
        return Err((1, place));
    }
    let key = key(record);
    let mut buffer = vec![BEFORE; room];
    buffer[..key.len()].copy_from_slice(&key);
    Ok(Written(key.len(), buffer))
}

pub fn read(shape: &[Kind], key: &[u8]) -> Answer<Record> {
    count(shape.len())?;
    if key.len() != key_length(shape) {
        return Err((9, 0));
    }
    let mut rest = key;
    placed(shape.iter().map(|&kind| {
        let (field, behind) = rest.split_at(kind.bytes());
        rest = behind;
        value_of(kind, field).ok_or((12, 0))
    }))
}

/// The key of a record without NaN.
pub fn key(record: &[Value]) -> Vec<u8> {
    record.iter().flat_map(|&value| field_key(value)).collect()
}

fn field_key(value: Value) -> Vec<u8> {
    fn key<T: Native>(value: Value) -> Vec<u8> {
        T::of(value).key()
    }
    native!(value.kind, key(value))
}

/// The value whose key it is; nothing when it is the key of none.
pub fn value_of(kind: Kind, key: &[u8]) -> Option<Value> {
    let number = key.iter();
    let number = number.fold(0, |number, &byte| number << 8 | u64::from(byte));
    let bits = match kind.form() {
        Form::Unsigned => number,
        Form::Float { .. } if number < kind.top() => !number,
        _ => number ^ kind.top(),
    };
    let value = Value::new(kind, bits);
    (!is_nan(value) && field_key(value) == key).then_some(value)
}
