//! All that is asked of a pattern of a float kind: class, position, conversion
//! to every kind and back, key and reading it back, and the pattern read as a
//! key.

use std::cmp::Ordering;
use std::fmt::Debug;

use crate::calls::{raw, CLASSES};
use crate::silamogo::c;
use oracle::judge::{convert, key, order};
use oracle::value::{Kind, Value};

/// All patterns are there, and each is above the one before it (`at` asks the
/// judge): so this is the total order, and a place is its position less the
/// least one.
fn pattern(kind: Kind, place: u64) -> Value {
    let bits = place.checked_sub(kind.top()).unwrap_or(!place);
    Value::new(kind, bits)
}

pub fn place_of(value: Value) -> u64 {
    let kind = value.kind;
    if value.bits < kind.top() {
        value.bits + kind.top()
    } else {
        value.bits ^ kind.mask()
    }
}

/// All that is asked of the pattern at a place of the total order.
pub fn at(kind: Kind, place: u64) -> Result<(), String> {
    let value = pattern(kind, place);
    if let Some(below) = place.checked_sub(1) {
        let order = order::total(pattern(kind, below), value);
        held(value, "total", order, Ok(Some(Ordering::Less)))?;
    }
    // SAFETY of all calls: samples pass by value, and slices as they are.
    let class = order::class(value).expect("a float");
    let class = CLASSES.iter().position(|&other| other == class);
    let class = given(class.expect("a class") as u8);
    let got = unsafe { c::silamogo_classify(raw(value)) };
    held(value, "class", got, class)?;
    let position = given((i128::from(place) - i128::from(kind.top())) as i64);
    let got = unsafe { c::silamogo_position(raw(value)) };
    held(value, "position", got, position)?;
    for &to in Kind::ALL {
        there_and_back(value, to)?;
    }
    write(value)?;
    read(value)
}

fn held<T: PartialEq + Debug>(value: Value, what: &str, got: T, wanted: T) -> Result<(), String> {
    if got == wanted {
        return Ok(());
    }
    Err(format!("{value} {what} / {wanted:x?} / {got:x?}"))
}

fn given<T>(result: T) -> c::Given<T> {
    let (number, place) = (0, 0);
    c::Given {
        number,
        place,
        result,
    }
}

fn refused<T>(number: u32, nothing: T) -> c::Given<T> {
    let number = number as u8;
    c::Given {
        number,
        ..given(nothing)
    }
}

/// To the kind, by the judge's answer; nothing for a refusal.
pub fn converted(value: Value, to: Kind) -> Result<Option<Value>, String> {
    let got = unsafe { c::silamogo_convert(raw(value), to as u8) };
    match convert::convert(value, to) {
        Ok(there) => {
            held(value, to.name(), got, given(raw(there)))?;
            Ok(Some(there))
        }
        Err((number, _)) => {
            let nothing = c::Sample { kind: 0, bits: 0 };
            held(value, to.name(), got, refused(number, nothing))?;
            Ok(None)
        }
    }
}

/// To the kind; and what came there, back: the same bits.
pub fn there_and_back(value: Value, to: Kind) -> Result<(), String> {
    let Some(there) = converted(value, to)? else {
        return Ok(());
    };
    let got = unsafe { c::silamogo_convert(raw(there), value.kind as u8) };
    held(value, "and back", got, given(raw(value)))
}

/// Plus zero for either zero.
fn folded(value: Value) -> Value {
    let bits = if value.is_zero() { 0 } else { value.bits };
    Value { bits, ..value }
}

const BEFORE: u64 = 0xa5a5_a5a5_a5a5_a5a5;

/// Room for the longest key of a field, and two bytes behind it.
const ROOM: usize = 10;

/// Its key, with the bytes behind it, and the fields of the key.
fn write(value: Value) -> Result<(), String> {
    let (kinds, fields) = ([value.kind as u8], [value.bits]);
    let (mut buffer, mut wanted) = ([0xa5; ROOM], [0xa5; ROOM]);
    let (to, bytes) = (buffer.as_mut_ptr(), value.kind.bytes());
    let got =
        unsafe { c::silamogo_key_write(kinds.as_ptr(), 1, fields.as_ptr(), 1, to, bytes + 2) };
    if value.is_nan() {
        held(value, "key", got, refused(1, 0))?;
        return held(value, "buffer", buffer, wanted);
    }
    held(value, "key", got, given(bytes))?;
    wanted[..bytes].copy_from_slice(&key::key(&[value]));
    held(value, "buffer", buffer, wanted)?;
    let read = fields_of(value.kind, &buffer[..bytes]);
    held(value, "key read", read, (0, 0, folded(value).bits))
}

/// The pattern as if it were a key.
fn read(value: Value) -> Result<(), String> {
    let bytes = value.bits.to_be_bytes();
    let bytes = &bytes[8 - value.kind.bytes()..];
    let wanted = match key::value_of(value.kind, bytes) {
        Some(value) => (0, 0, value.bits),
        None => (12, 0, BEFORE),
    };
    held(value, "read as a key", fields_of(value.kind, bytes), wanted)
}

/// The number and place of the answer, and the field.
fn fields_of(kind: Kind, key: &[u8]) -> (u8, usize, u64) {
    let (kinds, mut fields) = ([kind as u8], [BEFORE]);
    let (bytes, length) = (key.as_ptr(), key.len());
    let answer =
        unsafe { c::silamogo_key_read(kinds.as_ptr(), 1, bytes, length, fields.as_mut_ptr(), 1) };
    (answer.number, answer.place, fields[0])
}
