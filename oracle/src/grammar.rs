//! The operands of each line kind: read, given to a judge or a rule, and its
//! answer written. Nothing for operands that aren't of the grammar.

use crate::answer::{text, Answer, Text};
use crate::text::{bytes, decimal, list, list_text};
use crate::value::{Kind, Record, Value};

/// No row of a case line has more samples.
pub const LONGEST_ROW: usize = 8192;

/// No record of a case line has more values, and no shape more kinds.
pub const MOST_ITEMS: usize = 20;

/// No buffer of a case line is longer.
pub const LONGEST_ROOM: usize = 128;

/// From and to: the rows that are converted.
pub const ROW_PAIRS: [[Kind; 2]; 4] = [
    [Kind::U8, Kind::U16],
    [Kind::U16, Kind::U8],
    [Kind::U16, Kind::F32],
    [Kind::F32, Kind::U16],
];

type Operands<'a> = &'a [&'a [u8]];

pub fn record(text: &[u8]) -> Option<Record> {
    list(text, MOST_ITEMS, Value::parse)
}

pub fn shape(text: &[u8]) -> Option<Vec<Kind>> {
    list(text, MOST_ITEMS, Kind::parse)
}

pub fn shape_text(shape: &[Kind]) -> String {
    list_text(shape.iter().map(|kind| kind.name()))
}

pub fn row(kind: Kind, text: &[u8]) -> Option<Vec<Value>> {
    list(text, LONGEST_ROW, |digits| Value::of_digits(kind, digits))
}

/// So many values.
fn values<const COUNT: usize>(operands: Operands) -> Option<[Value; COUNT]> {
    let values: Option<Vec<Value>> = operands.iter().map(|text| Value::parse(text)).collect();
    values?.try_into().ok()
}

pub fn float<T: Text>(operands: Operands, call: fn(Value) -> Answer<T>) -> Option<String> {
    let [value] = values(operands)?;
    value.kind.is_float().then(|| text(call(value)))
}

pub fn pair<T: Text>(operands: Operands, call: fn(Value, Value) -> Answer<T>) -> Option<String> {
    let [a, b] = values(operands)?;
    Some(text(call(a, b)))
}

pub fn three<T: Text>(
    operands: Operands,
    call: fn(Value, Value, Value) -> Answer<T>,
) -> Option<String> {
    let [a, b, c] = values(operands)?;
    Some(text(call(a, b, c)))
}

pub fn value_to<T: Text>(operands: Operands, call: fn(Value, Kind) -> Answer<T>) -> Option<String> {
    let [value, to]: [&[u8]; 2] = operands.try_into().ok()?;
    Some(text(call(Value::parse(value)?, Kind::parse(to)?)))
}

pub fn bounds_row<T: Text>(
    operands: Operands,
    call: fn(Value, Value, &[Value]) -> Answer<T>,
) -> Option<String> {
    let [lower, upper, samples]: [&[u8]; 3] = operands.try_into().ok()?;
    let [lower, upper] = [lower, upper].map(|bound| Value::of_digits(Kind::F32, bound));
    Some(text(call(lower?, upper?, &row(Kind::F32, samples)?)))
}

pub fn row_to<T: Text>(
    operands: Operands,
    call: fn(&[Value], Kind, usize) -> Answer<T>,
) -> Option<String> {
    let [from, to, samples, room]: [&[u8]; 4] = operands.try_into().ok()?;
    let [from, to] = [Kind::parse(from)?, Kind::parse(to)?];
    if !ROW_PAIRS.contains(&[from, to]) {
        return None;
    }
    let samples = row(from, samples)?;
    Some(text(call(&samples, to, decimal(room, LONGEST_ROW)?)))
}

pub fn records<T: Text>(
    operands: Operands,
    call: fn(&Record, &Record) -> Answer<T>,
) -> Option<String> {
    let [a, b]: [&[u8]; 2] = operands.try_into().ok()?;
    Some(text(call(&record(a)?, &record(b)?)))
}

pub fn record_room<T: Text>(
    operands: Operands,
    call: fn(&Record, usize) -> Answer<T>,
) -> Option<String> {
    let [fields, room]: [&[u8]; 2] = operands.try_into().ok()?;
    Some(text(call(&record(fields)?, decimal(room, LONGEST_ROOM)?)))
}

pub fn shape_key<T: Text>(
    operands: Operands,
    call: fn(&[Kind], &[u8]) -> Answer<T>,
) -> Option<String> {
    let [kinds, key]: [&[u8]; 2] = operands.try_into().ok()?;
    Some(text(call(&shape(kinds)?, &bytes(key)?)))
}

pub fn byte_rows<T: Text>(
    operands: Operands,
    call: fn(usize, Vec<u8>, Vec<u8>) -> Answer<T>,
) -> Option<String> {
    let [k, a, b]: [&[u8]; 3] = operands.try_into().ok()?;
    Some(text(call(decimal(k, usize::MAX)?, bytes(a)?, bytes(b)?)))
}
