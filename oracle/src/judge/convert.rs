//! Judges of exact conversion: `TryFrom` between integers, `as` to a float and
//! back, `fract`, and comparison with the greatest float.

use super::native::{native, Native, Number};
use super::order::is_nan;
use crate::answer::{placed, Answer, Row};
use crate::value::{Kind, Value};

pub fn convert(value: Value, to: Kind) -> Answer<Value> {
    fn exact<T: Native>(number: Number) -> Result<u64, u32> {
        T::exact(number).map(T::bits)
    }
    if value.kind == to {
        return Ok(value);
    }
    if is_nan(value) {
        return Err((1, 0));
    }
    match native!(to, exact(number(value))) {
        Ok(bits) => Ok(Value::new(to, bits)),
        Err(number) => Err((number, 0)),
    }
}

pub fn row(row: &[Value], to: Kind, room: usize) -> Answer<Row> {
    if row.len() != room {
        return Err((9, 0));
    }
    placed(row.iter().map(|&sample| convert(sample, to))).map(Row)
}

pub fn number(value: Value) -> Number {
    fn number<T: Native>(value: Value) -> Number {
        T::of(value).number()
    }
    native!(value.kind, number(value))
}

/// The value of a kind that is nearest to a number, which is no NaN. Of an
/// integer the low bits.
pub fn nearest(number: Number, kind: Kind) -> Value {
    fn nearest<T: Native>(number: Number) -> u64 {
        T::nearest(number).bits()
    }
    Value::new(kind, native!(kind, nearest(number)))
}
