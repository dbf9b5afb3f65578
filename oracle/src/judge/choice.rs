//! Judges of choosing and clamping. What comes back has the bits of one of the
//! operands.

use super::native::{native, Native};
use super::order::{is_nan, le, one_kind, ordering};
use crate::answer::{placed, Answer, Row};
use crate::value::{Kind, Value};

pub fn min(a: Value, b: Value) -> Answer<Value> {
    chosen(a, b, |a, b| {
        fn min<T: Native>(a: Value, b: Value) -> u64 {
            T::of(a).min(T::of(b)).bits()
        }
        native!(a.kind, min(a, b))
    })
}

pub fn max(a: Value, b: Value) -> Answer<Value> {
    chosen(a, b, |a, b| {
        fn max<T: Native>(a: Value, b: Value) -> u64 {
            T::of(a).max(T::of(b)).bits()
        }
        native!(a.kind, max(a, b))
    })
}

/// Two values of one kind that can be ordered; refusals 7 and 8 for others.
fn chosen(a: Value, b: Value, bits: fn(Value, Value) -> u64) -> Answer<Value> {
    one_kind(&[a, b])?;
    ordering(a, b).ok_or((8, 0))?;
    Ok(Value::new(a.kind, bits(a, b)))
}

pub fn clamp(value: Value, lower: Value, upper: Value) -> Answer<Value> {
    fn clamp<T: Native>(value: Value, lower: Value, upper: Value) -> u64 {
        T::of(value).clamp(T::of(lower), T::of(upper)).bits()
    }
    one_kind(&[value, lower, upper])?;
    bounds(lower, upper)?;
    if is_nan(value) {
        return Err((8, 0));
    }
    let bits = native!(value.kind, clamp(value, lower, upper));
    Ok(Value::new(value.kind, bits))
}

pub fn rowclamp(lower: Value, upper: Value, row: &[Value]) -> Answer<Row> {
    bounds(lower, upper)?;
    let samples = row.iter().map(|&sample| clamp(sample, lower, upper));
    placed(samples).map(Row)
}

/// Refusal 6 for what isn't lower <= upper.
fn bounds(lower: Value, upper: Value) -> Answer<()> {
    le(lower, upper)?.then_some(()).ok_or((6, 0))
}
