//! Choosing and clamping in whole numbers.

use std::cmp::Ordering;

use super::order::compare;
use crate::answer::{Answer, Row};
use crate::value::Value;

pub fn min(a: Value, b: Value) -> Answer<Value> {
    Ok(if order(a, b)? == Ordering::Greater {
        b
    } else {
        a
    })
}

pub fn max(a: Value, b: Value) -> Answer<Value> {
    Ok(if order(a, b)? == Ordering::Greater {
        a
    } else {
        b
    })
}

fn order(a: Value, b: Value) -> Answer<Ordering> {
    compare(a, b)?.ok_or((8, 0))
}

pub fn clamp(value: Value, lower: Value, upper: Value) -> Answer<Value> {
    if value.kind != lower.kind || value.kind != upper.kind {
        return Err((7, 0));
    }
    check_bounds(lower, upper)?;
    if order(value, lower)? == Ordering::Less {
        return Ok(lower);
    }
    if order(value, upper)? == Ordering::Greater {
        return Ok(upper);
    }
    Ok(value)
}

pub fn rowclamp(lower: Value, upper: Value, row: &[Value]) -> Answer<Row> {
    check_bounds(lower, upper)?;
    let mut clamped = Vec::new();
    for (place, &sample) in row.iter().enumerate() {
        clamped.push(clamp(sample, lower, upper).map_err(|(number, _)| (number, place))?);
    }
    Ok(Row(clamped))
}

fn check_bounds(lower: Value, upper: Value) -> Answer<()> {
    match compare(lower, upper)? {
        Some(Ordering::Less | Ordering::Equal) => Ok(()),
        Some(Ordering::Greater) | None => Err((6, 0)),
    }
}
