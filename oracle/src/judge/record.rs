//! Judges of records: Rust's own comparison of slices, over fields that compare
//! as their decoded values do.

use std::cmp::{max_by, min_by, Ordering};

use super::order::ordering;
use crate::answer::Answer;
use crate::value::{shape, Record, Value};

#[derive(Clone, Copy)]
struct Field(Value);

impl PartialOrd for Field {
    fn partial_cmp(&self, other: &Field) -> Option<Ordering> {
        ordering(self.0, other.0)
    }
}

impl PartialEq for Field {
    fn eq(&self, other: &Field) -> bool {
        self.partial_cmp(other) == Some(Ordering::Equal)
    }
}

fn fields(record: &[Value]) -> Vec<Field> {
    record.iter().map(|&value| Field(value)).collect()
}

/// Comparison of two records of one shape; nothing for Unordered.
pub fn ordered(a: &[Value], b: &[Value]) -> Option<Ordering> {
    fields(a).partial_cmp(&fields(b))
}

/// Refusal 11 for a number of fields that no record has.
pub fn count(count: usize) -> Answer<()> {
    (1..=12).contains(&count).then_some(()).ok_or((11, 0))
}

pub fn compare(a: &Record, b: &Record) -> Answer<Option<Ordering>> {
    count(a.len())?;
    count(b.len())?;
    if shape(a) != shape(b) {
        return Err((7, 0));
    }
    Ok(ordered(a, b))
}

pub fn min(a: &Record, b: &Record) -> Answer<Record> {
    can_be_ordered(a, b)?;
    Ok(min_by(a, b, |a, b| ordered(a, b).expect("ordered")).clone())
}

pub fn max(a: &Record, b: &Record) -> Answer<Record> {
    can_be_ordered(a, b)?;
    Ok(max_by(a, b, |a, b| ordered(a, b).expect("ordered")).clone())
}

/// Refusal 8 has the place of the first field that isn't Equal.
fn can_be_ordered(a: &Record, b: &Record) -> Answer<()> {
    if compare(a, b)?.is_some() {
        return Ok(());
    }
    let mut pairs = fields(a).into_iter().zip(fields(b));
    let place = pairs.position(|(x, y)| x != y);
    Err((8, place.expect("unordered fields")))
}
