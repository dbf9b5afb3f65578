//! Records, field by field in whole numbers.

use std::cmp::Ordering;

use super::order;
use crate::answer::Answer;
use crate::value::{Record, Value};

pub fn compare(a: &Record, b: &Record) -> Answer<Option<Ordering>> {
    Ok(deciding(a, b)?.0)
}

pub fn min(a: &Record, b: &Record) -> Answer<Record> {
    let (order, place) = deciding(a, b)?;
    match order.ok_or((8, place))? {
        Ordering::Greater => Ok(b.clone()),
        Ordering::Less | Ordering::Equal => Ok(a.clone()),
    }
}

pub fn max(a: &Record, b: &Record) -> Answer<Record> {
    let (order, place) = deciding(a, b)?;
    match order.ok_or((8, place))? {
        Ordering::Greater => Ok(a.clone()),
        Ordering::Less | Ordering::Equal => Ok(b.clone()),
    }
}

pub fn check_count(count: usize) -> Answer<()> {
    match count {
        1..=12 => Ok(()),
        _ => Err((11, 0)),
    }
}

/// The order, and beside it the field that decides.
fn deciding(a: &[Value], b: &[Value]) -> Answer<(Option<Ordering>, usize)> {
    check_count(a.len())?;
    check_count(b.len())?;
    if a.len() != b.len() || (0..a.len()).any(|place| a[place].kind != b[place].kind) {
        return Err((7, 0));
    }
    lexical(a, b, 0)
}

/// From a place on.
fn lexical(a: &[Value], b: &[Value], place: usize) -> Answer<(Option<Ordering>, usize)> {
    if place == a.len() {
        return Ok((Some(Ordering::Equal), place));
    }
    match order::compare(a[place], b[place])? {
        Some(Ordering::Equal) => lexical(a, b, place + 1),
        order => Ok((order, place)),
    }
}
