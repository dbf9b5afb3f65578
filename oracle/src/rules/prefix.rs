//! The choice between rows of bytes, byte by byte.

use std::cmp::Ordering;

use crate::answer::Answer;

/// The orders of the first k bytes: at the first that differs, else the shorter
/// is lower.
fn order(a: &[u8], b: &[u8], k: usize) -> Ordering {
    for place in 0..k {
        match (a.get(place), b.get(place)) {
            (None, None) => break,
            (None, Some(_)) => return Ordering::Less,
            (Some(_), None) => return Ordering::Greater,
            (Some(x), Some(y)) if x < y => return Ordering::Less,
            (Some(x), Some(y)) if x > y => return Ordering::Greater,
            (Some(_), Some(_)) => {}
        }
    }
    Ordering::Equal
}

pub fn min(k: usize, a: Vec<u8>, b: Vec<u8>) -> Answer<Vec<u8>> {
    match order(&a, &b, k) {
        Ordering::Greater => Ok(b),
        Ordering::Less | Ordering::Equal => Ok(a),
    }
}

pub fn max(k: usize, a: Vec<u8>, b: Vec<u8>) -> Answer<Vec<u8>> {
    match order(&a, &b, k) {
        Ordering::Greater => Ok(a),
        Ordering::Less | Ordering::Equal => Ok(b),
    }
}
