//! Judges of the choice between rows of bytes, by Rust's own `min_by_key` and
//! `max_by_key`.

use std::cmp::{max_by_key, min_by_key};

use crate::answer::Answer;

type Bytes = Vec<u8>;

pub fn min(k: usize, a: Bytes, b: Bytes) -> Answer<Bytes> {
    Ok(min_by_key(a, b, |row| prefix(row, k)))
}

pub fn max(k: usize, a: Bytes, b: Bytes) -> Answer<Bytes> {
    Ok(max_by_key(a, b, |row| prefix(row, k)))
}

fn prefix(row: &Bytes, k: usize) -> Bytes {
    row.iter().copied().take(k).collect()
}
