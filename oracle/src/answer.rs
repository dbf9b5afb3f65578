//! What a call answers, and the text for it.

use std::cmp::Ordering;
use std::num::FpCategory;

use crate::text::{bytes_text, list_text};
use crate::value::{Record, Value};

/// The number of a refusal, and its place.
pub type Refused = (u32, usize);

pub type Answer<T> = Result<T, Refused>;

/// Samples of one kind, which is known from elsewhere.
pub struct Row(pub Vec<Value>);

/// The length of a key, and the whole buffer after writing.
pub struct Written(pub usize, pub Vec<u8>);

pub trait Text {
    fn text(&self) -> String;
}

pub fn text<T: Text>(answer: Answer<T>) -> String {
    match answer {
        Ok(result) => result.text(),
        Err((number, place)) => format!("refused {number} {place}"),
    }
}

/// The results of a row or a record, or the first refusal with its place.
pub fn placed<T>(results: impl Iterator<Item = Answer<T>>) -> Answer<Vec<T>> {
    let placed = |(place, result): (_, Answer<T>)| result.map_err(|(number, _)| (number, place));
    results.enumerate().map(placed).collect()
}

impl Text for Value {
    fn text(&self) -> String {
        self.to_string()
    }
}

impl Text for Record {
    fn text(&self) -> String {
        list_text(self)
    }
}

impl Text for Row {
    fn text(&self) -> String {
        list_text(self.0.iter().map(|sample| sample.digits()))
    }
}

impl Text for Vec<u8> {
    fn text(&self) -> String {
        bytes_text(self)
    }
}

impl Text for Written {
    fn text(&self) -> String {
        format!("{} {}", self.0, bytes_text(&self.1))
    }
}

impl Text for bool {
    fn text(&self) -> String {
        if *self { "yes" } else { "no" }.to_string()
    }
}

/// Nothing for Unordered.
impl Text for Option<Ordering> {
    fn text(&self) -> String {
        self.map_or("Unordered".to_string(), |order| format!("{order:?}"))
    }
}

impl Text for FpCategory {
    fn text(&self) -> String {
        format!("{self:?}").to_ascii_lowercase()
    }
}
