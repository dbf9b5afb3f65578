//! Powers of two of the float kinds, alone and with one digit more, to every kind
//! and back.

use std::time::Instant;

use crate::every::there_and_back;
use oracle::edges;
use oracle::value::Kind;

/// What was done, or the first value found whose answer differs.
pub fn powers_of_two() -> Result<String, String> {
    let start = Instant::now();
    let floats = Kind::floats().into_iter();
    let values = floats.flat_map(edges::powers_of_two);
    let mut count = 0;
    for value in values {
        for &to in Kind::ALL {
            there_and_back(value, to)?;
        }
        count += 1;
    }
    Ok(format!(
        "powers-of-two: {count} values of the float kinds to every kind and back, none differs, {} s",
        start.elapsed().as_secs()
    ))
}
