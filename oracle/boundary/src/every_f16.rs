//! All patterns of f16; and to f16 what lies in other kinds around its numbers
//! and its ends.

use std::time::Instant;

use crate::every::{at, converted};
use oracle::edges::{all_edges, around_numbers, ends, pattern, whole_numbers, whole_numbers_of};
use oracle::value::{Kind, Value};

/// Values on either side of an end, by bits.
const NEAR: i64 = 64;

/// What was done, or the first value found whose answer differs.
pub fn every_f16() -> Result<String, String> {
    let start = Instant::now();
    let patterns = Kind::F16.mask() + 1;
    (0..patterns).try_for_each(|place| at(Kind::F16, place))?;
    let mut count = 0;
    for &kind in Kind::ALL {
        let mut values = all_edges(kind);
        values.extend(match kind {
            Kind::F32 | Kind::F64 => floats(kind),
            _ if kind.width() > 16 => integers(kind),
            _ => (0..=kind.mask())
                .map(|bits| Value::new(kind, bits))
                .collect(),
        });
        count += values.len();
        for value in values {
            converted(value, Kind::F16)?;
        }
    }
    Ok(format!(
        "every-f16: {patterns} patterns, and {count} values of all kinds to f16, none differs, {} s",
        start.elapsed().as_secs()
    ))
}

/// Around the ends of every kind. Where this one lacks such a number, it is that of
/// the low bits.
fn integers(kind: Kind) -> Vec<Value> {
    let ends = whole_numbers().into_iter();
    let ends = ends.map(|number| Value::new(kind, number as u64));
    ends.flat_map(near).collect()
}

/// Around every number of f16, half a step beyond it, and more around its ends.
fn floats(kind: Kind) -> Vec<Value> {
    let whole = whole_numbers_of(Kind::F16).into_iter();
    let whole = whole.map(|number| (number.unsigned_abs() as u64, 0));
    let sizes = whole.chain(ends(Kind::F16));
    let sizes = sizes.filter_map(|(number, power)| pattern(kind, number, power));
    let signed = sizes.flat_map(|size| [size, kind.top() | size]);
    let ends = signed.map(|bits| Value::new(kind, bits));
    around_numbers(Kind::F16, kind)
        .into_iter()
        .chain(ends.flat_map(near))
        .collect()
}

fn near(value: Value) -> impl Iterator<Item = Value> {
    (-NEAR..=NEAR).map(move |steps| value.stepped(steps))
}
