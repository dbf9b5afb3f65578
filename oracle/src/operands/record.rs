//! Operands for records, often equal up to some field.

use super::value::{any_kind, near, number, of_another_kind, zero};
use crate::answer::Text;
use crate::edges;
use crate::grammar::MOST_ITEMS;
use crate::random::Random;
use crate::value::{Kind, Record, Value};

/// No record with more fields than this is taken.
const MOST_FIELDS: usize = 12;

/// Which of two records.
const EITHER: [&[usize]; 3] = [&[0], &[1], &[0, 1]];

/// Two records, mostly of one shape.
pub fn pair(random: &mut Random) -> String {
    let mut shape = shape(random);
    let nan = random.one_in(3).then(|| float_place(random, &mut shape));
    let first = numbers(random, &shape);
    // A NaN stands before, at or behind the field that decides.
    let deciding = match nan {
        Some(place) if random.one_in(2) => place,
        _ => random.below(shape.len() + 1),
    };
    let second = equal_up_to(random, &first, deciding);
    let mut pair = [first, second];
    if let Some(place) = nan {
        for &record in random.pick(&EITHER) {
            pair[record][place] = edges::nan(random, shape[place]);
        }
    }
    match random.below(20) {
        0..3 => other_shape(random, &mut pair[1]),
        3..5 => {
            for &record in random.pick(&EITHER) {
                refused_count(random, &mut pair[record]);
            }
        }
        _ => {}
    }
    if random.one_in(2) {
        pair.reverse();
    }
    format!("{} {}", pair[0].text(), pair[1].text())
}

/// The kinds of 1 to 12 fields.
pub fn shape(random: &mut Random) -> Vec<Kind> {
    let count = match random.below(8) {
        0 => 1,
        1 => 2,
        2 => MOST_FIELDS,
        _ => 1 + random.below(MOST_FIELDS),
    };
    (0..count).map(|_| any_kind(random)).collect()
}

/// A place of a float kind, put there if need be.
pub fn float_place(random: &mut Random, shape: &mut [Kind]) -> usize {
    let place = match random.below(4) {
        0 => 0,
        1 => shape.len() - 1,
        _ => random.below(shape.len()),
    };
    if !shape[place].is_float() {
        shape[place] = random.pick(&Kind::floats());
    }
    place
}

/// A record without NaN.
pub fn numbers(random: &mut Random, shape: &[Kind]) -> Record {
    let field = |&kind: &Kind| match kind.is_float() && random.one_in(4) {
        true => zero(random, kind),
        false => number(random, kind),
    };
    shape.iter().map(field).collect()
}

/// The fields before the place are equal, also where the signs of zeros
/// differ. Those from there on may be.
pub fn equal_up_to(random: &mut Random, record: &[Value], deciding: usize) -> Record {
    let field = |(place, &value): (usize, &Value)| match place < deciding {
        true if value.kind.is_float() && value.is_zero() => zero(random, value.kind),
        true => value,
        false => near(random, value),
    };
    record.iter().enumerate().map(field).collect()
}

/// One field more or less, or one of another kind.
fn other_shape(random: &mut Random, record: &mut Record) {
    let place = random.below(record.len());
    match random.below(4) {
        0 if record.len() > 1 => drop(record.remove(place)),
        1 if record.len() < MOST_FIELDS => record.insert(place, record[place]),
        _ => record[place] = of_another_kind(random, record[place]),
    }
}

/// No field at all, or more than there may be.
pub fn refused_count(random: &mut Random, record: &mut Record) {
    let count = match random.below(4) {
        0..2 => 0,
        2 => MOST_FIELDS + 1,
        _ => MOST_FIELDS + 1 + random.below(MOST_ITEMS - MOST_FIELDS),
    };
    record.truncate(count);
    while record.len() < count {
        let kind = any_kind(random);
        record.push(number(random, kind));
    }
}
