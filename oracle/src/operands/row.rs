//! Operands for rows of samples.

use super::choice::{numbers, put_in_order};
use super::convert::source;
use super::value::{near, number};
use crate::answer::{Row, Text};
use crate::edges;
use crate::grammar::{LONGEST_ROW, ROW_PAIRS};
use crate::judge::convert::convert;
use crate::random::Random;
use crate::value::{Kind, Value};

/// Lengths and places around 256 and 512, as a row may be gone through in
/// blocks.
pub const LONG: [usize; 8] = [254, 255, 256, 257, 300, 511, 512, 513];

/// Two bounds and a row of samples.
pub fn rowclamp(random: &mut Random) -> String {
    let length = length(random);
    let mut bounds: [Value; 2] = numbers(random, Kind::F32);
    if !random.one_in(8) {
        put_in_order(&mut bounds);
    }
    let mut row: Vec<Value> = (0..length).map(|_| sample(random, bounds)).collect();
    for place in bad_places(random, length) {
        row[place] = edges::nan(random, Kind::F32);
    }
    if random.one_in(16) {
        bounds[random.below(2)] = edges::nan(random, Kind::F32);
    }
    let [lower, upper] = bounds.map(Value::digits);
    format!("{lower} {upper} {}", Row(row).text())
}

/// Two kinds, a row of samples and a room, mostly of its length.
pub fn row(random: &mut Random) -> String {
    let [from, to] = random.pick(&ROW_PAIRS);
    let length = length(random);
    let good = |random: &mut Random| {
        let mut sample = source(random, from, to);
        while convert(sample, to).is_err() {
            sample = source(random, from, to);
        }
        sample
    };
    let mut row: Vec<Value> = (0..length).map(|_| good(random)).collect();
    for place in bad_places(random, length) {
        row[place] = bad_sample(random, [from, to]);
    }
    let room = room(random, length);
    format!("{} {} {} {room}", from.name(), to.name(), Row(row).text())
}

/// Seldom long.
fn length(random: &mut Random) -> usize {
    match random.below(64) {
        0..3 => random.pick(&LONG),
        3 => random.below(701),
        4..10 => 0,
        10..18 => 1,
        18..24 => 2,
        24..30 => 7,
        _ => random.below(13),
    }
}

fn sample(random: &mut Random, bounds: [Value; 2]) -> Value {
    let bound = random.pick(&bounds);
    match random.below(4) {
        0 => random.pick(&edges::few(Kind::F32)),
        1 => near(random, bound),
        _ => number(random, Kind::F32),
    }
}

/// Refused, if any sample of these kinds is; a float with each number as often.
fn bad_sample(random: &mut Random, [from, to]: [Kind; 2]) -> Value {
    let number = match from.is_float() {
        true => random.pick(&[1, 2, 13, 3, 4]),
        false => 4,
    };
    let mut samples = (0..100).map(|_| source(random, from, to));
    let found = samples.find(|&sample| convert(sample, to) == Err((number, 0)));
    found.unwrap_or_else(|| source(random, from, to))
}

fn room(random: &mut Random, length: usize) -> usize {
    let room = match random.below(64) {
        0 => length + 1,
        1 => length.saturating_sub(1),
        2 => length + 256,
        3 => length % 256,
        4 => 2 * length,
        5 => random.below(2) * LONGEST_ROW,
        6 => random.below(LONGEST_ROW + 1),
        7 => random.below(13),
        _ => length,
    };
    room.min(LONGEST_ROW)
}

/// None, one or two places in a row.
fn bad_places(random: &mut Random, length: usize) -> Vec<usize> {
    let count = match length {
        0 => 0,
        _ => random.pick(&[0, 0, 0, 0, 1, 1, 2]),
    };
    let place = |_| match random.below(8) {
        0 => 0,
        1 => length - 1,
        2..6 => random.pick(&LONG).min(length - 1),
        _ => random.below(length),
    };
    (0..count).map(place).collect()
}
