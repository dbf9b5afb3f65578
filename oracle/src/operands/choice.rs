//! Operands for choosing and clamping.

use std::array;

use super::value::{any_kind, near, number, of_another_kind, zero};
use crate::edges;
use crate::judge::order::ordering;
use crate::random::Random;
use crate::value::{Kind, Value};

/// Places that get a NaN together: of the value, the lower and the upper bound.
const NAN_PLACES: [&[usize]; 8] = [
    &[0],
    &[0],
    &[1],
    &[2],
    &[0, 1],
    &[0, 2],
    &[1, 2],
    &[0, 1, 2],
];

/// Two values, now and then two zeros.
pub fn pair(random: &mut Random) -> String {
    if !random.one_in(12) {
        return super::value::pair(random);
    }
    let kind = random.pick(&Kind::floats());
    format!("{} {}", zero(random, kind), zero(random, kind))
}

/// A value and two bounds, the bounds mostly in order.
pub fn clamp(random: &mut Random) -> String {
    let kind = any_kind(random);
    let mut three: [Value; 3] = numbers(random, kind);
    if !random.one_in(6) {
        // The value is the least, the middle or the greatest.
        put_in_order(&mut three);
        let place = random.below(3);
        three[..=place].rotate_right(1);
    }
    if kind.is_float() && random.one_in(4) {
        for &place in random.pick(&NAN_PLACES) {
            three[place] = edges::nan(random, kind);
        }
    }
    if random.one_in(12) {
        for _ in 0..1 + random.below(2) {
            let place = random.below(3);
            three[place] = of_another_kind(random, three[place]);
        }
    }
    let [value, lower, upper] = three;
    format!("{value} {lower} {upper}")
}

/// Numbers of one kind, often equal or close to each other.
pub fn numbers<const COUNT: usize>(random: &mut Random, kind: Kind) -> [Value; COUNT] {
    let few = edges::few(kind);
    let few = match random.below(8) {
        0..2 => &few[2..6],
        2..5 => &few[..],
        _ => {
            let first = number(random, kind);
            return array::from_fn(|_| near(random, first));
        }
    };
    array::from_fn(|_| random.pick(few))
}

pub fn put_in_order(numbers: &mut [Value]) {
    numbers.sort_by(|&a, &b| ordering(a, b).expect("no NaN"));
}
