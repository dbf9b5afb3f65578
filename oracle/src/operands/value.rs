//! Random values, alone and in pairs.

use crate::edges;
use crate::random::Random;
use crate::value::{Kind, Value};

/// One value of a float kind.
pub fn float(random: &mut Random) -> String {
    let kind = random.pick(&Kind::floats());
    value(random, kind).to_string()
}

/// Two values, mostly of one kind.
pub fn pair(random: &mut Random) -> String {
    let kind = any_kind(random);
    let first = value(random, kind);
    let second = partner(random, first);
    format!("{first} {second}")
}

/// Half of the time a float kind.
pub fn any_kind(random: &mut Random) -> Kind {
    match random.one_in(2) {
        true => random.pick(&Kind::floats()),
        false => random.pick(&Kind::integers()),
    }
}

pub fn value(random: &mut Random, kind: Kind) -> Value {
    match random.below(4) {
        0..2 => edges::near_edge(random, kind),
        2 => Value::new(kind, random.next()),
        _ if kind.is_float() => with_exponent(random, kind),
        _ => small_integer(random, kind),
    }
}

/// A second operand: often equal or close to the first, now and then of
/// another kind.
pub fn partner(random: &mut Random, first: Value) -> Value {
    let kind = first.kind;
    match random.below(16) {
        0..4 => first,
        4 => Value::new(kind, first.bits ^ kind.top()),
        5 => neighbour(random, first),
        6..8 => {
            let low = kind.mask() >> (kind.width() / 2);
            Value::new(kind, first.bits & !low | random.next() & low)
        }
        8 => of_another_kind(random, first),
        _ => value(random, kind),
    }
}

/// One more or one less by bits.
pub fn neighbour(random: &mut Random, value: Value) -> Value {
    value.stepped(random.pick(&[1, -1]))
}

/// A value that is no NaN.
pub fn number(random: &mut Random, kind: Kind) -> Value {
    loop {
        let value = value(random, kind);
        if !value.is_nan() {
            return value;
        }
    }
}

/// A number of the same kind, often equal or close.
pub fn near(random: &mut Random, number: Value) -> Value {
    loop {
        let second = partner(random, number);
        if second.kind == number.kind && !second.is_nan() {
            return second;
        }
    }
}

/// Half of the time the same bits under the other kind's name.
pub fn of_another_kind(random: &mut Random, first: Value) -> Value {
    let mut kind = any_kind(random);
    while kind == first.kind {
        kind = any_kind(random);
    }
    match random.one_in(2) {
        true => Value::new(kind, first.bits),
        false => value(random, kind),
    }
}

/// Either zero of a float kind.
pub fn zero(random: &mut Random, kind: Kind) -> Value {
    Value::new(kind, random.pick(&[0, kind.top()]))
}

/// With an exponent that plain random bits seldom have: all clear, all set, or
/// within 80 of the one of 1.
fn with_exponent(random: &mut Random, kind: Kind) -> Value {
    let near = kind.bias().min(80) as usize;
    let exponent = match random.below(4) {
        0 => 0,
        1 => kind.infinity(),
        _ => (kind.bias() as usize - near + random.below(2 * near + 1)) as u64 * kind.unit(),
    };
    Value::new(kind, random.next() & !kind.infinity() | exponent)
}

/// A number of any length in bits, of either sign.
fn small_integer(random: &mut Random, kind: Kind) -> Value {
    let size = (random.next() & kind.mask()) >> random.below(kind.width() as usize);
    Value::new(kind, random.pick(&[size, size.wrapping_neg()]))
}
