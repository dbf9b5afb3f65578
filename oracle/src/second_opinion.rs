//! Rust's bodies, by way of the judges, against the rules in whole numbers.

mod lists;

use crate::edges::{self, all_edges};
use crate::fixed;
use crate::judge::convert::nearest;
use crate::judge::native::Number;
use crate::lines::{self, LINE_KINDS};
use crate::random::Random;
use crate::value::{Kind, Value};

/// Words of lines with two values.
const PAIR_WORDS: [&str; 10] = [
    "compare", "total", "eq", "ne", "lt", "le", "gt", "ge", "min", "max",
];

/// The judge and the rule give the same answer.
fn check(line: &str) {
    let (place, operands) = lines::split(line.as_bytes()).expect("a line kind");
    let wanted = (LINE_KINDS[place].rule)(&operands);
    assert!(wanted.is_some(), "{line}");
    assert_eq!((LINE_KINDS[place].judge)(&operands), wanted, "{line}");
}

fn check_pair(a: Value, b: Value) {
    for word in PAIR_WORDS {
        check(&format!("{word} {a} {b}"));
    }
}

fn check_conversions(value: Value) {
    for to in Kind::ALL {
        check(&format!("convert {value} {}", to.name()));
    }
}

#[test]
fn random_lines() {
    let mut random = Random::new(21);
    for line_kind in LINE_KINDS {
        for _ in 0..20_000 {
            let operands = (line_kind.make)(&mut random);
            check(&format!("{} {operands}", line_kind.word));
        }
    }
}

/// The answers that are written beside the lines of the fixed list.
#[test]
fn written_answers() {
    for (line, wanted) in fixed::written() {
        assert_eq!(lines::answer(line.as_bytes()), wanted, "{line}");
    }
    for line in fixed::lines() {
        if lines::answer(line.as_bytes()) != lines::MALFORMED {
            check(&line);
        }
    }
}

/// Every value of a kind that has 16 bits at most.
fn all(kind: Kind) -> impl Iterator<Item = Value> {
    let all = (kind.width() <= 16).then(|| 0..=kind.mask());
    let values = all.into_iter().flatten();
    values.map(move |bits| Value::new(kind, bits))
}

#[test]
fn classes_of_edges_and_narrow_kinds() {
    for kind in Kind::floats() {
        for value in all_edges(kind).into_iter().chain(all(kind)) {
            check(&format!("class {value}"));
        }
    }
}

#[test]
fn pairs_of_edges() {
    for &kind in Kind::ALL {
        let values = all_edges(kind);
        for &a in &values {
            for &b in &values {
                check_pair(a, b);
            }
        }
    }
}

/// Every pattern of the two 8-bit kinds against every other.
#[test]
fn pairs_of_bytes() {
    for kind in [Kind::U8, Kind::I8] {
        for bits in 0..0x1_0000 {
            check_pair(Value::new(kind, bits >> 8), Value::new(kind, bits));
        }
    }
}

/// Every value of a narrow kind against the next one, the one of the other sign
/// and one anywhere.
#[test]
fn pairs_of_narrow_kinds() {
    let mut random = Random::new(22);
    for &kind in Kind::ALL {
        for value in all(kind) {
            check_pair(value, value.stepped(1));
            check_pair(value, Value::new(kind, value.bits ^ kind.top()));
            check_pair(value, Value::new(kind, random.next()));
        }
    }
}

/// Every edge within all pairs of a few numbers and two NaN.
#[test]
fn clamps_of_edges() {
    for &kind in Kind::ALL {
        let mut few = edges::few(kind).to_vec();
        if kind.is_float() {
            few.extend([kind.infinity() + 1, kind.mask()].map(|bits| Value::new(kind, bits)));
        }
        for value in all_edges(kind) {
            for lower in &few {
                for upper in &few {
                    check(&format!("clamp {value} {lower} {upper}"));
                }
            }
        }
    }
}

/// Zeros and NaN of all kinds in all places, so that kinds differ too.
#[test]
fn kinds_that_differ() {
    let few = |&kind: &Kind| [0, kind.top(), kind.mask()].map(|bits| Value::new(kind, bits));
    let values: Vec<Value> = Kind::ALL.iter().flat_map(few).collect();
    for &value in &values {
        for &lower in &values {
            check_pair(value, lower);
            for upper in &values {
                check(&format!("clamp {value} {lower} {upper}"));
            }
        }
    }
}

#[test]
fn conversions_of_edges_and_narrow_kinds() {
    for &kind in Kind::ALL {
        let values = all_edges(kind).into_iter().chain(all(kind));
        values.for_each(check_conversions);
    }
}

/// Around the ends of every kind's range, as every kind: whole numbers, halves,
/// quarters and eighths.
#[test]
fn conversions_around_whole_numbers() {
    for number in edges::whole_numbers() {
        for &kind in Kind::ALL {
            let value = nearest(Number::Integer(number), kind);
            for steps in [-1, 0, 1] {
                check_conversions(value.stepped(steps));
            }
        }
        for kind in Kind::floats() {
            for fraction in [0.5, 0.25, 0.125, -0.5, -0.25, -0.125] {
                let number = Number::Float(number as f64 + fraction);
                check_conversions(nearest(number, kind));
            }
        }
    }
}

#[test]
fn conversions_around_f16() {
    for kind in [Kind::F32, Kind::F64] {
        for value in edges::around_numbers(Kind::F16, kind) {
            check(&format!("convert {value} f16"));
        }
    }
}

/// Another kind has room for all of their digits, or lacks it.
#[test]
fn conversions_of_powers_of_two() {
    for kind in Kind::floats() {
        edges::powers_of_two(kind).for_each(check_conversions);
    }
}

/// Two digits of an integer, as far apart as they may be.
#[test]
fn conversions_of_integers() {
    for kind in Kind::integers() {
        for high in 0..kind.width() {
            for low in 0..=high {
                let bits: u64 = 1 << high | 1 << low;
                for bits in [bits, bits - 1, bits.wrapping_neg()] {
                    check_conversions(Value::new(kind, bits));
                }
            }
        }
    }
}
