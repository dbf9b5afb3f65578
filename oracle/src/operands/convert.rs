//! Operands for exact conversion.

use super::value::{any_kind, neighbour, number, value};
use crate::edges;
use crate::judge::convert::{self, nearest};
use crate::judge::native::Number;
use crate::random::Random;
use crate::value::{Kind, Value};

/// Lengths in bits around those that kinds have room for.
const LENGTHS: [u32; 15] = [1, 2, 8, 10, 11, 12, 16, 23, 24, 25, 52, 53, 54, 63, 64];

/// From and to: pairs that have more ways than others.
const OFTEN: [[Kind; 2]; 6] = [
    [Kind::F64, Kind::F32],
    [Kind::F64, Kind::F16],
    [Kind::F32, Kind::F16],
    [Kind::F16, Kind::F32],
    [Kind::U16, Kind::F16],
    [Kind::U64, Kind::F64],
];

/// A value and a kind, now and then its own.
pub fn convert(random: &mut Random) -> String {
    let [from, to] = match random.below(8) {
        0 => random.pick(&OFTEN),
        1 => [random.pick(Kind::ALL); 2],
        _ => [any_kind(random), any_kind(random)],
    };
    format!("{} {}", source(random, from, to), to.name())
}

/// A value of the first kind, often with a number that the second has or nearly
/// has.
pub fn source(random: &mut Random, from: Kind, to: Kind) -> Value {
    if from.is_float() && random.one_in(8) {
        let sign = random.pick(&[0, from.top()]);
        return Value::new(from, sign | random.pick(&[0, from.infinity()]));
    }
    let floats = from.is_float() && to.is_float();
    let narrower = if floats && from.width() < to.width() {
        from
    } else {
        to
    };
    let near = match (random.below(8), from.is_float(), to.is_float()) {
        (0..2, ..) => return value(random, from),
        (2..4, false, true) => odd_times_power(random, from),
        (4, false, true) => Number::Integer(random.pick(&edges::whole_numbers_of(to))),
        (2..5, ..) => convert::number(number(random, narrower)),
        (5..7, true, true) => end(random, narrower),
        (5, ..) => Number::Integer(random.below(1001) as i128 - 500),
        (6, ..) => Number::Integer(random.pick(&edges::whole_numbers())),
        _ => odd_times_power(random, from),
    };
    let near = nearest(near, from);
    match random.below(8) {
        0 => neighbour(random, near),
        // One digit more or less anywhere.
        1 => {
            let digit = 1i64 << random.below(from.width() as usize);
            near.stepped(random.pick(&[digit, digit.wrapping_neg()]))
        }
        _ => near,
    }
}

fn end(random: &mut Random, kind: Kind) -> Number {
    let (number, power) = random.pick(&edges::ends(kind));
    let sign = random.pick(&[1.0, -1.0]);
    Number::Float(sign * number as f64 * power_of_two(power))
}

/// An odd number of some length times a power of two. For an integer kind it
/// has its width at most. For a float kind it may have a fraction, or be near
/// either end of a range.
fn odd_times_power(random: &mut Random, kind: Kind) -> Number {
    let width = if kind.is_float() { 64 } else { kind.width() };
    let length = random.pick(&LENGTHS).min(width);
    let odd = i128::from(random.next() >> (64 - length) | 1 << (length - 1) | 1);
    let odd = if random.one_in(2) { odd } else { -odd };
    if !kind.is_float() || random.one_in(3) {
        return Number::Integer(odd << random.below((width - length + 1) as usize));
    }
    let end = random.pick(&Kind::floats());
    let (bias, fraction) = (end.bias() as i32, end.fraction());
    let exponent = match random.below(5) {
        0..2 => random.below(20) as i32 - 16,
        2 => random.below(5) as i32 + bias - 1 - length as i32,
        3 => random.below(fraction as usize + 17) as i32 - bias - fraction as i32 - 5,
        _ => random.below(2046) as i32 - 1074,
    };
    Number::Float(odd as f64 * power_of_two(exponent))
}

/// As an f64: 0 below the least, infinity above the greatest.
pub fn power_of_two(exponent: i32) -> f64 {
    f64::from_bits(match exponent {
        ..-1074 => 0,
        -1074..-1022 => 1 << (exponent + 1074),
        -1022..1024 => ((exponent + 1023) as u64) << 52,
        _ => Kind::F64.infinity(),
    })
}

#[cfg(test)]
mod tests {
    use super::*;

    #[test]
    fn powers_of_two() {
        assert_eq!(power_of_two(0), 1.0);
        assert_eq!(power_of_two(-1), 0.5);
        assert_eq!(power_of_two(1023), 2f64.powi(1023));
        assert_eq!(power_of_two(1024), f64::INFINITY);
        assert_eq!(power_of_two(-1022), f64::MIN_POSITIVE);
        assert_eq!(power_of_two(-1023), f64::MIN_POSITIVE / 2.0);
        assert_eq!(power_of_two(-1074), f64::from_bits(1));
        assert_eq!(power_of_two(-1075), 0.0);
    }
}
