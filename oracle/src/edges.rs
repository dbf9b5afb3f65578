//! Edge patterns of each kind, read off the table of kinds.

use crate::random::Random;
use crate::value::{Form, Kind, Value};

/// The power of two at which a kind ends, or begins to lack whole numbers.
fn power(kind: Kind) -> u32 {
    match kind.form() {
        Form::Unsigned => kind.width(),
        Form::Signed => kind.width() - 1,
        Form::Float { fraction } => fraction + 1,
    }
}

/// A number times a power of two where it is a whole number of 64 bits.
fn whole(number: u64, power: i32) -> Option<u64> {
    let power = u32::try_from(power).ok()?;
    let whole = number.checked_shl(power)?;
    (whole >> power == number).then_some(whole)
}

/// Whole numbers around this power and the ends of a float kind, of either sign.
pub fn whole_numbers_of(kind: Kind) -> Vec<i128> {
    let ends = kind.is_float().then(|| ends(kind));
    let ends = ends.into_iter().flatten();
    let ends = ends.filter_map(|(number, power)| whole(number, power));
    let sizes = ends.map(i128::from).chain([1 << power(kind)]);
    let near = sizes.flat_map(|size| [-1, 0, 1, 2].map(|step| size + step));
    near.flat_map(|size| [size, -size]).collect()
}

/// Those of all kinds, and the least ones.
pub fn whole_numbers() -> Vec<i128> {
    let least = -3..=3;
    let all = Kind::ALL.iter().flat_map(|&kind| whole_numbers_of(kind));
    least.chain(all).collect()
}

/// The pattern of number * 2^power where the kind has it as a normal number.
pub fn pattern(kind: Kind, number: u64, power: i32) -> Option<u64> {
    let last = 63 - number.leading_zeros();
    let exponent = kind.bias() as i32 + power + last as i32;
    let exponents = 1..(kind.infinity() >> kind.fraction()) as i32;
    if last > kind.fraction() || !exponents.contains(&exponent) {
        return None;
    }
    let fraction = (number ^ 1 << last) << (kind.fraction() - last);
    Some((exponent as u64) << kind.fraction() | fraction)
}

/// The least and greatest magnitudes of a float kind, and where its subnormals
/// end: a number and a power of two each.
pub fn ends(kind: Kind) -> [(u64, i32); 7] {
    let (unit, one) = (kind.unit(), kind.bias() as i32);
    let least = 1 - one - kind.fraction() as i32;
    let greatest = one - kind.fraction() as i32;
    [
        (1, least - 1), // half of the least
        (1, least),
        (unit - 1, least),
        (unit, least),
        (2 * unit - 1, greatest),
        (4 * unit - 1, greatest - 1), // the least that rounds to an infinity
        (1, one + 1),                 // past the greatest
    ]
}

/// The edges of a kind without a sign, rising.
pub fn edges(kind: Kind) -> Vec<u64> {
    let mut edges = vec![0, 1, 2];
    let powers = Kind::ALL.iter().map(|&kind| power(kind));
    let powers = powers.flat_map(|power| [(u64::MAX >> (64 - power), 0), (1, power as i32)]);
    let ends = Kind::floats().into_iter().flat_map(ends);
    let numbers = powers.chain(ends);
    if kind.is_float() {
        edges.extend(float_edges(kind));
        edges.extend(nans(kind));
        edges.extend(numbers.filter_map(|(number, power)| pattern(kind, number, power)));
    } else {
        edges.extend(numbers.filter_map(|(number, power)| whole(number, power)));
    }
    edges.retain(|&edge| edge <= kind.mask());
    edges.sort_unstable();
    edges.dedup();
    edges
}

fn float_edges(kind: Kind) -> [u64; 12] {
    let (unit, one, infinity) = (kind.unit(), kind.one(), kind.infinity());
    [
        unit / 2,
        unit - 1, // greatest subnormal
        unit,     // least normal
        unit + 1,
        one - unit, // 1/2
        one - 1,
        one,
        one + 1,
        one + unit / 2, // 3/2
        one + unit,     // 2
        infinity - 1,   // greatest finite
        infinity,
    ]
}

/// The ends of the signalling and of the quiet NaN.
pub fn nans(kind: Kind) -> [u64; 5] {
    let infinity = kind.infinity();
    let quiet = infinity + kind.unit() / 2;
    [infinity + 1, quiet - 1, quiet, quiet + 1, kind.top() - 1]
}

/// The edges of a kind with either sign, and their neighbours by bits.
pub fn all_edges(kind: Kind) -> Vec<Value> {
    with_neighbours(kind, &edges(kind))
}

/// Zero and every power of two of a float kind, alone and with one digit more at
/// any place, with either sign: its last digit stands at every place.
pub fn powers_of_two(kind: Kind) -> impl Iterator<Item = Value> {
    let powers = (0..kind.infinity()).step_by(kind.unit() as usize);
    let digits = move || (0..kind.fraction()).map(|place| 1 << place).chain([0]);
    let sizes = powers.flat_map(move |power| digits().map(move |digit| power | digit));
    sizes.flat_map(move |size| [size, kind.top() | size].map(|bits| Value::new(kind, bits)))
}

/// Of a wider float kind every number of a narrow one, and what lies half a step
/// beyond it, with either sign, and their neighbours by bits.
pub fn around_numbers(narrow: Kind, wide: Kind) -> Vec<Value> {
    let (unit, (_, step)) = (narrow.unit(), ends(narrow)[1]);
    let mut patterns = vec![0];
    for bits in 0..narrow.infinity() {
        let (exponent, fraction) = ((bits / unit) as i32, bits % unit);
        let (number, power) = match exponent {
            0 => (fraction, step),
            _ => (unit + fraction, step + exponent - 1),
        };
        let halves = [2 * number, 2 * number + 1].into_iter();
        let halves = halves.filter(|&number| number > 0);
        patterns.extend(halves.filter_map(|number| pattern(wide, number, power - 1)));
    }
    with_neighbours(wide, &patterns)
}

fn with_neighbours(kind: Kind, patterns: &[u64]) -> Vec<Value> {
    let mut values = Vec::new();
    for pattern in patterns {
        for sign in [0, kind.top()] {
            let value = Value::new(kind, sign | pattern);
            values.extend([0, 1, -1].map(|steps| value.stepped(steps)));
        }
    }
    values.sort_unstable_by_key(|value| value.bits);
    values.dedup();
    values
}

/// A few numbers, in order: the infinities, the ones, the least magnitudes and
/// the zeros. Of an integer kind with a sign: either end and around zero.
pub fn few(kind: Kind) -> [Value; 8] {
    let (top, mask) = (kind.top(), kind.mask());
    let bits = match kind.is_float() {
        false => [top, top + 1, mask - 1, mask, 0, 1, top - 2, top - 1],
        true => {
            let (one, infinity) = (kind.one(), kind.infinity());
            [top | infinity, top | one, top | 1, top, 0, 1, one, infinity]
        }
    };
    bits.map(|bits| Value::new(kind, bits))
}

/// A NaN of either sign, half of the time an edge.
pub fn nan(random: &mut Random, kind: Kind) -> Value {
    let sign = random.pick(&[0, kind.top()]);
    let infinity = kind.infinity();
    let bits = match random.one_in(2) {
        true => random.pick(&nans(kind)),
        false => infinity | random.next() & (kind.unit() - 1),
    };
    Value::new(kind, sign | bits.max(infinity + 1))
}

/// An edge of the kind with a random sign, or its neighbour by bits. Those that
/// matter most are drawn more often than the others.
pub fn near_edge(random: &mut Random, kind: Kind) -> Value {
    let edge = match (random.one_in(4), kind.form()) {
        (false, _) => random.pick(&edges(kind)),
        (true, Form::Float { .. }) => {
            random.pick(&[0, kind.infinity(), kind.infinity() + kind.unit() / 2])
        }
        (true, _) => random.pick(&[0, kind.top(), kind.mask()]),
    };
    let signed = match (random.one_in(2), kind.is_float()) {
        (false, _) => edge,
        (true, true) => edge | kind.top(),
        (true, false) => edge.wrapping_neg(),
    };
    let steps = random.pick(&[0, 0, 0, 0, 1, -1]);
    Value::new(kind, signed).stepped(steps)
}

#[cfg(test)]
mod tests {
    use super::*;

    /// Those that have a name, by Rust's own bits.
    #[test]
    fn edges_of_floats() {
        let whole = [0.0, 0.5, 1.0, 1.5, 2.0, 255.0, 256.0, 65535.0, 65536.0];
        let powers = [24, 31, 32, 63, 64].map(|power| 2f32.powi(power));
        let ends = [f32::from_bits(1), f32::MIN_POSITIVE, f32::MAX];
        for number in whole.into_iter().chain(powers).chain(ends) {
            let (narrow, wide) = (number.to_bits(), f64::from(number).to_bits());
            assert!(edges(Kind::F32).contains(&narrow.into()), "{number}");
            assert!(edges(Kind::F64).contains(&wide), "{number}");
        }
        let powers = [-150, 53, 128].map(|power| 2f64.powi(power));
        for number in [f64::MIN_POSITIVE, f64::MAX].into_iter().chain(powers) {
            assert!(edges(Kind::F64).contains(&number.to_bits()), "{number}");
        }
        for nan in [0x7f80_0001, 0x7fbf_ffff, 0x7fc0_0000, 0x7fff_ffff] {
            assert!(edges(Kind::F32).contains(&nan), "{nan:x}");
        }
    }

    /// By hand, as Rust has no f16; and the ends of its numbers in other kinds.
    #[test]
    fn edges_of_f16() {
        let least = [0, 1, 2, 0x0200, 0x03ff, 0x0400, 0x0401];
        let middle = [
            0x3800, 0x3bff, 0x3c00, 0x3c01, 0x3e00, 0x4000, 0x67ff, 0x6800,
        ];
        let greatest = [0x7bff, 0x7c00, 0x7c01, 0x7dff, 0x7e00, 0x7e01, 0x7fff];
        for bits in least.into_iter().chain(middle).chain(greatest) {
            assert!(edges(Kind::F16).contains(&bits), "{bits:x}");
        }
        let powers = [-25, -24, -14].map(|power| 2f32.powi(power));
        let whole = [2047.0, 2048.0, 65504.0, 65520.0, 65536.0];
        for number in powers.into_iter().chain(whole) {
            assert!(
                edges(Kind::F32).contains(&number.to_bits().into()),
                "{number}"
            );
            let wide = f64::from(number).to_bits();
            assert!(edges(Kind::F64).contains(&wide), "{number}");
        }
        let near: Vec<u64> = all_edges(Kind::U16).iter().map(|edge| edge.bits).collect();
        for number in [2047, 2048, 2049, 65504, 65505, 65519, 65520, 65521] {
            assert!(near.contains(&number), "{number}");
            assert!(whole_numbers().contains(&number.into()), "{number}");
        }
    }

    /// The numbers of f16 and as many half a step beyond, each with its two
    /// neighbours and with either sign.
    #[test]
    fn around_the_numbers_of_f16() {
        for kind in [Kind::F32, Kind::F64] {
            let values = around_numbers(Kind::F16, kind);
            assert_eq!(values.len(), 0x7c00 * 2 * 3 * 2);
            for (number, power) in ends(Kind::F16) {
                let bits = pattern(kind, number, power).expect("a wider kind");
                // 65536 is no number of f16, and half a step from none.
                let has = values.contains(&Value { kind, bits });
                assert_eq!(has, power < 16, "{number} {power}");
            }
        }
    }

    #[test]
    fn edges_of_integers() {
        let ends = [0, 1, 0x7f, 0x80, 0xff];
        assert!(ends.iter().all(|end| edges(Kind::I8).contains(end)));
        assert_eq!(edges(Kind::I8).last(), Some(&0xff));
        assert!(edges(Kind::U64).contains(&(1 << 53)));
        assert_eq!(edges(Kind::U64).last(), Some(&u64::MAX));
    }

    #[test]
    fn whole_numbers_pass_the_ends_of_kinds() {
        let numbers = whole_numbers();
        for end in [255, 127, u64::MAX.into(), i128::from(i64::MAX)] {
            assert!(numbers.contains(&end) && numbers.contains(&(end + 1)));
            assert!(numbers.contains(&(-1 - end)) && numbers.contains(&(-2 - end)));
        }
    }
}
