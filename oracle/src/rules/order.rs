//! Class, comparison, total order and the six tests in whole numbers.

use std::cmp::Ordering;
use std::num::FpCategory;

use super::whole::{abs, integer, negative, scaled, Whole};
use crate::answer::Answer;
use crate::value::Value;

pub fn class(value: Value) -> Answer<FpCategory> {
    let abs = abs(value);
    Ok(match abs.cmp(&value.kind.infinity()) {
        Ordering::Greater => FpCategory::Nan,
        Ordering::Equal => FpCategory::Infinite,
        Ordering::Less if abs == 0 => FpCategory::Zero,
        Ordering::Less if abs < value.kind.unit() => FpCategory::Subnormal,
        Ordering::Less => FpCategory::Normal,
    })
}

pub fn compare(a: Value, b: Value) -> Answer<Option<Ordering>> {
    if a.kind != b.kind {
        return Err((7, 0));
    }
    if !a.kind.is_float() {
        return Ok(Some(integer(a).cmp(&integer(b))));
    }
    let infinity = a.kind.infinity();
    if abs(a) > infinity || abs(b) > infinity {
        return Ok(None);
    }
    let rank = |value| match (abs(value) == infinity, negative(value)) {
        (true, true) => -1,
        (false, _) => 0,
        (true, false) => 1,
    };
    Ok(Some(match (rank(a), rank(b)) {
        (0, 0) => compare_scaled(a, b),
        (x, y) => x.cmp(&y),
    }))
}

fn compare_scaled(a: Value, b: Value) -> Ordering {
    let (x, y) = (scaled(a, 0), scaled(b, 0));
    let below = |value, size: Whole| negative(value) && size != Whole::ZERO;
    match (below(a, x), below(b, y)) {
        (false, false) => x.order(&y),
        (true, true) => y.order(&x),
        (false, true) => Ordering::Greater,
        (true, false) => Ordering::Less,
    }
}

pub fn total(a: Value, b: Value) -> Answer<Option<Ordering>> {
    if a.kind != b.kind || !a.kind.is_float() {
        return compare(a, b);
    }
    Ok(Some(position(a).cmp(&position(b))))
}

fn position(value: Value) -> i128 {
    let abs = i128::from(abs(value));
    if negative(value) {
        -1 - abs
    } else {
        abs
    }
}

const LESS: Option<Ordering> = Some(Ordering::Less);
const EQUAL: Option<Ordering> = Some(Ordering::Equal);
const GREATER: Option<Ordering> = Some(Ordering::Greater);

/// Each test, and the orders on which it says yes.
macro_rules! tests {
    ($($name:ident $yes:expr;)+) => {$(
        pub fn $name(a: Value, b: Value) -> Answer<bool> {
            Ok($yes.contains(&compare(a, b)?))
        }
    )+};
}

tests! {
    eq [EQUAL];
    ne [LESS, GREATER, None];
    lt [LESS];
    le [LESS, EQUAL];
    gt [GREATER];
    ge [GREATER, EQUAL];
}

#[cfg(test)]
mod tests {
    use super::*;
    use crate::value::Kind;

    #[test]
    fn positions_reach_both_ends() {
        let position = |kind, bits| position(Value::new(kind, bits));
        assert_eq!(position(Kind::F32, 0x7fff_ffff), i32::MAX.into());
        assert_eq!(position(Kind::F32, 0xffff_ffff), i32::MIN.into());
        assert_eq!(position(Kind::F64, u64::MAX >> 1), i64::MAX.into());
        assert_eq!(position(Kind::F64, u64::MAX), i64::MIN.into());
        assert_eq!(position(Kind::F16, 0x7fff), 32767);
        assert_eq!(position(Kind::F16, 0xffff), -32768);
        assert_eq!(position(Kind::F16, 0x8000), -1);
    }
}
