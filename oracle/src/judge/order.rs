//! Judges of class, comparison, total order and the six tests.

use std::cmp::Ordering;
use std::num::FpCategory;

use super::native::{native, Native};
use crate::answer::Answer;
use crate::value::{Kind, Value};

/// Of a float kind.
pub fn class(value: Value) -> Answer<FpCategory> {
    fn class<T: Native>(value: Value) -> Option<FpCategory> {
        T::of(value).class()
    }
    Ok(native!(value.kind, class(value)).expect("a float kind"))
}

/// Comparison of two values of one kind; nothing for Unordered.
pub fn ordering(a: Value, b: Value) -> Option<Ordering> {
    fn ordering<T: Native>(a: Value, b: Value) -> Option<Ordering> {
        T::of(a).partial_cmp(&T::of(b))
    }
    native!(a.kind, ordering(a, b))
}

pub fn compare(a: Value, b: Value) -> Answer<Option<Ordering>> {
    one_kind(&[a, b])?;
    Ok(ordering(a, b))
}

pub fn total(a: Value, b: Value) -> Answer<Option<Ordering>> {
    fn total<T: Native>(a: Value, b: Value) -> Ordering {
        T::of(a).total(T::of(b))
    }
    one_kind(&[a, b])?;
    Ok(Some(native!(a.kind, total(a, b))))
}

macro_rules! tests {
    ($($name:ident $operator:tt;)+) => {$(
        pub fn $name(a: Value, b: Value) -> Answer<bool> {
            fn test<T: Native>(a: Value, b: Value) -> bool {
                T::of(a) $operator T::of(b)
            }
            one_kind(&[a, b])?;
            Ok(native!(a.kind, test(a, b)))
        }
    )+};
}

tests! {
    eq ==;
    ne !=;
    lt <;
    le <=;
    gt >;
    ge >=;
}

/// Refusal 7 for kinds that differ.
pub fn one_kind(values: &[Value]) -> Answer<()> {
    let one = values.iter().all(|value| value.kind == values[0].kind);
    one.then_some(()).ok_or((7, 0))
}

pub fn is_nan(value: Value) -> bool {
    ordering(value, value).is_none()
}
