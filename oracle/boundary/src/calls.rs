//! The boundary's calls on samples, records and rows, and their answers as text,
//! written as answers to case lines are.

use std::num::FpCategory;

use crate::silamogo::c;
use oracle::answer::{text, Answer, Text};
use oracle::text::bytes_text;
use oracle::value::{Kind, Value};

/// A sample as it passes: any number of a kind, any bits.
pub type Raw = c::Sample;

pub const CLASSES: [FpCategory; 5] = [
    FpCategory::Zero,
    FpCategory::Subnormal,
    FpCategory::Normal,
    FpCategory::Infinite,
    FpCategory::Nan,
];

pub fn raw(value: Value) -> Raw {
    let kind = value.kind as u8;
    let bits = value.bits;
    c::Sample { kind, bits }
}

/// The kind that a number names.
pub fn kind(number: u8) -> Option<Kind> {
    Kind::ALL.get(usize::from(number)).copied()
}

/// Holds an answer against the wanted one. An empty text is no answer.
pub fn same(case: &str, wanted: &str, got: &str) -> Result<(), String> {
    if wanted == got && !wanted.is_empty() {
        return Ok(());
    }
    Err(format!("{case} / {wanted} / {got}"))
}

/// Nothing that was lent may be changed after a refusal, and no result is given.
fn refused(number: u8, place: usize, nothing: bool) -> String {
    if !nothing {
        return "changed after a refusal".to_string();
    }
    let refused: Answer<Value> = Err((number.into(), place));
    text(refused)
}

/// The text of an answer with a result, which has to be 0 after a refusal.
fn given<T: Copy + PartialEq>(a: c::Given<T>, zero: T, text: impl Fn(T) -> String) -> String {
    match a.number {
        0 if a.place == 0 => text(a.result),
        0 => format!("done at place {}", a.place),
        number => refused(number, a.place, a.result == zero),
    }
}

fn classed(a: c::Given<u8>) -> String {
    given(a, 0, |class| {
        let class = CLASSES.get(usize::from(class));
        class.map_or("no class".to_string(), FpCategory::text)
    })
}

fn positioned(a: c::Given<i64>) -> String {
    given(a, 0, |position| position.to_string())
}

fn ordered(a: c::Given<u8>) -> String {
    let names = ["Less", "Equal", "Greater", "Unordered"];
    given(a, 0, |order| {
        let name = names.get(usize::from(order));
        name.unwrap_or(&"no order").to_string()
    })
}

fn sampled(a: c::Given<Raw>) -> String {
    let zero = c::Sample { kind: 0, bits: 0 };
    given(a, zero, |s| match kind(s.kind) {
        Some(kind) if s.bits <= kind.mask() => Value::new(kind, s.bits).to_string(),
        _ => format!("no sample: {s:?}"),
    })
}

// SAFETY of all calls: samples pass by value; pointers and lengths are those of
// slices that are lent for the call.

macro_rules! of_samples {
    ($($name:ident($($sample:ident)+) $call:ident $text:ident;)+) => {$(
        pub fn $name($($sample: Raw),+) -> String {
            $text(unsafe { c::$call($($sample),+) })
        }
    )+};
}

of_samples! {
    class(s) silamogo_classify classed;
    position(s) silamogo_position positioned;
    compare(a b) silamogo_compare ordered;
    total(a b) silamogo_total_order ordered;
    min(a b) silamogo_min sampled;
    max(a b) silamogo_max sampled;
    clamp(value lower upper) silamogo_clamp sampled;
}

pub fn convert(v: Raw, to: u8) -> String {
    sampled(unsafe { c::silamogo_convert(v, to) })
}

/// A record as it passes: two lists, of any lengths.
pub struct RawRecord {
    pub kinds: Vec<u8>,
    pub bits: Vec<u64>,
}

pub fn raw_record(record: &[Value]) -> RawRecord {
    RawRecord {
        kinds: record.iter().map(|value| value.kind as u8).collect(),
        bits: record.iter().map(|value| value.bits).collect(),
    }
}

pub fn rcompare(a: &RawRecord, b: &RawRecord) -> String {
    let [(a, m, x, n), (b, k, y, l)] = [a, b].map(|r| {
        let (kinds, bits) = (&r.kinds, &r.bits);
        (kinds.as_ptr(), kinds.len(), bits.as_ptr(), bits.len())
    });
    ordered(unsafe { c::silamogo_record_compare(a, m, x, n, b, k, y, l) })
}

/// Into a buffer of bytes that are all a5 before.
pub fn write(r: &RawRecord, room: usize) -> String {
    let before = vec![0xa5; room];
    let mut buffer = before.clone();
    let (kinds, m) = (r.kinds.as_ptr(), r.kinds.len());
    let (bits, n) = (r.bits.as_ptr(), r.bits.len());
    let a = unsafe { c::silamogo_key_write(kinds, m, bits, n, buffer.as_mut_ptr(), room) };
    if a.number != 0 {
        return refused(a.number, a.place, a.result == 0 && buffer == before);
    }
    given(a, 0, |length| format!("{length} {}", bytes_text(&buffer)))
}

/// Into a row of as many bits as asked for, none of them 0 before.
pub fn read(kinds: &[u8], key: &[u8], room: usize) -> String {
    let before = vec![0xa5a5_a5a5_a5a5_a5a5; room];
    let mut bits = before.clone();
    let (from, m) = (kinds.as_ptr(), kinds.len());
    let a =
        unsafe { c::silamogo_key_read(from, m, key.as_ptr(), key.len(), bits.as_mut_ptr(), room) };
    if a.number != 0 {
        return refused(a.number, a.place, bits == before);
    }
    let fields = kinds.iter().zip(bits);
    let fields = fields.map(|(&kind, bits)| Value {
        kind: Kind::ALL[usize::from(kind)],
        bits,
    });
    fields.collect::<Vec<Value>>().text()
}

/// What a row holds, by its bits: a NaN isn't equal to itself.
pub trait Item: Copy {
    fn bits(self) -> u32;
}

impl Item for u8 {
    fn bits(self) -> u32 {
        self.into()
    }
}

impl Item for u16 {
    fn bits(self) -> u32 {
        self.into()
    }
}

impl Item for f32 {
    fn bits(self) -> u32 {
        self.to_bits()
    }
}

/// A row into another, whose items are all `before`; the text of what comes of
/// it.
pub fn row<S, D: Item>(
    call: unsafe extern "C" fn(*const S, usize, *mut D, usize) -> c::Answer,
    src: &[S],
    room: usize,
    before: D,
    text: impl Fn(&[D]) -> String,
) -> String {
    let mut dst = vec![before; room];
    let a = unsafe { call(src.as_ptr(), src.len(), dst.as_mut_ptr(), dst.len()) };
    match a.number {
        0 => text(&dst),
        number => {
            let nothing = dst.iter().all(|item| item.bits() == before.bits());
            refused(number, a.place, nothing)
        }
    }
}

/// A clamp in place; a NaN is compared by its bits.
pub fn rowclamp(lower: f32, upper: f32, row: &[f32], text: impl Fn(&[f32]) -> String) -> String {
    let mut clamped = row.to_vec();
    let a = unsafe { c::silamogo_row_clamp(clamped.as_mut_ptr(), clamped.len(), lower, upper) };
    let mut pairs = clamped.iter().zip(row);
    match a.number {
        0 => text(&clamped),
        number => {
            let nothing = pairs.all(|(x, y)| x.to_bits() == y.to_bits());
            refused(number, a.place, nothing)
        }
    }
}
