//! Case lines answered by the library: read by the oracle, asked through the
//! boundary.

use crate::calls;
use crate::silamogo::c;
use oracle::answer::{Row, Text};
use oracle::grammar::{self, LONGEST_ROW};
use oracle::text::{bytes, decimal};
use oracle::value::{Kind, Value};

type Operands<'a> = &'a [&'a [u8]];

/// The words of lines that the boundary has a call for, and its answer; nothing
/// for operands that aren't of the grammar.
pub const CALLS: &[(&str, fn(Operands) -> Option<String>)] = &[
    ("class", |o| Some(calls::class(sample(o[0])?))),
    ("compare", |o| {
        Some(calls::compare(sample(o[0])?, sample(o[1])?))
    }),
    ("total", |o| {
        Some(calls::total(sample(o[0])?, sample(o[1])?))
    }),
    ("min", |o| Some(calls::min(sample(o[0])?, sample(o[1])?))),
    ("max", |o| Some(calls::max(sample(o[0])?, sample(o[1])?))),
    ("clamp", |o| {
        Some(calls::clamp(sample(o[0])?, sample(o[1])?, sample(o[2])?))
    }),
    ("convert", |o| {
        Some(calls::convert(sample(o[0])?, Kind::parse(o[1])? as u8))
    }),
    ("rcompare", |o| {
        Some(calls::rcompare(&record(o[0])?, &record(o[1])?))
    }),
    ("write", |o| {
        Some(calls::write(&record(o[0])?, decimal(o[1], usize::MAX)?))
    }),
    ("read", |o| {
        let shape = grammar::shape(o[0])?.into_iter();
        let kinds: Vec<u8> = shape.map(|kind| kind as u8).collect();
        Some(calls::read(&kinds, &bytes(o[1])?, kinds.len()))
    }),
    ("rowclamp", |o| {
        let bound = |text| Value::of_digits(Kind::F32, text).map(float);
        let row = floats(&grammar::row(Kind::F32, o[2])?);
        Some(calls::rowclamp(
            bound(o[0])?,
            bound(o[1])?,
            &row,
            text_of_floats,
        ))
    }),
    ("row", row),
];

fn sample(text: &[u8]) -> Option<calls::Raw> {
    Value::parse(text).map(calls::raw)
}

fn record(text: &[u8]) -> Option<calls::RawRecord> {
    grammar::record(text).map(|record| calls::raw_record(&record))
}

fn row(operands: Operands) -> Option<String> {
    let [from, to] = [Kind::parse(operands[0])?, Kind::parse(operands[1])?];
    let samples = grammar::row(from, operands[2])?;
    let room = decimal(operands[3], LONGEST_ROW)?;
    let bytes: Vec<u8> = samples.iter().map(|sample| sample.bits as u8).collect();
    let words: Vec<u16> = samples.iter().map(|sample| sample.bits as u16).collect();
    Some(match (from, to) {
        (Kind::U8, Kind::U16) => {
            calls::row(c::silamogo_row_u8_to_u16, &bytes, room, 0xa5a5, text_of(to))
        }
        (Kind::U16, Kind::U8) => {
            calls::row(c::silamogo_row_u16_to_u8, &words, room, 0xa5, text_of(to))
        }
        // A signalling NaN: any operation on it would make it quiet.
        (Kind::U16, Kind::F32) => calls::row(
            c::silamogo_row_u16_to_f32,
            &words,
            room,
            f32::from_bits(0x7f80_0001),
            text_of_floats,
        ),
        (Kind::F32, Kind::U16) => {
            let src = floats(&samples);
            calls::row(c::silamogo_row_f32_to_u16, &src, room, 0xa5a5, text_of(to))
        }
        _ => return None,
    })
}

fn text_of<D: Copy + Into<u64>>(kind: Kind) -> impl Fn(&[D]) -> String {
    move |row| {
        let values = row.iter().map(|&item| Value::new(kind, item.into()));
        Row(values.collect()).text()
    }
}

fn text_of_floats(row: &[f32]) -> String {
    let bits: Vec<u32> = row.iter().map(|x| x.to_bits()).collect();
    text_of(Kind::F32)(&bits)
}

fn float(sample: Value) -> f32 {
    f32::from_bits(sample.bits as u32)
}

fn floats(samples: &[Value]) -> Vec<f32> {
    samples.iter().map(|&sample| float(sample)).collect()
}
