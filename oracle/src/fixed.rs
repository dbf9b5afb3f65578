//! The fixed list of case lines: those of fixed.txt, written by hand with their
//! answers, then the edges of every kind, rows of several blocks, and the
//! longest lists.

use crate::answer::{Row, Text};
use crate::edges;
use crate::grammar::{LONGEST_ROOM, MOST_ITEMS};
use crate::operands::key::{field, float_numbers};
use crate::text::{bytes_text, MOST_BYTES};
use crate::value::{Form, Kind, Value};

const WRITTEN: &str = include_str!("fixed.txt");

/// The lines of fixed.txt and their answers.
pub fn written() -> Vec<(String, &'static str)> {
    let cases = WRITTEN.lines().filter(|line| !line.starts_with('#'));
    let cases = cases.filter_map(|line| line.rsplit_once(" = "));
    let escaped = |line: &str| line.replace("\\t", "\t").replace("\\r", "\r");
    cases
        .map(|(line, answer)| (escaped(line), answer))
        .collect()
}

pub fn lines() -> Vec<String> {
    let mut lines: Vec<String> = written().into_iter().map(|(line, _)| line).collect();
    for &kind in Kind::ALL {
        match kind.is_float() {
            true => push_floats(kind, &mut lines),
            false => push_integers(kind, &mut lines),
        }
        push_conversions(kind, &mut lines);
        push_keys(kind, &mut lines);
    }
    push_blocks(&mut lines);
    push_longest(&mut lines);
    lines
}

/// Classes with either sign, and each edge against the next.
fn push_floats(kind: Kind, lines: &mut Vec<String>) {
    let (unit, infinity) = (kind.unit(), kind.infinity());
    let around = [infinity - 1, infinity, infinity + 1, kind.top() - 1];
    let edges = [0, 1, unit - 1, unit, kind.one()].into_iter().chain(around);
    let plus: Vec<Value> = edges.map(|edge| Value::new(kind, edge)).collect();
    let minus = |value: Value| Value::new(kind, kind.top() | value.bits);
    for &value in &plus {
        lines.push(format!("class {value}"));
        lines.push(format!("class {}", minus(value)));
    }
    for pair in plus.windows(2) {
        let [low, high] = [pair[0], pair[1]];
        lines.push(format!("compare {low} {high}"));
        lines.push(format!("total {} {}", minus(low), minus(high)));
    }
}

/// The ends, read with a sign and without.
fn push_integers(kind: Kind, lines: &mut Vec<String>) {
    let ends = [0, kind.top() - 1, kind.top(), kind.mask()];
    let [zero, middle, top, ones] = ends.map(|bits| Value::new(kind, bits));
    lines.push(format!("compare {zero} {ones}"));
    lines.push(format!("total {middle} {top}"));
    lines.push(format!("lt {top} {ones}"));
    lines.push(format!("clamp {ones} {zero} {middle}"));
}

/// The greatest finite number to every other kind that isn't wider; a float
/// kind's minus zero to every integer kind.
fn push_conversions(kind: Kind, lines: &mut Vec<String>) {
    let greatest = match kind.form() {
        Form::Unsigned => kind.mask(),
        Form::Signed => kind.top() - 1,
        Form::Float { .. } => kind.infinity() - 1,
    };
    let greatest = Value::new(kind, greatest);
    let others = Kind::ALL
        .iter()
        .filter(|&&to| to != kind && to.width() <= kind.width());
    lines.extend(others.map(|to| format!("convert {greatest} {}", to.name())));
    if kind.is_float() {
        let minus_zero = Value::new(kind, kind.top());
        let integers = Kind::integers().into_iter();
        lines.extend(integers.map(|to| format!("convert {minus_zero} {}", to.name())));
    }
}

/// The ends and zero; and what is read at the ends of what keys have.
fn push_keys(kind: Kind, lines: &mut Vec<String>) {
    let few = edges::few(kind);
    for value in [few[0], few[3], few[7]] {
        lines.push(format!("write {value} {}", kind.bytes()));
    }
    let numbers = match kind.is_float() {
        true => float_numbers(kind).to_vec(),
        false => vec![0, kind.mask()],
    };
    for number in numbers {
        let key = bytes_text(&field(kind, number));
        lines.push(format!("read {} {key}", kind.name()));
    }
}

/// A sample that is refused around the ends of blocks of 256, and the last one.
fn push_blocks(lines: &mut Vec<String>) {
    for bad in [255, 256, 512] {
        let row = |kind, good: u64, refused: u64| {
            let mut row = vec![Value::new(kind, good); 513];
            row[512].bits = refused;
            row[bad].bits = refused;
            Row(row).text()
        };
        let floats = row(Kind::F32, 0x4000_0000, 0x7fc0_0000);
        lines.push(format!("rowclamp 00000000 3f800000 {floats}"));
        lines.push(format!("row f32 u16 {floats} 513"));
        let masked = row(Kind::F32, 0x4000_0000, 0x8000_0000);
        lines.push(format!("row f32 u16 {masked} 513"));
        lines.push(format!("row u16 u8 {} 513", row(Kind::U16, 0xff, 0x100)));
    }
    for length in [255, 256, 257] {
        let bytes = vec![Value::new(Kind::U8, 0xff); length];
        lines.push(format!("row u8 u16 {} {length}", Row(bytes).text()));
        lines.push(format!("row u16 f32 - {length}"));
    }
}

/// Twelve fields, thirteen, and more than a line may have; as many bytes as a line
/// may have, and one more.
fn push_longest(lines: &mut Vec<String>) {
    for count in [12, 13, MOST_ITEMS + 1] {
        let list = |item: &str| vec![item; count].join(",");
        let (record, other) = (list("u8:07"), list("f32:7fc00000"));
        lines.push(format!("rcompare {record} {record}"));
        lines.push(format!("rmin {record} u8:07"));
        lines.push(format!("rmax {other} {other}"));
        lines.push(format!("write {record} {LONGEST_ROOM}"));
        lines.push(format!("write {other} 0"));
        lines.push(format!("read {} {}", list("u8"), "07".repeat(count)));
        lines.push(format!("read {} -", list("f32")));
    }
    for length in [MOST_BYTES, MOST_BYTES + 1] {
        let bytes = "61".repeat(length);
        lines.push(format!("read u8 {bytes}"));
        lines.push(format!("prefixmin {length} {bytes} {}", &bytes[2..]));
        lines.push(format!("prefixmax 255 {bytes} 61"));
    }
}

#[cfg(test)]
mod tests {
    use super::*;

    #[test]
    fn length_and_text() {
        let lines = lines();
        assert!((300..=800).contains(&lines.len()), "{}", lines.len());
        assert!(lines
            .iter()
            .all(|line| line.is_ascii() && !line.contains('\n')));
        // Every line of the text but remarks and blanks is a case.
        let others = |line: &&str| line.is_empty() || line.starts_with('#');
        let others = WRITTEN.lines().filter(others).count();
        assert_eq!(written().len() + others, WRITTEN.lines().count());
    }
}
