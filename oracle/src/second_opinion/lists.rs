//! Rows, records, keys and rows of bytes against the rules in whole numbers.

use super::check;
use crate::answer::{Row, Text};
use crate::edges::all_edges;
use crate::grammar::{shape_text, LONGEST_ROOM, LONGEST_ROW, MOST_ITEMS, ROW_PAIRS};
use crate::judge::key::key;
use crate::operands::key::{field, float_numbers};
use crate::rules;
use crate::text::bytes_text;
use crate::value::{key_length, Kind, Value};

fn check_row([from, to]: [Kind; 2], row: &[Value], room: usize) {
    let row = Row(row.to_vec()).text();
    check(&format!("row {} {} {row} {room}", from.name(), to.name()));
}

fn check_records(a: &[Value], b: &[Value]) {
    for word in ["rcompare", "rmin", "rmax"] {
        check(&format!(
            "{word} {} {}",
            a.to_vec().text(),
            b.to_vec().text()
        ));
    }
}

fn check_write(record: &[Value], room: usize) {
    check(&format!("write {} {room}", record.to_vec().text()));
}

fn check_read(shape: &[Kind], key: &[u8]) {
    check(&format!("read {} {}", shape_text(shape), bytes_text(key)));
}

/// Every sample of u16, in rows as long as they may be, and what they become.
#[test]
fn all_samples_of_u16() {
    let all = (0..0x1_0000).map(|bits| Value::new(Kind::U16, bits));
    let all: Vec<Value> = all.collect();
    for row in all.chunks(LONGEST_ROW) {
        check_row([Kind::U16, Kind::F32], row, row.len());
        check_row([Kind::U16, Kind::U8], row, row.len());
        let floats = rules::convert::row(row, Kind::F32, row.len());
        check_row(
            [Kind::F32, Kind::U16],
            &floats.expect("all fit").0,
            row.len(),
        );
    }
}

/// Lengths and rooms; then two samples that are refused, by their places.
#[test]
fn rows() {
    for pair in ROW_PAIRS {
        for length in [0, 1, 2, 255, 256, 257, 512, 513] {
            let row = vec![Value::new(pair[0], 0); length];
            for room in [length, length + 1, length.max(1) - 1, 0, 256, 512, 8192] {
                check_row(pair, &row, room);
            }
        }
    }
    let bad = [
        0x7fc0_0000,
        0xff80_0000,
        0x3f00_0000,
        0xc77f_ff80,
        0xbf80_0000,
        0x7f7f_ffff,
    ];
    for first in bad {
        for second in bad {
            for places in [[0, 1], [0, 299], [255, 256], [256, 299], [298, 299]] {
                let mut row = vec![Value::new(Kind::F32, 0x3f80_0000); 300];
                row[places[0]].bits = first;
                row[places[1]].bits = second;
                check_row([Kind::F32, Kind::U16], &row, 300);
                check(&format!("rowclamp 00000000 3f800000 {}", Row(row).text()));
            }
        }
    }
}

/// Every pair of counts, with equal fields.
#[test]
fn counts_of_records() {
    for first in 0..=MOST_ITEMS {
        for second in 0..=MOST_ITEMS {
            let value = Value::new(Kind::U16, 7);
            check_records(&vec![value; first], &vec![value; second]);
        }
    }
}

/// Each of twelve fields decides, with a NaN in each place.
#[test]
fn deciding_fields() {
    let float = |bits| Value::new(Kind::F32, bits);
    let nan = float(0x7fc0_0000);
    for deciding in 0..12 {
        let (a, mut b) = (vec![float(0); 12], vec![float(0x8000_0000); 12]);
        b[deciding] = float(0x3f80_0000);
        check_records(&a, &b);
        check_records(&b, &a);
        for place in 0..12 {
            let (mut with_a, mut with_b) = (a.clone(), b.clone());
            with_a[place] = nan;
            check_records(&with_a, &b);
            with_b[place] = nan;
            check_records(&a, &with_b);
            check_records(&with_a, &with_b);
        }
    }
}

#[test]
fn keys_of_single_fields() {
    for &kind in Kind::ALL {
        for value in all_edges(kind) {
            check_write(&[value], kind.bytes());
            // As the number of a key, and as its distance from either end.
            for number in [
                value.bits,
                value.bits ^ kind.top(),
                value.bits ^ kind.mask(),
            ] {
                check_read(&[kind], &field(kind, number));
            }
        }
        if kind.width() <= 16 {
            for bits in 0..=kind.mask() {
                check_write(&[Value::new(kind, bits)], kind.bytes());
                check_read(&[kind], &field(kind, bits));
            }
        }
    }
    for kind in Kind::floats() {
        for number in float_numbers(kind) {
            for steps in -300..=300 {
                let number = Value::new(kind, number).stepped(steps);
                check_read(&[kind], &field(kind, number.bits));
            }
        }
    }
}

#[test]
fn lengths_of_keys() {
    for count in 0..=MOST_ITEMS {
        for kind in [Kind::U8, Kind::I16, Kind::F16, Kind::F32, Kind::U64] {
            for room in 0..=LONGEST_ROOM {
                check_write(&vec![Value::new(kind, 0x1234_5678_9abc_def0); count], room);
            }
            let shape = vec![kind; count];
            let length = key_length(&shape);
            for length in [0, length.max(1) - 1, length, length + 1, 96, 512] {
                check_read(&shape, &vec![0x80; length]);
            }
        }
    }
}

/// Every byte of a key of all kinds, with every other byte in its place.
#[test]
fn damaged_keys() {
    let record: Vec<Value> = Kind::ALL.iter().map(|&kind| Value::new(kind, 0)).collect();
    let key = key(&record);
    for place in 0..key.len() {
        for byte in 0..=255 {
            let mut damaged = key.clone();
            damaged[place] = byte;
            check_read(Kind::ALL, &damaged);
        }
    }
}

/// All rows of up to three bytes of a few, by all that matters of them.
#[test]
fn short_rows_of_bytes() {
    let mut rows = vec![vec![]];
    let mut place = 0;
    while rows[place].len() < 3 {
        for byte in [0, 0x7f, 0x80, 0xff] {
            rows.push([&rows[place][..], &[byte]].concat());
        }
        place += 1;
    }
    assert_eq!(rows.len(), 1 + 4 + 16 + 64);
    for a in &rows {
        for b in &rows {
            for k in [0, 1, 2, 3, 4, usize::MAX] {
                let operands = format!("{k} {} {}", bytes_text(a), bytes_text(b));
                check(&format!("prefixmin {operands}"));
                check(&format!("prefixmax {operands}"));
            }
        }
    }
}
