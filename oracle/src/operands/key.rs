//! Operands for writing and reading keys.

use super::record::{float_place, numbers, refused_count, shape};
use crate::answer::Text;
use crate::edges;
use crate::grammar::{shape_text, LONGEST_ROOM};
use crate::judge::key::key;
use crate::random::Random;
use crate::text::{bytes_text, MOST_BYTES};
use crate::value::{self, key_length, Kind, Value};

/// A record and a room, mostly of the length of its key.
pub fn write(random: &mut Random) -> String {
    let mut shape = shape(random);
    let nans = random.pick(&[0, 0, 0, 0, 0, 1, 1, 2]);
    let nans: Vec<usize> = (0..nans).map(|_| float_place(random, &mut shape)).collect();
    let mut record = numbers(random, &shape);
    for place in nans {
        record[place] = edges::nan(random, shape[place]);
    }
    if random.one_in(10) {
        refused_count(random, &mut record);
    }
    let room = room(random, key_length(&value::shape(&record)));
    format!("{} {room}", record.text())
}

fn room(random: &mut Random, length: usize) -> usize {
    let room = match random.below(16) {
        0..2 => length.saturating_sub(1),
        2..4 => length + 1,
        4 => 0,
        5..7 => LONGEST_ROOM,
        7 => random.below(length + 1),
        8..10 => length + random.below(LONGEST_ROOM),
        _ => length,
    };
    room.min(LONGEST_ROOM)
}

/// A shape and bytes, often the key of a record, or nearly.
pub fn read(random: &mut Random) -> String {
    let mut shape = shape(random);
    let odd = random.one_in(3).then(|| float_place(random, &mut shape));
    let mut key = key(&numbers(random, &shape));
    if let Some(place) = odd {
        put_float(random, &mut key, &shape, place);
    }
    match random.below(16) {
        0..2 => change_length(random, &mut key),
        2..5 => {
            let place = random.below(key.len());
            key[place] ^= random.pick(&[1, 0x7f, 0x80, 0xff]);
        }
        5 => key.fill_with(|| random.next() as u8),
        6 => key.fill(random.pick(&[0, 0x7f, 0x80, 0xff])),
        _ => {}
    }
    if random.one_in(10) {
        let mut record = shape.iter().map(|&kind| Value::new(kind, 0)).collect();
        refused_count(random, &mut record);
        shape = value::shape(&record);
        if random.one_in(2) {
            key.resize(key_length(&shape), 0x80);
        }
    }
    format!("{} {}", shape_text(&shape), bytes_text(&key))
}

/// A number around the ends of those that are keys, or the one that minus zero
/// or a NaN would have.
fn put_float(random: &mut Random, key: &mut [u8], shape: &[Kind], place: usize) {
    let kind = shape[place];
    let number = match random.below(3) {
        0 => random.pick(&float_numbers(kind)),
        1 => kind.top() - 1,
        _ => match edges::nan(random, kind).bits {
            nan if nan < kind.top() => nan ^ kind.top(),
            nan => nan ^ kind.mask(),
        },
    };
    let first = key_length(&shape[..place]);
    key[first..][..kind.bytes()].copy_from_slice(&field(kind, number));
}

/// A number as the key of a field.
pub fn field(kind: Kind, number: u64) -> Vec<u8> {
    number.to_be_bytes()[8 - kind.bytes()..].to_vec()
}

/// Around both ends of a float kind's numbers as keys have them, around zero,
/// and the ends of the width.
pub fn float_numbers(kind: Kind) -> [u64; 9] {
    let (top, infinity) = (kind.top(), kind.infinity());
    let (least, greatest) = (top - 1 - infinity, top + infinity);
    [
        0,
        least - 1,
        least,
        top - 2,
        top - 1,
        top,
        greatest,
        greatest + 1,
        kind.mask(),
    ]
}

fn change_length(random: &mut Random, key: &mut Vec<u8>) {
    let length = match random.below(8) {
        0..2 => key.len() - 1,
        2..4 => key.len() + 1,
        4 => 0,
        5 => 2 * key.len(),
        6 => key.len() + 256,
        _ => random.below(LONGEST_ROOM + 1),
    };
    key.resize(length.min(MOST_BYTES), 0);
}
