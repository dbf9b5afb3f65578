//! Operands for the choice between rows of bytes, often equal up to some byte.

use crate::random::Random;
use crate::text::bytes_text;

/// Bytes that a row often has: its ends, and where a sign would be.
const BYTES: [u8; 6] = [0, 1, 0x61, 0x7f, 0x80, 0xff];

/// Past every row, and at the ends of widths.
const GREAT: [usize; 6] = [513, 65536, u32::MAX as usize, 1 << 32, 1 << 63, usize::MAX];

/// A number and two rows.
pub fn rows(random: &mut Random) -> String {
    let length = match random.below(32) {
        0..2 => 0,
        2..4 => 1,
        4 => 250 + random.below(51),
        _ => random.below(13),
    };
    let first: Vec<u8> = (0..length).map(|_| byte(random)).collect();
    let place = random.below(length + 1);
    let second = parting_at(random, &first, place);
    let k = match random.below(12) {
        0 => 0,
        1..3 => place.saturating_sub(1),
        3..5 => place,
        5..7 => place + 1,
        7 => first.len(),
        8 => second.len(),
        9 => first.len().max(second.len()) + 1,
        10 => random.pick(&GREAT),
        _ => random.below(20),
    };
    let mut rows = [first, second].map(|row| bytes_text(&row));
    if random.one_in(2) {
        rows.reverse();
    }
    let [first, second] = rows;
    format!("{k} {first} {second}")
}

/// The same up to a place; then the row ends, has another byte there, or goes
/// on as it likes.
fn parting_at(random: &mut Random, row: &[u8], place: usize) -> Vec<u8> {
    let mut other = row.to_vec();
    match random.below(4) {
        0 => other.truncate(place),
        1 if place < row.len() => other[place] = byte(random),
        1 => other.push(byte(random)),
        2 if place < row.len() => other[place] ^= random.pick(&[1, 0x80, 0xff]),
        _ => {
            other.truncate(place);
            other.extend((0..random.below(6)).map(|_| byte(random)));
        }
    }
    other
}

fn byte(random: &mut Random) -> u8 {
    match random.one_in(2) {
        true => random.pick(&BYTES),
        false => random.next() as u8,
    }
}
