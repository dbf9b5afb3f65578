//! Case lines spoiled in one way. Nearly all are malformed then; what the others
//! say has to be answered as well.

use crate::random::Random;

/// In the place of a field, parted by spaces.
const PIECES: &str = "\
    - -- , # 0 00 01 +1 -1 1.0 0x1 129 8193 18446744073709551616 u8 U8 u24 \
    bf16 f8 u128 usize bool u8: :00 u8:0 u8:000 u8:0A u8:-1 bf16:0000 f16:000 \
    f16:7C00 f32:1.5 f32:nan u8=00 u8:00, ,u8:00 u8:00,,u8:00 u8:00;u8:01 \
    u8:00,- u8:00 class max clamp read min_by row_clamp rows prefix";

/// In the place of the one space between fields.
const PARTINGS: [&str; 8] = ["", "  ", "\t", " \t", ",", ":", "\r", "\0"];

/// Bytes that no field has, the neighbours of the digits among them, and digits
/// that are too many.
const BYTES: &[u8] = b"/:@G`gAFxX-+_., \t\r\0\x0b\x7f\x80\xff00";

pub fn spoiled(random: &mut Random, line: &str) -> Vec<u8> {
    let mut fields: Vec<Vec<u8>> = line.split(' ').map(Vec::from).collect();
    let place = random.below(fields.len());
    match random.below(16) {
        0..2 => {
            let pieces: Vec<&str> = PIECES.split(' ').collect();
            fields[place] = random.pick(&pieces).into();
        }
        2 => drop(fields.remove(place)),
        3 => fields.insert(place, fields[place].clone()),
        4 => fields.rotate_left(1),
        5 => fields[place].make_ascii_uppercase(),
        6 if place > 0 => {
            let field = fields.remove(place);
            fields[place - 1].extend(random.pick(&PARTINGS).bytes());
            fields[place - 1].extend(field);
        }
        6 => return (0..random.below(40)).map(|_| random.pick(BYTES)).collect(),
        _ => change_byte(random, &mut fields[place]),
    }
    fields.join(&b' ')
}

/// One byte more, less or another, often at an end.
fn change_byte(random: &mut Random, field: &mut Vec<u8>) {
    let last = field.len() - 1;
    let place = match random.below(4) {
        0 => 0,
        1 => last,
        _ => random.below(field.len()),
    };
    match random.below(4) {
        0 => drop(field.remove(place)),
        1 => field.insert(place, random.pick(BYTES)),
        2 => field.insert(last + 1, random.pick(BYTES)),
        _ => field[place] = random.pick(BYTES),
    }
}

/// A thousand bytes or more: one field many times.
pub fn long(random: &mut Random, line: &str) -> Vec<u8> {
    let mut fields: Vec<&str> = line.split(' ').collect();
    let place = random.below(fields.len());
    let joint = random.pick(&["", ",", " "]);
    let count = (1000 + random.below(4000)) / (fields[place].len() + joint.len()) + 1;
    let many = vec![fields[place]; count].join(joint);
    fields[place] = &many;
    fields.join(" ").into_bytes()
}
