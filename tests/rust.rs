//! The wrapper for Rust: keys of many records are those of one at a time, and after a refusal what was lent is as it was; f16, for which Rust has
//! no type, goes in and out by its bits; minus zero goes to no integer kind. The last line is the number of tries.

#[path = "../bench/random.rs"]
mod random;
#[path = "../bindings/rust/silamogo.rs"]
mod silamogo;

use random::Random;
use silamogo::{classify, convert, key_write, keys_write, position, row_f32_to_u16, Class, Kind, Refusal, Result, Sample, LONGEST_KEY};

const NAN: u64 = 0x7fc00000; // of f32; its upper half is one of f16

/// The key of each record; a refusal has its place among all bits.
fn one_by_one(shape: &[Kind], bits: &[u64]) -> Result<Vec<Vec<u8>>> {
    let one = |(record, bits): (usize, &[u64])| {
        let mut key = [0; LONGEST_KEY];
        match key_write(shape, bits, &mut key) {
            Ok(length) => Ok(key[..length].to_vec()),
            Err(refusal) => Err(Refusal { place: record * shape.len() + refusal.place, ..refusal }),
        }
    };
    bits.chunks(shape.len()).enumerate().map(one).collect()
}

/// One try, in a buffer of so many bytes. Bytes behind the keys stay, and all of them after a refusal.
fn expect(wanted: Result<Vec<Vec<u8>>>, shape: &[Kind], bits: &[u64], room: usize, count: usize) {
    let (mut buffer, mut lengths) = (vec![0xaa; room], vec![77; count]);
    let got = keys_write(shape, bits, &mut buffer, &mut lengths);
    let (mut keys, mut measured) = (vec![0xaa; room], vec![77; count]);
    if let Ok(wanted) = &wanted {
        let joined = wanted.concat();
        keys[..joined.len()].copy_from_slice(&joined);
        measured = wanted.iter().map(|key| key.len() as u64).collect();
    }
    assert_eq!(got, wanted.map(|_| ()), "{shape:?}, {bits:x?}, {room} bytes, {count} lengths");
    assert!(buffer == keys && lengths == measured, "{shape:?}, {bits:x?}, {room} bytes, {count} lengths: {buffer:x?} {lengths:?}");
}

fn made(random: &mut Random) {
    let shape: Vec<Kind> = (0..1 + random.below(12)).map(|_| Kind::ALL[random.below(Kind::ALL.len())]).collect();
    let width = |kind: Kind| [8, 16, 32, 64, 8, 16, 32, 64, 32, 64, 16][kind as usize];
    let count = random.below(9);
    let mut bits: Vec<u64> = (0..count).flat_map(|_| &shape).map(|&kind| random.next() >> (64 - width(kind))).collect();
    if count > 0 && random.below(3) == 0 {
        let at = random.below(bits.len());
        bits[at] = [NAN >> 16, NAN, NAN << 32, random.next()][random.below(4)];
    }
    let room = count * shape.iter().map(|&kind| width(kind) / 8).sum::<usize>() + random.below(9);
    expect(one_by_one(&shape, &bits), &shape, &bits, room, count);
}

/// In the order 11, 9, 10, then the first record's 4 and 1: each before all that come after it.
fn refused() -> usize {
    let refused = |number, place| Err(Refusal { number, place });
    let (floats, bytes, wide) = ([Kind::F32; 2], [Kind::U8; 13], 1 << 32);
    let cases: [(_, &[Kind], &[u64], _, _); 16] = [
        (refused(11, 0), &[], &[], 0, 0),
        (refused(11, 0), &[], &[], 0, 3),
        (refused(11, 0), &[], &[256], 0, 1),
        (refused(11, 0), &bytes, &[], 0, 0),
        (refused(11, 0), &bytes, &[], 0, 15),
        (refused(11, 0), &bytes, &[256], 0, 2),
        (refused(11, 0), &bytes, &[256; 13], 0, 1),
        (refused(9, 0), &bytes[..12], &[256], 0, 2),
        (refused(9, 0), &floats, &[NAN, wide, 0], 0, 1),
        (refused(9, 0), &floats, &[NAN, wide], 0, 2),
        (refused(10, 0), &floats, &[NAN, wide], 7, 1),
        (refused(4, 1), &floats, &[NAN, wide], 8, 1),
        (refused(1, 0), &floats, &[NAN, 0, 0, wide], 16, 2),
        (refused(1, 3), &floats, &[0, 0, 0, NAN, wide, 0], 24, 3),
        (refused(4, 4), &floats, &[0, 0, 0, 0, wide, NAN], 24, 3),
        (Ok(vec![]), &floats, &[], 0, 0),
    ];
    let tries = cases.len();
    for (wanted, shape, bits, room, count) in cases {
        expect(wanted, shape, bits, room, count);
    }
    tries
}

/// A conversion from or to f16: the edges of its range, of its numbers and of its classes.
fn converted() -> usize {
    let refused = |number| Err(Refusal { number, place: 0 });
    let (half, single) = (|bits| Ok(Sample::f16(bits)), |bits| Ok(f32::from_bits(bits).into()));
    let cases: [(Sample, Kind, Result<Sample>); 32] = [
        (65504u16.into(), Kind::F16, half(0x7bff)),
        (65505u16.into(), Kind::F16, refused(4)),
        (65536u32.into(), Kind::F16, refused(4)),
        ((-65504i64).into(), Kind::F16, half(0xfbff)),
        ((-65505i64).into(), Kind::F16, refused(4)),
        (u64::MAX.into(), Kind::F16, refused(4)),
        (65504.5f64.into(), Kind::F16, refused(4)),
        (f32::MAX.into(), Kind::F16, refused(4)),
        (2048u16.into(), Kind::F16, half(0x6800)),
        (2049u16.into(), Kind::F16, refused(5)),
        (65503u16.into(), Kind::F16, refused(5)),
        (i16::MIN.into(), Kind::F16, half(0xf800)),
        (0u8.into(), Kind::F16, half(0)),
        (0.1f32.into(), Kind::F16, refused(5)),
        (f32::from_bits(0x33800000).into(), Kind::F16, half(0x0001)),
        (f32::from_bits(0x33000000).into(), Kind::F16, refused(5)),
        ((-0.0f64).into(), Kind::F16, half(0x8000)),
        (f64::NEG_INFINITY.into(), Kind::F16, half(0xfc00)),
        (f64::NAN.into(), Kind::F16, refused(1)),
        (Sample::f16(0x8000), Kind::F32, single(0x80000000)),
        (Sample::f16(0x0001), Kind::F32, single(0x33800000)),
        (Sample::f16(0x83ff), Kind::F32, single(0xb87fc000)),
        (Sample::f16(0x0400), Kind::F32, single(0x38800000)),
        (Sample::f16(0x7bff), Kind::F32, single(0x477fe000)),
        (Sample::f16(0x7c00), Kind::F32, single(0x7f800000)),
        (Sample::f16(0x7c01), Kind::F32, refused(1)),
        (Sample::f16(0xfe00), Kind::U8, refused(1)),
        (Sample::f16(0xfc00), Kind::I64, refused(2)),
        (Sample::f16(0x3800), Kind::U8, refused(3)),
        (Sample::f16(0xbc00), Kind::U64, refused(4)),
        (Sample::f16(0xbc00), Kind::I8, Ok((-1i8).into())),
        (Sample { kind: Kind::F16, bits: 0x10000 }, Kind::F32, refused(4)),
    ];
    let tries = cases.len();
    for (from, to, wanted) in cases {
        assert_eq!(convert(from, to), wanted, "{from:x?} to {to:?}");
    }
    tries
}

/// Minus zero of a float kind, and plus zero, to every kind; and a row with a minus zero at each place.
fn minus_zeros() -> usize {
    let minus = [(-0.0f32).into(), (-0.0f64).into(), Sample::f16(0x8000)];
    for from in minus {
        for to in Kind::ALL {
            let wanted = minus.into_iter().find(|s| s.kind == to).ok_or(Refusal { number: 13, place: 0 });
            assert_eq!(convert(from, to), wanted, "{from:x?} to {to:?}");
            assert_eq!(convert(Sample { bits: 0, ..from }, to), Ok(Sample { kind: to, bits: 0 }), "plus zero of {:?} to {to:?}", from.kind);
        }
    }
    let places = 600;
    for place in 0..places {
        let (mut row, mut greys) = (vec![3f32; places], vec![7u16; places]);
        row[place] = -0.0;
        assert_eq!(row_f32_to_u16(&row, &mut greys), Err(Refusal { number: 13, place }));
        assert!(greys.iter().all(|&grey| grey == 7), "a minus zero at {place}");
    }
    6 * Kind::ALL.len() + places
}

/// To its own kind every f16 comes back with its bits, payloads of NaN too; the class and the position are those of the bits.
fn patterns() -> usize {
    for bits in 0..=u16::MAX {
        let (s, abs) = (Sample::f16(bits), bits & 0x7fff);
        let class = match abs {
            0 => Class::Zero,
            1..=0x3ff => Class::Subnormal,
            0x400..=0x7bff => Class::Normal,
            0x7c00 => Class::Infinite,
            _ => Class::Nan,
        };
        let place = if bits == abs { i64::from(abs) } else { -1 - i64::from(abs) };
        assert_eq!((convert(s, Kind::F16), classify(s), position(s)), (Ok(s), Ok(class), Ok(place)), "{bits:04x}");
    }
    1 << 16
}

fn main() {
    let mut random = Random::new();
    let tries = 2000;
    (0..tries).for_each(|_| made(&mut random));
    println!("tests/rust: {} tries", tries + refused() + converted() + minus_zeros() + patterns());
}
