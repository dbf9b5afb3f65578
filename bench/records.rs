//! Records and keys, one call a record: 4,096 different records of one shape, so that no answer can be learnt.

use std::hint::black_box;

use crate::boundary::{self, Answer, Given, DONE};
use crate::random::Random;
use crate::rust_records as rust;
use crate::table::Line;
use crate::turns::{best, COUNT};

/// u16, i16, f32; and every kind at least once.
const SHAPES: [(&str, &[u8]); 2] = [("3 fields", &[1, 5, 8]), ("12 fields", &[0, 5, 8, 3, 1, 10, 4, 2, 7, 8, 6, 9])];

fn bytes(kind: u8) -> usize {
    [1, 2, 4, 8, 1, 2, 4, 8, 4, 8, 2][usize::from(kind)]
}

/// Any value of the kind that is no NaN.
fn number(random: &mut Random, kind: u8) -> u64 {
    loop {
        let bits = random.next() >> (64 - 8 * bytes(kind));
        if !rust::is_nan(kind, bits) {
            return bits;
        }
    }
}

/// So many records, one behind the other.
fn records(random: &mut Random, kinds: &[u8]) -> Vec<u64> {
    (0..COUNT).flat_map(|_| kinds).map(|&kind| number(random, kind)).collect()
}

/// The same records but for one field of each.
fn differing_at(random: &mut Random, place: usize, kinds: &[u8], records: &[u64]) -> Vec<u64> {
    let mut others = records.to_vec();
    for record in others.chunks_mut(kinds.len()) {
        let before = record[place];
        while record[place] == before {
            record[place] = number(random, kinds[place]);
        }
    }
    others
}

fn print(work: &str, size: &str, [library, rust]: [f64; 2]) {
    Line { work, size, library, rust, position: None, copy: None }.print();
}

type Compare = fn(&[u8], &[u64], &[u8], &[u64]) -> Given<u8>;
type Write = fn(&[u8], &[u64], &mut [u8]) -> Given<usize>;
type Read = fn(&[u8], &[u8], &mut [u64]) -> Answer;

fn orders(call: Compare, kinds: &[u8], a: &[u64], b: &[u64], orders: &mut [u8]) {
    let pairs = a.chunks(kinds.len()).zip(b.chunks(kinds.len()));
    for (order, (a, b)) in orders.iter_mut().zip(pairs) {
        let answer = call(black_box(kinds), a, black_box(kinds), b);
        *order = if answer.number == 0 { answer.result } else { u8::MAX };
    }
}

fn keys(call: Write, kinds: &[u8], records: &[u64], keys: &mut [u8]) {
    let length = keys.len() / COUNT;
    for (bits, key) in records.chunks(kinds.len()).zip(keys.chunks_mut(length)) {
        assert!(call(black_box(kinds), bits, key) == Given { number: 0, place: 0, result: length });
    }
}

fn fields(call: Read, kinds: &[u8], keys: &[u8], records: &mut [u64]) {
    for (key, bits) in keys.chunks(keys.len() / COUNT).zip(records.chunks_mut(kinds.len())) {
        assert!(call(black_box(kinds), key, bits) == DONE);
    }
}

fn compare(random: &mut Random, shape: &str, kinds: &[u8], deciding: &str, place: usize) {
    let a = records(random, kinds);
    let b = differing_at(random, place, kinds, &a);
    let (mut ours, mut theirs) = ([0; COUNT], [0; COUNT]);
    orders(boundary::record_compare, kinds, &a, &b, &mut ours);
    orders(rust::record_compare, kinds, &a, &b, &mut theirs);
    assert!(ours == theirs && !ours.contains(&u8::MAX), "comparisons differ");
    let best = best(
        || orders(boundary::record_compare, black_box(kinds), black_box(&a), black_box(&b), &mut ours),
        || orders(rust::record_compare, black_box(kinds), black_box(&a), black_box(&b), &mut theirs),
    );
    print(&format!("record comparison, {deciding} field"), shape, best);
}

fn write_and_read(random: &mut Random, shape: &str, kinds: &[u8]) {
    let records = records(random, kinds);
    let length: usize = kinds.iter().map(|&kind| bytes(kind)).sum();
    let (mut ours, mut theirs) = (vec![0; COUNT * length], vec![0; COUNT * length]);
    keys(boundary::key_write, kinds, &records, &mut ours);
    keys(rust::key_write, kinds, &records, &mut theirs);
    assert!(ours == theirs, "keys differ");
    let written = ours.clone();
    let times = best(
        || keys(boundary::key_write, black_box(kinds), black_box(&records), black_box(&mut ours)),
        || keys(rust::key_write, black_box(kinds), black_box(&records), black_box(&mut theirs)),
    );
    print("key write", shape, times);

    let (mut ours, mut theirs) = (vec![0; records.len()], vec![0; records.len()]);
    fields(boundary::key_read, kinds, &written, &mut ours);
    fields(rust::key_read, kinds, &written, &mut theirs);
    assert!(ours == theirs, "fields that were read differ");
    let times = best(
        || fields(boundary::key_read, black_box(kinds), black_box(&written), black_box(&mut ours)),
        || fields(rust::key_read, black_box(kinds), black_box(&written), black_box(&mut theirs)),
    );
    print("key read", shape, times);
}

/// A record that is mostly of a shape, with now and then a field too many, a kind that has no name, or bits that its kind lacks.
fn any_record(random: &mut Random) -> (Vec<u8>, Vec<u64>) {
    let count = random.below(14);
    let mut kinds: Vec<u8> = (0..count).map(|_| random.below(11) as u8).collect();
    let mut bits: Vec<u64> = kinds.iter().map(|&kind| random.next() >> (64 - 8 * bytes(kind))).collect();
    match random.below(8) {
        0 if count > 0 => kinds[random.below(count)] = 11 + random.below(245) as u8,
        1 if count > 0 => bits[random.below(count)] = random.next(),
        2 => bits.push(0),
        _ => {}
    }
    (kinds, bits)
}

/// Both sides refuse alike, and leave alike what they were lent.
fn refuse_alike(random: &mut Random) {
    for _ in 0..20_000 {
        let (kinds, bits) = any_record(random);
        let (mut other_kinds, mut other_bits) = if random.below(2) == 0 { any_record(random) } else { (kinds.clone(), bits.clone()) };
        if random.below(4) == 0 {
            (other_kinds.pop(), other_bits.pop());
        }
        let answers = [boundary::record_compare, rust::record_compare].map(|call: Compare| call(&kinds, &bits, &other_kinds, &other_bits));
        assert!(answers[0] == answers[1], "{kinds:?} {bits:x?} {other_kinds:?} {other_bits:x?}: {answers:?}");

        let room = random.below(100);
        let written = [boundary::key_write, rust::key_write].map(|call: Write| {
            let mut buffer = vec![0xa5; room];
            (call(&kinds, &bits, &mut buffer), buffer)
        });
        assert!(written[0] == written[1], "{kinds:?} {bits:x?} {room}: {written:x?}");

        let mut key = written[0].1[..written[0].0.result].to_vec();
        if !key.is_empty() && random.below(2) == 0 {
            let place = random.below(key.len());
            key[place] = [0, 0x7f, 0x80, 0xff][random.below(4)];
        }
        let read = [boundary::key_read, rust::key_read].map(|call: Read| {
            let mut fields = vec![7; bits.len()];
            (call(&kinds, &key, &mut fields), fields)
        });
        assert!(read[0] == read[1], "{kinds:?} {key:x?}: {read:x?}");
    }
}

pub fn run() {
    let mut random = Random::new();
    refuse_alike(&mut random);
    for (shape, kinds) in SHAPES {
        compare(&mut random, shape, kinds, "first", 0);
        compare(&mut random, shape, kinds, "last", kinds.len() - 1);
    }
    for (shape, kinds) in SHAPES {
        write_and_read(&mut random, shape, kinds);
    }
}
