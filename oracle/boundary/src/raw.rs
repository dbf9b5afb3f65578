//! Cases that no line has: numbers that name no kind, bits that a kind doesn't
//! have, lists that differ in length, all of these with too few or too many
//! fields; and positions. The rules that the boundary
//! adds stand here, before the judges of case lines.

use crate::calls::{self, kind, same, Raw, RawRecord};
use oracle::answer::{text, Answer, Text};
use oracle::grammar::{record, shape};
use oracle::judge::order::total;
use oracle::judge::{choice, convert, key, order, record as records};
use oracle::operands;
use oracle::operands::value::{any_kind, neighbour, value};
use oracle::random::Random;
use oracle::text::{bytes, bytes_text};
use oracle::value::{Kind, Record, Value};

pub fn case(random: &mut Random) -> Result<(), String> {
    match random.below(8) {
        0 => position(random),
        1 => one_float(random),
        2..4 => of_samples(random),
        4 => convert(random),
        5 => rcompare(random),
        6 => write(random),
        _ => read(random),
    }
}

/// Mostly a number that names a kind.
fn any_number(random: &mut Random) -> u8 {
    match random.below(12) {
        0 => Kind::ALL.len() as u8,
        1 => random.next() as u8,
        _ => any_kind(random) as u8,
    }
}

/// Mostly a sample, of a given kind where there is one.
fn any_sample(random: &mut Random, number: u8) -> Raw {
    let bits = match kind(number) {
        Some(kind) if !random.one_in(8) => value(random, kind).bits,
        Some(kind) if random.one_in(2) => kind.mask().wrapping_add(1),
        Some(kind) => value(random, kind).bits | 1 << random.below(64),
        None => random.next(),
    };
    Raw { kind: number, bits }
}

/// The kinds that numbers name; 7 when one names none.
fn named(numbers: &[u8]) -> Answer<Vec<Kind>> {
    let kinds: Option<Vec<Kind>> = numbers.iter().map(|&number| kind(number)).collect();
    kinds.ok_or((7, 0))
}

/// The values of kinds and bits; 4 at the first bits that the kind doesn't have.
fn values(kinds: &[Kind], bits: &[u64]) -> Answer<Vec<Value>> {
    let pairs = kinds.iter().zip(bits);
    let values: Vec<Value> = pairs.map(|(&kind, &bits)| Value { kind, bits }).collect();
    match values
        .iter()
        .position(|value| value.bits > value.kind.mask())
    {
        Some(place) => Err((4, place)),
        None => Ok(values),
    }
}

/// The values of samples, each with the place 0.
fn of<const COUNT: usize>(samples: [Raw; COUNT]) -> Answer<[Value; COUNT]> {
    let kinds = named(&samples.map(|sample| sample.kind))?;
    let values = values(&kinds, &samples.map(|sample| sample.bits));
    let values = values.map_err(|(number, _)| (number, 0))?;
    Ok(values.try_into().expect("as many values"))
}

fn one_float(random: &mut Random) -> Result<(), String> {
    let number = any_number(random);
    let s = any_sample(random, number);
    let float = match kind(number).is_some_and(Kind::is_float) {
        true => of([s]),
        false => Err((7, 0)),
    };
    if let Err(refused) = float {
        let wanted = text::<Value>(Err(refused));
        same(&format!("position {s:x?}"), &wanted, &calls::position(s))?;
    }
    let wanted = text(float.and_then(|[value]| order::class(value)));
    same(&format!("class {s:x?}"), &wanted, &calls::class(s))
}

fn of_samples(random: &mut Random) -> Result<(), String> {
    let number = any_number(random);
    let [a, b, c] = [0; 3].map(|_| {
        let other = random.one_in(6);
        let number = if other { any_number(random) } else { number };
        any_sample(random, number)
    });
    let case = |word: &str| format!("{word} {a:x?} {b:x?}");
    let wanted = text(of([a, b]).and_then(|[a, b]| order::compare(a, b)));
    same(&case("compare"), &wanted, &calls::compare(a, b))?;
    let wanted = text(of([a, b]).and_then(|[a, b]| total(a, b)));
    same(&case("total"), &wanted, &calls::total(a, b))?;
    let wanted = text(of([a, b]).and_then(|[a, b]| choice::min(a, b)));
    same(&case("min"), &wanted, &calls::min(a, b))?;
    let wanted = text(of([a, b]).and_then(|[a, b]| choice::max(a, b)));
    same(&case("max"), &wanted, &calls::max(a, b))?;
    let wanted = text(of([a, b, c]).and_then(|[a, b, c]| choice::clamp(a, b, c)));
    let case = format!("clamp {a:x?} {b:x?} {c:x?}");
    same(&case, &wanted, &calls::clamp(a, b, c))
}

fn convert(random: &mut Random) -> Result<(), String> {
    let [from, to] = [0; 2].map(|_| any_number(random));
    let s = any_sample(random, from);
    let kinds = named(&[from, to]);
    let converted = kinds.and_then(|kinds| convert::convert(of([s])?[0], kinds[1]));
    let got = calls::convert(s, to);
    same(&format!("convert {s:x?} {to}"), &text(converted), &got)
}

/// No kinds, or 13: those of the list, and behind them any.
fn miscounted(random: &mut Random, kinds: &mut Vec<u8>) {
    let count = random.pick(&[0, 13]);
    kinds.resize_with(count, || any_number(random));
}

/// A record of one line, damaged as no line can be.
fn damaged(random: &mut Random, record: &[Value]) -> RawRecord {
    let mut raw = calls::raw_record(record);
    if random.one_in(6) {
        miscounted(random, &mut raw.kinds);
        let sample = |&number: &u8| any_sample(random, number).bits;
        raw.bits = raw.kinds.iter().map(sample).collect();
    }
    for _ in 0..random.below(3) {
        let place = random.below(raw.bits.len().max(1));
        match (random.below(4), raw.bits.get_mut(place)) {
            (0, Some(bits)) => *bits |= 1 << random.below(64),
            (1, Some(_)) if place < raw.kinds.len() => raw.kinds[place] = any_number(random),
            (2, Some(_)) => drop(raw.bits.pop()),
            (3, _) => raw.bits.push(random.next()),
            _ => {}
        }
    }
    raw
}

/// The records; else the refusal of the first rule that holds: every count, then
/// every kind, then every length, then the bits, record by record.
fn fields(raws: &[&RawRecord]) -> Answer<Vec<Record>> {
    for raw in raws {
        records::count(raw.kinds.len())?;
    }
    let shapes: Answer<Vec<Vec<Kind>>> = raws.iter().map(|raw| named(&raw.kinds)).collect();
    let shapes = shapes?;
    if raws.iter().any(|raw| raw.kinds.len() != raw.bits.len()) {
        return Err((9, 0));
    }
    let pairs = shapes.iter().zip(raws);
    pairs.map(|(shape, raw)| values(shape, &raw.bits)).collect()
}

fn shown(raw: &RawRecord) -> String {
    format!("{:?} {:x?}", raw.kinds, raw.bits)
}

fn parsed(text: &str) -> Record {
    record(text.as_bytes()).expect("a record")
}

fn rcompare(random: &mut Random) -> Result<(), String> {
    let operands = operands::record::pair(random);
    let (first, second) = operands.split_once(' ').expect("two records");
    let [a, b] = [first, second].map(|text| damaged(random, &parsed(text)));
    let wanted = text(fields(&[&a, &b]).and_then(|both| records::compare(&both[0], &both[1])));
    let case = format!("rcompare {} {}", shown(&a), shown(&b));
    same(&case, &wanted, &calls::rcompare(&a, &b))
}

fn write(random: &mut Random) -> Result<(), String> {
    let operands = operands::key::write(random);
    let (record, room) = operands.split_once(' ').expect("a record and a room");
    let raw = damaged(random, &parsed(record));
    let room = room.parse().expect("a room");
    let wanted = text(fields(&[&raw]).and_then(|one| key::write(&one[0], room)));
    let got = calls::write(&raw, room);
    same(&format!("write {} {room}", shown(&raw)), &wanted, &got)
}

/// A room for another number of fields, a number that names no kind, or too few
/// or too many kinds.
fn read(random: &mut Random) -> Result<(), String> {
    let operands = operands::key::read(random);
    let (kinds, bytes_of_key) = operands.split_once(' ').expect("a shape and a key");
    let kinds = shape(kinds.as_bytes()).expect("a shape");
    let bytes = bytes(bytes_of_key.as_bytes()).expect("bytes");
    let mut kinds: Vec<u8> = kinds.into_iter().map(|kind| kind as u8).collect();
    if !kinds.is_empty() && random.one_in(3) {
        let place = random.below(kinds.len());
        kinds[place] = any_number(random);
    }
    if random.one_in(6) {
        miscounted(random, &mut kinds);
    }
    let room = match random.below(4) {
        0 => random.below(14),
        _ => kinds.len(),
    };
    let shape = records::count(kinds.len()).and_then(|()| named(&kinds));
    let wanted = text(shape.and_then(|shape| match room == kinds.len() {
        true => key::read(&shape, &bytes),
        false => Err((9, 0)),
    }));
    let got = calls::read(&kinds, &bytes, room);
    let case = format!("read {kinds:?} {} {room}", bytes_text(&bytes));
    same(&case, &wanted, &got)
}

/// Two positions are ordered as `total_cmp` orders; the positions of patterns
/// that are next to each other differ by one; the zeros are at 0 and at -1.
fn position(random: &mut Random) -> Result<(), String> {
    let kind = random.pick(&Kind::floats());
    let first = value(random, kind);
    let near = neighbour(random, first);
    for (zero, wanted) in [(0, "0"), (kind.top(), "-1")] {
        let got = calls::position(calls::raw(Value::new(kind, zero)));
        same("position of a zero", wanted, &got)?;
    }
    for second in [near, value(random, kind)] {
        let case = format!("positions of {first} and {second}");
        let [a, b] = [first, second].map(|v| calls::position(calls::raw(v)));
        let [x, y]: [i128; 2] = [&a, &b].map(|text| text.parse().unwrap_or(i128::MAX));
        let wanted = text(total(first, second));
        same(&case, &wanted, &Some(x.cmp(&y)).text())?;
        let one_apart =
            first.bits.abs_diff(second.bits) == 1 && (first.bits ^ second.bits) & kind.top() == 0;
        if one_apart {
            same(&case, "1", &x.abs_diff(y).to_string())?;
        }
    }
    Ok(())
}
