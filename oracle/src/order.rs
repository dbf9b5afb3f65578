//! Holds the order of keys, as bytes, against the comparison of their records.

use std::ffi::OsString;
use std::io::{self, Write};

use crate::answer::Text;
use crate::check::{shown, SHOWN_DIFFERENCES};
use crate::grammar::LONGEST_ROOM;
use crate::judge::record::ordered;
use crate::operands::record::{equal_up_to, numbers, shape};
use crate::program;
use crate::random::Random;
use crate::text::{bytes, bytes_text, decimal};
use crate::value::Record;

/// Records of each shape.
const FAMILY: usize = 200;

/// So many random records, in families of one shape each.
#[derive(Clone)]
pub struct Families {
    random: Random,
    left: usize,
}

impl Families {
    pub fn new(seed: u64, count: usize) -> Families {
        Families {
            random: Random::new(seed),
            left: count,
        }
    }
}

impl Iterator for Families {
    type Item = Vec<Record>;

    fn next(&mut self) -> Option<Vec<Record>> {
        let count = self.left.min(FAMILY);
        self.left -= count;
        (count > 0).then(|| family(&mut self.random, count))
    }
}

/// Records of one shape without NaN, most of them equal to a former one up to
/// some field.
fn family(random: &mut Random, count: usize) -> Vec<Record> {
    let shape = shape(random);
    let mut records = vec![numbers(random, &shape)];
    while records.len() < count {
        let former = &records[random.below(records.len())];
        let deciding = random.below(shape.len() + 1);
        let new = match random.one_in(8) {
            true => numbers(random, &shape),
            false => equal_up_to(random, former, deciding),
        };
        records.push(new);
    }
    records
}

/// Pairs of places whose keys are in another order than their records. Sorted
/// by key, it is enough to look at neighbours: when they agree, all do.
pub fn out_of_order(records: &[Record], keys: &[Vec<u8>]) -> Vec<[usize; 2]> {
    let mut places: Vec<usize> = (0..records.len()).collect();
    places.sort_by_key(|&place| &keys[place]);
    let pairs = places.windows(2).map(|pair| [pair[0], pair[1]]);
    let differ =
        |&[a, b]: &[usize; 2]| ordered(&records[a], &records[b]) != Some(keys[a].cmp(&keys[b]));
    pairs.filter(differ).collect()
}

/// Asks a program for the keys of made records. Answers whether it gave all, and
/// all are in order.
pub fn order(
    seed: u64,
    count: usize,
    program: &[OsString],
    out: &mut impl Write,
) -> io::Result<bool> {
    let families = Families::new(seed, count);
    let lines = families.clone().flatten().map(line);
    let (mut keys, mut without) = (Vec::new(), 0);
    let ended = program::ask(program, lines, |line, answer| {
        let answer = answer.unwrap_or_default();
        let key = key_in(&answer);
        without += usize::from(key.is_none());
        keys.push(key);
        if keys.last() == Some(&None) && without <= SHOWN_DIFFERENCES {
            writeln!(out, "{} / {}", shown(&line, 0), shown(&answer, 0))?;
        }
        Ok(())
    })?;
    let (mut keys, mut wrong) = (keys.into_iter(), 0);
    for family in families {
        let pairs = family.into_iter().zip(keys.by_ref());
        let pairs = pairs.filter_map(|(record, key)| Some((record, key?)));
        let (records, keys): (Vec<Record>, Vec<Vec<u8>>) = pairs.unzip();
        for pair in out_of_order(&records, &keys) {
            wrong += 1;
            if wrong <= SHOWN_DIFFERENCES {
                let [a, b] = pair.map(|place| records[place].text());
                let [first, second] = pair.map(|place| bytes_text(&keys[place]));
                writeln!(out, "{a} / {b} / {first} / {second}")?;
            }
        }
    }
    let counts = format!("{without} without a key, {wrong} out of order");
    writeln!(out, "{count} records, {counts}")?;
    Ok(ended.report(out)? && without == 0 && wrong == 0)
}

fn line(record: Record) -> Vec<u8> {
    format!("write {} {LONGEST_ROOM}", record.text()).into_bytes()
}

fn key_in(answer: &[u8]) -> Option<Vec<u8>> {
    let space = answer.iter().position(|&byte| byte == b' ')?;
    let length = decimal(&answer[..space], LONGEST_ROOM)?;
    let mut buffer = bytes(&answer[space + 1..])?;
    (buffer.len() == LONGEST_ROOM).then(|| {
        buffer.truncate(length);
        buffer
    })
}

#[cfg(test)]
mod tests {
    use super::*;
    use crate::judge::key::key;
    use crate::operands::key::field;
    use crate::rules;
    use crate::value::Value;

    /// How many keys of 20,000 records are out of order.
    fn count(key: impl Fn(&Record) -> Vec<u8>) -> usize {
        let mut wrong = 0;
        for family in Families::new(45, 20_000) {
            let keys: Vec<Vec<u8>> = family.iter().map(&key).collect();
            wrong += out_of_order(&family, &keys).len();
        }
        wrong
    }

    #[test]
    fn keys_order_as_records() {
        assert_eq!(count(|record| key(record)), 0);
        let rule = |record: &Record| rules::key::write(record, 96).expect("no NaN").1;
        assert_eq!(count(rule), 0);
    }

    /// Keys that are wrong in a way that looks right.
    #[test]
    fn wrong_keys_are_seen() {
        let raw = |value: &Value| field(value.kind, value.bits);
        assert!(count(|record| record.iter().flat_map(raw).collect()) > 1000);
        // The sign of zeros is kept.
        let total = |value: &Value| match value.is_zero() && value.bits > 0 {
            true => field(value.kind, value.bits - 1),
            false => key(&[*value]),
        };
        assert!(count(|record| record.iter().flat_map(total).collect()) > 300);
        assert!(count(|_| vec![7]) > 1000);
        assert!(count(|record| key(&record[..1])) > 1000);
    }
}
