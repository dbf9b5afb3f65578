//! Random case lines, spoiled ones between them.

use crate::lines;
use crate::malformed;
use crate::random::Random;

/// An endless row of case lines, without newlines.
#[derive(Clone)]
pub struct Cases {
    random: Random,
}

impl Cases {
    pub fn new(seed: u64) -> Cases {
        let random = Random::new(seed);
        Cases { random }
    }
}

impl Iterator for Cases {
    type Item = Vec<u8>;

    fn next(&mut self) -> Option<Vec<u8>> {
        let random = &mut self.random;
        let line = lines::random_line(random);
        Some(match random.below(3000) {
            0 if line.len() < 1000 => malformed::long(random, &line),
            1..130 if line.len() < 400 => malformed::spoiled(random, &line),
            _ => line.into_bytes(),
        })
    }
}

#[cfg(test)]
mod tests {
    use super::*;
    use crate::answer::Answer;
    use crate::edges::all_edges;
    use crate::fixed;
    use crate::lines::{LineKind, LINE_KINDS, MALFORMED};
    use crate::operands::convert::source;
    use crate::rules::convert::convert;
    use crate::value::{Kind, Value};

    #[test]
    fn lines_are_alike_in_number_and_not_too_long() {
        let mut counts = vec![0; LINE_KINDS.len() + 1];
        let mut long = 0;
        for line in Cases::new(7).take(50_000) {
            assert!(line.len() < 8000 && !line.contains(&b'\n'));
            long += usize::from(line.len() > 2000);
            counts[lines::judged(&line).0.unwrap_or(LINE_KINDS.len())] += 1;
        }
        // The last are malformed.
        assert!(
            counts.iter().all(|count| (1900..2400).contains(count)),
            "{counts:?}"
        );
        assert!((150..500).contains(&long), "{long}");
    }

    fn lines_of(line_kind: &LineKind, count: usize) -> Vec<String> {
        let mut random = Random::new(8);
        let mut line = || format!("{} {}", line_kind.word, (line_kind.make)(&mut random));
        (0..count).map(|_| line()).collect()
    }

    /// The numbers and places of the refusals among the answers to lines.
    fn refusals(lines: &[String]) -> Vec<(u32, usize)> {
        let refusal = |line: &String| {
            let answer = lines::answer(line.as_bytes());
            let (number, place) = answer.strip_prefix("refused ")?.split_once(' ')?;
            Some((number.parse().ok()?, place.parse().ok()?))
        };
        lines.iter().filter_map(refusal).collect()
    }

    /// With each of its numbers, also in the fixed list, and with no other.
    #[test]
    fn every_line_kind_is_refused() {
        for line_kind in LINE_KINDS {
            let word = format!("{} ", line_kind.word);
            let mut fixed = fixed::lines();
            fixed.retain(|line| line.starts_with(&word));
            let (fixed, random) = (refusals(&fixed), refusals(&lines_of(line_kind, 20_000)));
            for number in 1..=13 {
                let of_number = |refusal: &&(u32, usize)| refusal.0 == number;
                let often = random.iter().filter(of_number).count() > 100;
                let may = line_kind.refusals.contains(&number);
                assert_eq!(often, may, "{word} {number}");
                assert_eq!(
                    fixed.iter().any(|it| it.0 == number),
                    may,
                    "{word} {number}"
                );
            }
            assert!(random.len() < 12_000, "{word}");
        }
    }

    /// At every place that fields have, and at the ends of blocks of samples.
    #[test]
    fn every_place_is_refused() {
        for line_kind in LINE_KINDS {
            let places: &[usize] = match line_kind.word {
                "rmin" | "rmax" | "write" | "read" => &[0, 1, 2, 3, 4, 5, 6, 7, 8, 9, 10, 11],
                "row" | "rowclamp" => &[0, 1, 2, 3, 254, 255, 256, 257],
                _ => continue,
            };
            let refusals = refusals(&lines_of(line_kind, 40_000));
            for place in places {
                let there = refusals.iter().filter(|refusal| refusal.1 == *place);
                assert!(there.count() > 2, "{} {place}", line_kind.word);
            }
        }
    }

    /// Each pair of kinds in each way that an edge of the first one is converted
    /// or refused.
    #[test]
    fn every_pair_of_kinds_is_converted() {
        let number = |answer: Answer<Value>| answer.map_or_else(|refused| refused.0, |_| 0);
        let mut random = Random::new(34);
        for &from in Kind::ALL {
            for &to in Kind::ALL {
                let values = (0..500).map(|_| source(&mut random, from, to));
                let seen: Vec<u32> = values.map(|value| number(convert(value, to))).collect();
                for value in all_edges(from) {
                    let wanted = number(convert(value, to));
                    assert!(seen.contains(&wanted), "{value} {to:?} {wanted}");
                }
            }
        }
    }

    /// Powers of two, and others whose lower half of digits is 0: from every float
    /// kind, in every integer kind.
    #[test]
    fn whole_floats_end_in_zeros() {
        let mut random = Random::new(35);
        for from in Kind::floats() {
            for to in Kind::integers() {
                let values = (0..1000).map(|_| source(&mut random, from, to));
                let whole = values.filter(|&value| convert(value, to).is_ok() && !value.is_zero());
                let fractions = whole.map(|value| value.bits % from.unit());
                let (powers, others): (Vec<u64>, Vec<u64>) = fractions.partition(|&bits| bits == 0);
                let half = |bits: &u64| 2 * bits.trailing_zeros() >= from.fraction();
                assert!(!powers.is_empty(), "{from:?} {to:?}");
                assert!(others.iter().any(half), "{from:?} {to:?}");
            }
        }
    }

    #[test]
    fn spoiled_lines_are_malformed() {
        let mut random = Random::new(9);
        for line_kind in LINE_KINDS {
            let lines = lines_of(line_kind, 1000).into_iter();
            let spoiled = lines.map(|line| malformed::spoiled(&mut random, &line));
            let malformed = spoiled.filter(|line| lines::answer(line) == MALFORMED);
            let count = malformed.count();
            assert!(count > 850, "{} {count}", line_kind.word);
        }
    }
}
