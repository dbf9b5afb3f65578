//! Mistakes that look right. Each gives wrong answers to some lines of its words,
//! and the fixed list and the random cases have to show it.

use crate::cases::Cases;
use crate::fixed;
use crate::judge::convert::{nearest, number};
use crate::lines;
use crate::value::{Kind, Value};

/// A line in its fields, and the right answer.
struct Case<'a> {
    fields: Vec<&'a str>,
    right: String,
}

fn ask(line: &str) -> String {
    lines::answer(line.as_bytes())
}

impl Case<'_> {
    fn new(line: &str) -> Case<'_> {
        let fields = line.split(' ').collect();
        let right = ask(line);
        Case { fields, right }
    }

    /// A wrong answer where something holds.
    fn when(&self, holds: bool, wrong: &str) -> String {
        if holds { wrong } else { &self.right }.to_string()
    }

    /// Part of the answer turned into another.
    fn turned(&self, from: &str, to: &str) -> String {
        self.right.replace(from, to)
    }

    /// The answer to the line with another field.
    fn with(&self, place: usize, field: &str) -> String {
        let mut fields = self.fields.clone();
        fields[place] = field;
        ask(&fields.join(" "))
    }

    fn by(&self, word: &str) -> String {
        self.with(0, word)
    }

    fn is_refused(&self, number: u32) -> bool {
        self.right.starts_with(&format!("refused {number} "))
    }

    /// A refusal with another place.
    fn placed(&self, other: fn(usize) -> usize) -> String {
        match self.right.rsplit_once(' ') {
            Some((refused, place)) if refused.starts_with("refused") => {
                format!("{refused} {}", other(place.parse().expect("a place")))
            }
            _ => self.right.clone(),
        }
    }

    /// Whether there is a NaN among the values or samples.
    fn nan(&self, place: usize) -> bool {
        let is_nan = |kind: &str, item: &str| ask(&format!("class {kind}{item}")) == "nan";
        let mut items = self.fields[place].split(',');
        items.any(|item| is_nan("", item) || is_nan("f32:", item))
    }

    /// The answer to the line with a part of its text turned into another.
    fn read_as(&self, from: &str, to: &str) -> String {
        ask(&self.fields.join(" ").replace(from, to))
    }

    /// Whether an operand that begins so is converted to what begins so.
    fn gives(&self, from: &str, to: &str) -> bool {
        self.fields[1].starts_with(from) && self.right.starts_with(to)
    }

    /// Whether the answer's last binary digit is set.
    fn gives_odd(&self) -> bool {
        self.right
            .ends_with(['1', '3', '5', '7', '9', 'b', 'd', 'f'])
    }

    /// The first operand, which is one value.
    fn value(&self) -> Value {
        Value::parse(self.fields[1].as_bytes()).expect("a value")
    }

    fn bits(&self) -> u64 {
        self.value().bits
    }

    fn nearest_f16(&self) -> String {
        nearest(number(self.value()), Kind::F16).to_string()
    }

    /// Whether a value is converted to the kind.
    fn to(&self, kind: &str) -> bool {
        self.fields[2] == kind
    }

    /// The f32 of an f16, made as if every number had a digit in front.
    fn widened(&self) -> String {
        format!("f32:{:08x}", (self.bits() << 13) + 0x3800_0000)
    }

    fn minus_zero(&self) -> bool {
        let value = Value::parse(self.fields[1].as_bytes());
        value.is_some_and(|value| value.bits != 0 && value.is_zero())
    }

    /// Zero in the kind that is asked for.
    fn masked_as_zero(&self) -> String {
        self.with(1, "u8:00")
    }

    fn first_fields(&self) -> String {
        let firsts = self.fields.iter().map(|field| field.split(',').next());
        ask(&firsts.map(Option::unwrap).collect::<Vec<&str>>().join(" "))
    }

    /// The last sample that is refused decides.
    fn last_refused(&self) -> String {
        let room = if self.fields[0] == "row" { " 1" } else { "" };
        let samples: Vec<&str> = self.fields[3].split(',').collect();
        for (place, sample) in samples.into_iter().enumerate().rev() {
            let alone = ask(&format!("{} {sample}{room}", self.fields[..3].join(" ")));
            if let Some(refused) = alone.strip_suffix(" 0") {
                return self.when(
                    self.right.starts_with(refused),
                    &format!("{refused} {place}"),
                );
            }
        }
        self.right.clone()
    }

    fn k(&self) -> usize {
        self.fields[1].parse().expect("a number")
    }
}

/// Its name, the words of its lines, and the answer that it gives.
type Mistake = (&'static str, &'static str, fn(&Case) -> String);

macro_rules! mistakes {
    ($list:ident of $c:ident: $($name:literal, $words:literal => $wrong:expr;)+) => {
        const $list: &[Mistake] = &[$(($name, $words, |$c| $wrong)),+];
    };
}

mistakes! { OF_VALUES of c:
    "subnormal as normal", "class" => c.turned("subnormal", "normal");
    "comparison by total order", "compare" => c.by("total");
    "total order by comparison", "total" => c.by("compare");
    "f32 by raw bits", "compare total" => c.read_as("f32", "u32");
    "f64 by raw bits", "compare total" => c.read_as("f64", "u64");
    "f16 by raw bits", "compare total" => c.read_as("f16", "u16");
    "no sign", "compare total lt" => c.read_as(" i", " u");
    "NaN is itself", "compare" => c.when(c.fields[1] == c.fields[2], "Equal");
    "ne of a NaN", "ne" => c.when(c.by("compare") == "Unordered", "no");
    "le is not gt", "le" => c.when(c.by("gt") == "no", "yes");
    "ge is not lt", "ge" => c.when(c.by("lt") == "no", "yes");
    "second on a tie", "min" => c.when(c.by("compare") == "Equal", c.fields[2]);
    "first on a tie", "max" => c.when(c.by("compare") == "Equal", c.fields[1]);
    "8 before 7", "min max" => c.when(c.nan(1) || c.nan(2), "refused 8 0");
    "8 before 6", "clamp" => c.when(c.is_refused(6) && c.nan(1), "refused 8 0");
    "6 before 7", "clamp" => c.when(c.is_refused(7) && c.nan(2), "refused 6 0");
    "a NaN is no bound", "clamp" => c.when(c.nan(2) || c.nan(3), c.fields[1]);
    "minus zero is lost", "clamp" => c.turned("f32:80000000", "f32:00000000");
    "4 for 5", "convert" => c.turned("refused 5", "refused 4");
    "5 for 4", "convert row" => c.turned("refused 4", "refused 5");
    "4 before 3", "convert" => c.when(c.gives("f32:4", "refused 3"), "refused 4 0");
    "2 before 1", "convert row" => c.turned("refused 1 ", "refused 2 ");
    "none above 2^53", "convert" => c.when(c.bits() > 1 << 53 && c.gives("u64", "f64"), "refused 5 0");
    "the last digit is a fraction", "convert" => c.when(c.gives("f", "u") && c.gives_odd(), "refused 3 0");
    "zero is a fraction", "convert" => c.when(c.gives("f", "i") && c.value().is_zero(), "refused 3 0");
    "no negative is whole", "convert" => c.when(c.gives("f32:c", "i"), "refused 3 0");
    "minus zero is below", "convert" => c.when(c.is_refused(13) && c.fields[2].starts_with('u'), "refused 4 0");
    "minus zero is 0", "convert" => c.when(c.is_refused(13), &c.masked_as_zero());
    "minus zero has a fraction", "convert row" => c.turned("refused 13", "refused 3");
    "no zero is taken", "convert" => c.when(c.gives("f", "i") && c.value().is_zero(), "refused 13 0");
    "minus zero stops at floats", "convert" => c.when(c.minus_zero() && c.gives("f", "f"), "refused 13 0");
    "a minus sign is minus zero", "convert" => c.when(c.gives("f32:c", "i"), "refused 13 0");
    "rounded to 0", "convert" => c.when(c.gives("f64:3", "refused 5"), "f32:00000000");
    "f16 ends at 65536", "convert" => c.when(c.to("f16") && c.gives("u16", "refused 4"), "refused 5 0");
    "rounded to f16", "convert" => c.when(c.to("f16") && c.is_refused(5), &c.nearest_f16());
    "past f16 is infinite", "convert" => c.when(c.to("f16") && c.is_refused(4), "f16:7c00");
    "infinite is past f16", "convert" => c.when(c.gives("f", "f16:7c00"), "refused 4 0");
    "no subnormal f16", "convert" => c.when(c.gives("f", "f16:00"), "f16:0000");
    "small f16 as normal", "class" => c.when(c.gives("f16", "subnormal"), "normal");
    "small f16 widened as normal", "convert" => c.when(c.gives("f16:0", "f32:3") && c.bits() < 0x400, &c.widened());
    "NaN bits change", "convert" => c.when(c.nan(1) && c.gives("f", "f"), "f32:7fc00000");
}

mistakes! { OF_LISTS of c:
    "places from 1", "rowclamp row rmin rmax write read" => c.placed(|place| place + 1);
    "places in a block", "rowclamp row" => c.placed(|place| place % 256);
    "no places", "rowclamp row rmin rmax write read" => c.placed(|_| 0);
    "the last is refused", "rowclamp row" => c.last_refused();
    "no bounds for no sample", "rowclamp" => c.when(c.fields[3] == "-", "-");
    "8 before 6", "rowclamp" => c.when(c.is_refused(6) && c.nan(3), "refused 8 0");
    "1 before 9", "row" => c.when(c.is_refused(9) && c.nan(3), "refused 1 0");
    "a mask is 0", "row" => c.read_as("80000000", "00000000");
    "a mask is passed over", "row" => c.when(c.is_refused(13), &c.read_as("80000000", "3f800000"));
    "the shorter length", "row" => c.when(c.is_refused(9) && c.fields[4] == "0", "-");
    "first fields alone", "rcompare" => c.first_fields();
    "any NaN is Unordered", "rcompare" => c.when(c.nan(1) || c.nan(2), "Unordered");
    "7 before 11", "rcompare rmin rmax" => c.turned("refused 11", "refused 7");
    "8 before 7", "rmin rmax" => c.when(c.is_refused(7) && c.nan(1), "refused 8 0");
    "second on a tie", "rmin" => c.when(c.by("rcompare") == "Equal", c.fields[2]);
    "first on a tie", "rmax" => c.when(c.by("rcompare") == "Equal", c.fields[1]);
    "1 before 10", "write" => c.when(c.is_refused(10) && c.nan(1), "refused 1 0");
    "10 before 11", "write" => c.when(c.fields[2] == "0", "refused 10 0");
    "the rest is cleared", "write" => c.turned("a5", "00");
    "minus zero written", "write" => c.when(c.minus_zero(), &c.turned("80", "7f"));
    "minus zero read", "read" => c.when(c.fields[2] == "7fffffff", "f32:80000000");
    "NaN read", "read" => c.when(c.gives("f32", "refused 12 0"), "f32:7fc00000");
    "9 before 11", "read" => c.turned("refused 11", "refused 9");
    "12 before 9", "read" => c.turned("refused 9", "refused 12");
    "all of the rows", "prefixmin prefixmax" => c.with(1, "18446744073709551615");
    "32 bits of k", "prefixmin prefixmax" => c.with(1, &(c.k() % (1 << 32)).to_string());
    "one too many", "prefixmin prefixmax" => c.with(1, &c.k().saturating_add(1).to_string());
    "cut", "prefixmin prefixmax" => c.right.chars().take(c.k().clamp(1, 600) * 2).collect();
    "the first on a tie", "prefixmax" => c.when(c.k() == 0, c.fields[2]);
    "the second on a tie", "prefixmin" => c.when(c.k() == 0, c.fields[3]);
}

// Of lines that are malformed, whatever their words.
mistakes! { OF_LINES of c:
    "trimmed", "" => ask(c.fields.join(" ").trim());
    "many spaces as one", "" => c.read_as("  ", " ");
    "upper case", "" => ask(&c.fields.join(" ").to_ascii_lowercase());
    "more operands", "" => ask(&c.fields[..c.fields.len() - 1].join(" "));
    "zeros in front", "" => c.read_as(" 0", " ");
}

/// How many of the cases show a mistake.
fn shown((_, words, answer): Mistake, cases: &[Case]) -> usize {
    let shows = |case: &&Case| {
        let is_about = match case.right == lines::MALFORMED {
            true => words.is_empty(),
            false => words.split(' ').any(|word| word == case.fields[0]),
        };
        is_about && answer(case) != case.right
    };
    cases.iter().filter(shows).count()
}

fn check(lines: &[String], least: usize) {
    let cases: Vec<Case> = lines.iter().map(|line| Case::new(line)).collect();
    let mistakes = OF_VALUES.iter().chain(OF_LISTS).chain(OF_LINES);
    let counts = mistakes.map(|&mistake| (shown(mistake, &cases), mistake.0, mistake.1));
    let missed: Vec<_> = counts.filter(|&(count, ..)| count < least).collect();
    assert!(missed.is_empty(), "{missed:?}");
}

#[test]
fn the_fixed_list_shows_each() {
    check(&fixed::lines(), 1);
}

/// A third of one of the gate's seeds.
#[test]
fn random_cases_show_each() {
    let lines = Cases::new(11).take(60_000);
    let lines: Vec<String> = lines
        .filter_map(|line| String::from_utf8(line).ok())
        .collect();
    check(&lines, 3);
}
