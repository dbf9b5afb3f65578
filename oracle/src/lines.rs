//! The line kinds, and the answer to a line.

use crate::random::Random;
use crate::{grammar, judge, operands, rules};

/// Random operands, parted by one space.
type Make = fn(&mut Random) -> String;
/// The answer to operands; nothing when they aren't of the grammar.
type Reply = fn(&[&[u8]]) -> Option<String>;

pub struct LineKind {
    pub word: &'static str,
    pub make: Make,
    /// By Rust's own bodies.
    pub judge: Reply,
    /// In whole numbers, the same by another way.
    pub rule: Reply,
    /// The numbers that it may be refused with, in the order of docs/RULES.md.
    pub refusals: &'static [u32],
}

macro_rules! line_kinds {
    ($(
        $word:literal $makers:ident::$make:ident $read:ident $calls:ident::$call:ident
        $refusals:tt;
    )+) => {
        pub const LINE_KINDS: &[LineKind] = &[$(LineKind {
            word: $word,
            make: operands::$makers::$make,
            judge: |operands| grammar::$read(operands, judge::$calls::$call),
            rule: |operands| grammar::$read(operands, rules::$calls::$call),
            refusals: &$refusals,
        }),+];
    };
}

// A line kind is added here: its word, what makes its operands (operands/), what
// reads them (grammar.rs), the call that answers, in judge/ and in rules/, and
// the numbers of its refusals.
line_kinds! {
    "class" value::float float order::class [];
    "compare" value::pair pair order::compare [7];
    "total" value::pair pair order::total [7];
    "eq" value::pair pair order::eq [7];
    "ne" value::pair pair order::ne [7];
    "lt" value::pair pair order::lt [7];
    "le" value::pair pair order::le [7];
    "gt" value::pair pair order::gt [7];
    "ge" value::pair pair order::ge [7];
    "min" choice::pair pair choice::min [7, 8];
    "max" choice::pair pair choice::max [7, 8];
    "clamp" choice::clamp three choice::clamp [7, 6, 8];
    "rowclamp" row::rowclamp bounds_row choice::rowclamp [6, 8];
    "convert" convert::convert value_to convert::convert [1, 2, 13, 3, 4, 5];
    "row" row::row row_to convert::row [9, 1, 2, 13, 3, 4];
    "rcompare" record::pair records record::compare [11, 7];
    "rmin" record::pair records record::min [11, 7, 8];
    "rmax" record::pair records record::max [11, 7, 8];
    "write" key::write record_room key::write [11, 10, 1];
    "read" key::read shape_key key::read [11, 9, 12];
    "prefixmin" prefix::rows byte_rows prefix::min [];
    "prefixmax" prefix::rows byte_rows prefix::max [];
}

pub const MALFORMED: &str = "malformed";

/// The place of a line's word in `LINE_KINDS`, and its operands.
pub fn split(line: &[u8]) -> Option<(usize, Vec<&[u8]>)> {
    let mut fields = line.split(|&byte| byte == b' ');
    let word = fields.next()?;
    let mut words = LINE_KINDS.iter().map(|line_kind| line_kind.word.as_bytes());
    let place = words.position(|known| known == word)?;
    Some((place, fields.collect()))
}

/// The answer to a line without its newline, and the place of its line kind in
/// `LINE_KINDS`; none for a malformed line.
pub fn judged(line: &[u8]) -> (Option<usize>, String) {
    let answer = split(line).and_then(|(place, operands)| {
        let answer = (LINE_KINDS[place].judge)(&operands)?;
        Some((Some(place), answer))
    });
    answer.unwrap_or_else(|| (None, MALFORMED.to_string()))
}

pub fn answer(line: &[u8]) -> String {
    judged(line).1
}

/// A random line of any kind.
pub fn random_line(random: &mut Random) -> String {
    let line_kind = &LINE_KINDS[random.below(LINE_KINDS.len())];
    format!("{} {}", line_kind.word, (line_kind.make)(random))
}
