//! Random cases of every call: those of the oracle's case lines, and those that
//! only the boundary has, with numbers that name no kind and the like.

use crate::calls::same;
use crate::{lines, raw};
use oracle::lines::LINE_KINDS;
use oracle::random::Random;

/// So many cases, a quarter of them the boundary's own. What was done, or the
/// first case that differs.
pub fn cases((seed, count): (u64, u64)) -> Result<String, String> {
    let mut random = Random::new(seed);
    for _ in 0..count {
        if random.one_in(4) {
            raw::case(&mut random)?;
            continue;
        }
        let (word, call) = random.pick(lines::CALLS);
        let line_kind = LINE_KINDS.iter().find(|line_kind| line_kind.word == word);
        let line_kind = line_kind.expect("a word of case lines");
        let operands = (line_kind.make)(&mut random);
        let fields: Vec<&[u8]> = operands.split(' ').map(str::as_bytes).collect();
        let wanted = (line_kind.judge)(&fields).unwrap_or_default();
        let got = call(&fields).unwrap_or_default();
        same(&format!("{word} {operands}"), &wanted, &got)?;
    }
    let done = format!("seed {seed}, {count} cases");
    Ok(format!("boundary: {done}, none differs"))
}
