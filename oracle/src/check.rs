//! Runs a program on made cases and compares its answers with our own.

use std::ffi::OsString;
use std::io::{self, Write};
use std::time::{Instant, SystemTime, UNIX_EPOCH};

use crate::cases::Cases;
use crate::lines::{self, LINE_KINDS, MALFORMED};
use crate::program;

pub const SHOWN_DIFFERENCES: usize = 20;
const SHOWN_BYTES: usize = 200;

/// Cases of each seed of a long run.
const SOAK_COUNT: usize = 1_000_000;

/// Answers whether the program agreed in all.
pub fn compare(
    seed: u64,
    count: usize,
    program: &[OsString],
    out: &mut impl Write,
) -> io::Result<bool> {
    let mut tally = Tally::default();
    let well = compare_seed(seed, count, program, &mut tally, out)?;
    tally.report(out)?;
    Ok(well)
}

/// Seed after seed, from one that is new at every run, until the time is over
/// or the program disagrees.
pub fn soak(seconds: u64, program: &[OsString], out: &mut impl Write) -> io::Result<bool> {
    let start = Instant::now();
    let now = SystemTime::now().duration_since(UNIX_EPOCH);
    let mut seed = now.map_or(0, |since| since.as_secs());
    let mut tally = Tally::default();
    let mut well = true;
    while well && start.elapsed().as_secs() < seconds {
        writeln!(out, "seed {seed}, {SOAK_COUNT} cases")?;
        out.flush()?;
        well = compare_seed(seed, SOAK_COUNT, program, &mut tally, out)?;
        seed += 1;
    }
    tally.report(out)?;
    Ok(well)
}

/// Adds to the tally, and answers whether the program agreed in all.
fn compare_seed(
    seed: u64,
    count: usize,
    program: &[OsString],
    tally: &mut Tally,
    out: &mut impl Write,
) -> io::Result<bool> {
    let cases = Cases::new(seed).take(count);
    let ended = program::ask(program, cases, |case, answer| {
        tally.judge(&case, answer, out)
    })?;
    if tally.missing > 0 {
        writeln!(out, "answers missing: {}", tally.missing)?;
    }
    Ok(ended.report(out)? && tally.differ == 0)
}

#[derive(Default)]
struct Tally {
    differ: usize,
    missing: usize,
    malformed: usize,
    per_line_kind: [usize; LINE_KINDS.len()],
}

impl Tally {
    fn judge(&mut self, case: &[u8], got: Option<Vec<u8>>, out: &mut impl Write) -> io::Result<()> {
        let (line_kind, answer) = lines::judged(case);
        match line_kind {
            Some(place) => self.per_line_kind[place] += 1,
            None => self.malformed += 1,
        }
        if got.as_deref() == Some(answer.as_bytes()) {
            return Ok(());
        }
        self.differ += 1;
        self.missing += usize::from(got.is_none());
        if self.differ > SHOWN_DIFFERENCES {
            return Ok(());
        }
        let wanted = answer.as_bytes();
        let from = got.as_ref().map_or(0, |got| differ_from(wanted, got));
        let got = got.map_or("(no line)".to_string(), |got| shown(&got, from));
        writeln!(out, "{} / {} / {got}", shown(case, 0), shown(wanted, from))
    }

    fn report(&self, out: &mut impl Write) -> io::Result<()> {
        let count = self.malformed + self.per_line_kind.iter().sum::<usize>();
        writeln!(out, "{count} cases, {} differ", self.differ)?;
        for (line_kind, count) in LINE_KINDS.iter().zip(self.per_line_kind) {
            write!(out, "{} {count}, ", line_kind.word)?;
        }
        writeln!(out, "{MALFORMED} {}", self.malformed)
    }
}

/// The place of the first byte that differs.
fn differ_from(wanted: &[u8], got: &[u8]) -> usize {
    let pairs = wanted.iter().zip(got);
    pairs.take_while(|(wanted, got)| wanted == got).count()
}

/// Bytes that don't print stand escaped, and a long line is cut so that the
/// byte at a place is seen.
pub fn shown(line: &[u8], place: usize) -> String {
    if line.len() <= SHOWN_BYTES {
        return line.escape_ascii().to_string();
    }
    let first = place.saturating_sub(SHOWN_BYTES / 2);
    let last = line.len().min(first + SHOWN_BYTES);
    format!(
        "{}{}{} ({} bytes)",
        if first > 0 { "..." } else { "" },
        line[first..last].escape_ascii(),
        if last < line.len() { "..." } else { "" },
        line.len()
    )
}

#[cfg(test)]
mod tests {
    use super::*;

    #[test]
    fn a_tally_counts_and_shows() {
        let mut out = Vec::new();
        let mut tally = Tally::default();
        let case = b"class f32:00000000";
        tally.judge(case, Some(b"zero".to_vec()), &mut out).unwrap();
        tally
            .judge(case, Some(b"zero\r".to_vec()), &mut out)
            .unwrap();
        tally.judge(b"", None, &mut out).unwrap();
        assert_eq!((tally.differ, tally.missing, tally.malformed), (2, 1, 1));
        let text = "class f32:00000000 / zero / zero\\r\n / malformed / (no line)\n";
        assert_eq!(String::from_utf8(out).unwrap(), text);
    }

    #[test]
    fn a_long_line_is_cut_where_it_differs() {
        let wanted = [b'a'; 500];
        let mut got = wanted;
        assert_eq!(differ_from(&wanted, &got[..300]), 300);
        got[450] = b'b';
        let from = differ_from(&wanted, &got);
        assert_eq!(from, 450);
        let (a, b) = (|count| "a".repeat(count), "b");
        let text = format!("...{}{b}{} (500 bytes)", a(100), a(49));
        assert_eq!(shown(&got, from), text);
        assert_eq!(shown(&wanted, 0), format!("{}... (500 bytes)", a(200)));
        assert_eq!(shown(&wanted[..200], 150), a(200));
    }
}
