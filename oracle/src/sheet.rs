//! The sheet of a strip of f32 samples: classes by `classify`, lowest and
//! highest by `total_cmp`. Made strips are given to a program in parts.

use std::cmp::Ordering;
use std::ffi::OsString;
use std::io::{self, Read, Write};
use std::num::FpCategory;
use std::thread;

use crate::check::{shown, SHOWN_DIFFERENCES};
use crate::edges::edges;
use crate::program;
use crate::random::Random;
use crate::value::Kind;

/// No more samples than this are told.
const MOST: u64 = 4_294_967_295;

/// What a program may read at once; lengths around it are tried.
const BLOCK: usize = 131_072;

#[derive(Default)]
struct Sheet {
    samples: u64,
    zero: u64,
    subnormal: u64,
    normal: u64,
    infinite: u64,
    nan: u64,
    lowest: Option<f32>,
    highest: Option<f32>,
}

impl Sheet {
    fn note(&mut self, sample: f32) {
        self.samples += 1;
        *match sample.classify() {
            FpCategory::Zero => &mut self.zero,
            FpCategory::Subnormal => &mut self.subnormal,
            FpCategory::Normal => &mut self.normal,
            FpCategory::Infinite => &mut self.infinite,
            FpCategory::Nan => &mut self.nan,
        } += 1;
        if !sample.is_nan() {
            farther(&mut self.lowest, sample, Ordering::Less);
            farther(&mut self.highest, sample, Ordering::Greater);
        }
    }

    fn lines(&self, tail: usize) -> String {
        let bits = |found: Option<f32>| match found {
            Some(sample) => format!("{:08x}", sample.to_bits()),
            None => "-".to_string(),
        };
        format!(
            "samples={}\nzero={}\nsubnormal={}\nnormal={}\ninfinite={}\nnan={}\n\
             lowest={}\nhighest={}\ntail={tail}\n",
            self.samples,
            self.zero,
            self.subnormal,
            self.normal,
            self.infinite,
            self.nan,
            bits(self.lowest),
            bits(self.highest),
        )
    }
}

fn farther(found: &mut Option<f32>, sample: f32, way: Ordering) {
    if found.map_or(true, |found| sample.total_cmp(&found) == way) {
        *found = Some(sample);
    }
}

/// The sheet of all that comes, up to the greatest number of samples.
pub fn sheet(input: impl Read) -> io::Result<String> {
    limited(input, MOST)
}

fn limited(input: impl Read, most: u64) -> io::Result<String> {
    let mut input = io::BufReader::with_capacity(1 << 20, input);
    let mut sheet = Sheet::default();
    while sheet.samples < most {
        let mut bytes = [0; 4];
        let mut came = 0;
        while came < 4 {
            match input.read(&mut bytes[came..])? {
                0 => return Ok(sheet.lines(came)),
                more => came += more,
            }
        }
        sheet.note(f32::from_le_bytes(bytes));
    }
    Ok(sheet.lines(0))
}

/// Gives so many made strips to a program, each in a run of its own, and
/// compares what it writes with the sheet.
pub fn strips(
    seed: u64,
    count: usize,
    words: &[OsString],
    out: &mut impl Write,
) -> io::Result<bool> {
    let mut random = Random::new(seed);
    let mut differ = 0;
    let mut bytes = 0;
    for _ in 0..count {
        let strip = strip(&mut random);
        bytes += strip.len();
        let wanted = sheet(&strip[..])?;
        let (got, well) = told(words, strip, parts(&mut random))?;
        if got == wanted.as_bytes() && well {
            continue;
        }
        differ += 1;
        if differ <= SHOWN_DIFFERENCES {
            writeln!(out, "{} / {}", shown(wanted.as_bytes(), 0), shown(&got, 0))?;
        }
    }
    writeln!(out, "{count} strips, {bytes} bytes, {differ} differ")?;
    Ok(differ == 0)
}

/// What the program writes, and whether it ended well.
fn told(words: &[OsString], strip: Vec<u8>, mut part: Parts) -> io::Result<(Vec<u8>, bool)> {
    let mut child = program::start(words)?;
    let mut input = child.stdin.take().expect("a piped input");
    // A program that stops reading shows by what it writes.
    let writer = thread::spawn(move || {
        let mut rest = &strip[..];
        while !rest.is_empty() {
            let (now, later) = rest.split_at(part.next().min(rest.len()));
            if input.write_all(now).is_err() {
                break;
            }
            rest = later;
        }
    });
    let mut got = Vec::new();
    let mut output = child.stdout.take().expect("a piped output");
    output.read_to_end(&mut got)?;
    writer.join().expect("the writing thread");
    Ok((got, child.wait()?.success()))
}

/// The lengths of the parts in which a pipe gives a strip: all alike, or of
/// any length up to the greatest.
struct Parts {
    random: Random,
    most: usize,
    alike: bool,
}

impl Parts {
    fn next(&mut self) -> usize {
        match self.alike {
            true => self.most,
            false => 1 + self.random.below(self.most),
        }
    }
}

fn parts(random: &mut Random) -> Parts {
    Parts {
        most: random.pick(&[1, 3, 4095, 4096, 65_536, BLOCK, 1 << 20]),
        alike: random.one_in(2),
        random: Random::new(random.next()),
    }
}

/// Some samples and up to three bytes more. Few bytes are as likely as a block
/// or two, and a byte or some more or less than these.
fn strip(random: &mut Random) -> Vec<u8> {
    let around = random.pick(&[0, 8, 40, 400, BLOCK, 2 * BLOCK]);
    let length = (around + random.below(10)).saturating_sub(5);
    let patterns = patterns();
    // some strips have one sample over and over, or few of them
    let few: Vec<u32> = (0..1 + random.below(6))
        .map(|_| random.pick(&patterns))
        .collect();
    let from = random.below(3);
    let mut strip = Vec::with_capacity(length + 4);
    while strip.len() < length {
        let sample = match from {
            0 => random.pick(&few),
            1 => random.pick(&patterns),
            _ => random.next() as u32,
        };
        strip.extend(sample.to_le_bytes());
    }
    strip.truncate(length);
    strip
}

/// The edges of f32 and their neighbours, with either sign.
fn patterns() -> Vec<u32> {
    let near = |edge: u64| [edge.saturating_sub(1), edge, edge + 1];
    let clear = edges(Kind::F32).into_iter().flat_map(near);
    clear
        .map(|edge| edge as u32 & 0x7fff_ffff)
        .flat_map(|edge| [edge, edge | 0x8000_0000])
        .collect()
}

#[cfg(test)]
mod tests {
    use super::*;

    fn of(samples: &[u32], left: &[u8]) -> String {
        let bytes: Vec<u8> = samples.iter().flat_map(|bits| bits.to_le_bytes()).collect();
        sheet(&[&bytes[..], left].concat()[..]).unwrap()
    }

    fn text(counts: [u64; 6], lowest: &str, highest: &str, tail: u64) -> String {
        let [samples, zero, subnormal, normal, infinite, nan] = counts;
        format!(
            "samples={samples}\nzero={zero}\nsubnormal={subnormal}\nnormal={normal}\n\
             infinite={infinite}\nnan={nan}\nlowest={lowest}\nhighest={highest}\ntail={tail}\n"
        )
    }

    /// The same in whole numbers, over the bits alone.
    fn whole_numbers(strip: &[u8]) -> String {
        let bits: Vec<u32> = strip
            .chunks_exact(4)
            .map(|b| {
                u32::from(b[0])
                    | u32::from(b[1]) << 8
                    | u32::from(b[2]) << 16
                    | u32::from(b[3]) << 24
            })
            .collect();
        let count = |low: u32, end: u32| {
            let abs = bits.iter().map(|bits| bits & 0x7fff_ffff);
            abs.filter(|&abs| low <= abs && abs < end).count() as u64
        };
        let place = |bits: u32| match bits >> 31 {
            0 => i64::from(bits),
            _ => -1 - i64::from(bits & 0x7fff_ffff),
        };
        let mut numbers: Vec<u32> = bits.clone();
        numbers.retain(|bits| bits & 0x7fff_ffff <= 0x7f80_0000);
        numbers.sort_by_key(|&bits| place(bits));
        let hex = |found: Option<&u32>| found.map_or("-".to_string(), |bits| format!("{bits:08x}"));
        let counts = [
            bits.len() as u64,
            count(0, 1),
            count(1, 0x0080_0000),
            count(0x0080_0000, 0x7f80_0000),
            count(0x7f80_0000, 0x7f80_0001),
            count(0x7f80_0001, 0x8000_0000),
        ];
        let (lowest, highest) = (hex(numbers.first()), hex(numbers.last()));
        text(counts, &lowest, &highest, strip.len() as u64 % 4)
    }

    #[test]
    fn by_hand() {
        let four = [0x0000_0000, 0x8000_0000, 0x3f80_0000, 0x7f80_0000];
        assert_eq!(
            of(&four, &[]),
            text([4, 2, 0, 1, 1, 0], "80000000", "7f800000", 0)
        );
        assert_eq!(of(&[], &[]), text([0; 6], "-", "-", 0));
        assert_eq!(of(&[], &[1, 2, 3]), text([0; 6], "-", "-", 3));
        let nans = [0x7f80_0001, 0xffff_ffff, 0x7fc0_0000];
        assert_eq!(of(&nans, &[9]), text([3, 0, 0, 0, 0, 3], "-", "-", 1));
        let ends = [0x0080_0000, 0x007f_ffff, 0xff80_0000, 0x0000_0001];
        assert_eq!(
            of(&ends, &[]),
            text([4, 0, 2, 1, 1, 0], "ff800000", "00800000", 0)
        );
    }

    #[test]
    fn made_strips_by_the_rules_in_whole_numbers() {
        let mut random = Random::new(1);
        for _ in 0..300 {
            let strip = strip(&mut random);
            assert_eq!(sheet(&strip[..]).unwrap(), whole_numbers(&strip));
        }
    }

    #[test]
    fn reading_stops() {
        let strip: Vec<u8> = (0..23).collect();
        let cut = |most| limited(&strip[..], most).unwrap();
        assert_eq!(cut(5), sheet(&strip[..20]).unwrap());
        assert_eq!(cut(6), sheet(&strip[..]).unwrap());
        assert_eq!(cut(0), sheet(&strip[..0]).unwrap());
    }
}
