//! The same sheet in Rust, for bench/sheet: of the f32 samples on standard input.
//!   sheet           by bits and positions, in one loop over a block of 131,072 bytes, as the proved program goes
//!   sheet classify  by Rust's own `classify` and `total_cmp`

use std::io::{self, Read};
use std::num::FpCategory;

const BLOCK: usize = 131_072;
const MOST: u64 = 4_294_967_295;

#[derive(Default)]
struct Sheet {
    samples: u64,
    classes: [u64; 5], // zero, subnormal, normal, infinite, nan
    lowest: Option<u32>,
    highest: Option<u32>,
}

fn position(bits: u32) -> i32 {
    bits as i32 ^ ((bits as i32 >> 31) as u32 >> 1) as i32
}

fn at(place: i32) -> u32 {
    (place ^ ((place >> 31) as u32 >> 1) as i32) as u32
}

fn samples(block: &[u8]) -> impl Iterator<Item = u32> + '_ {
    block
        .chunks_exact(4)
        .map(|b| u32::from_le_bytes([b[0], b[1], b[2], b[3]]))
}

fn by_loop(sheet: &mut Sheet, block: &[u8]) {
    let [mut zero, mut subnormal, mut normal, mut infinite, mut nan] = [0u32; 5];
    let mut low = sheet.lowest.map_or(i32::MAX, position);
    let mut high = sheet.highest.map_or(i32::MIN, position);
    for bits in samples(block) {
        let abs = bits & 0x7fff_ffff;
        let is_nan = 0x7f80_0000 < abs;
        zero += u32::from(abs == 0);
        subnormal += u32::from((0 < abs) & (abs < 0x0080_0000));
        normal += u32::from((0x0080_0000 <= abs) & (abs < 0x7f80_0000));
        infinite += u32::from(abs == 0x7f80_0000);
        nan += u32::from(is_nan);
        low = low.min(if is_nan { i32::MAX } else { position(bits) });
        high = high.max(if is_nan { i32::MIN } else { position(bits) });
    }
    let counts = [zero, subnormal, normal, infinite, nan];
    for (class, count) in sheet.classes.iter_mut().zip(counts) {
        *class += u64::from(count);
    }
    sheet.lowest = (low < i32::MAX).then(|| at(low));
    sheet.highest = (high > i32::MIN).then(|| at(high));
}

fn by_classify(sheet: &mut Sheet, block: &[u8]) {
    for bits in samples(block) {
        let sample = f32::from_bits(bits);
        sheet.classes[match sample.classify() {
            FpCategory::Zero => 0,
            FpCategory::Subnormal => 1,
            FpCategory::Normal => 2,
            FpCategory::Infinite => 3,
            FpCategory::Nan => 4,
        }] += 1;
        if !sample.is_nan() {
            if sheet
                .lowest
                .map_or(true, |low| sample.total_cmp(&f32::from_bits(low)).is_lt())
            {
                sheet.lowest = Some(bits);
            }
            if sheet
                .highest
                .map_or(true, |high| sample.total_cmp(&f32::from_bits(high)).is_gt())
            {
                sheet.highest = Some(bits);
            }
        }
    }
}

fn main() -> io::Result<()> {
    let tell = match std::env::args().nth(1).as_deref() {
        Some("classify") => by_classify,
        _ => by_loop,
    };
    let mut input = io::stdin().lock();
    let mut buffer = vec![0; BLOCK];
    let mut sheet = Sheet::default();
    let mut tail = 0;
    while sheet.samples < MOST {
        let room = (4 * (MOST - sheet.samples)).min(BLOCK as u64) as usize;
        let mut came = 0;
        while came < room {
            match input.read(&mut buffer[came..room])? {
                0 => break,
                more => came += more,
            }
        }
        tell(&mut sheet, &buffer[..came]);
        sheet.samples += came as u64 / 4;
        tail = came % 4;
        if came < room {
            break;
        }
    }
    let names = ["zero", "subnormal", "normal", "infinite", "nan"];
    let mut lines = format!("samples={}\n", sheet.samples);
    for (name, count) in names.iter().zip(sheet.classes) {
        lines += &format!("{name}={count}\n");
    }
    for (name, found) in [("lowest", sheet.lowest), ("highest", sheet.highest)] {
        let bits = found.map_or("-".to_string(), |bits| format!("{bits:08x}"));
        lines += &format!("{name}={bits}\n");
    }
    print!("{lines}tail={tail}\n");
    Ok(())
}
