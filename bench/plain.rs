//! Reads a file by blocks and writes as many samples of another kind's width: what reading and writing allow. With `convert` it moves the samples
//! in between, as `migrate` does: u8 to u16, u16 to f32, u16 to u8, f32 to u16 or f16 to f32, and ends at a sample that isn't held (bench/migrate,
//! bench/blocks). The blocks are migrate's, unless their samples are given.
//!   plain FROM TO IN OUT [SAMPLES] [convert]
use std::fs::File;
use std::io::{Read, Write};

// f16 to f32 goes through the same table as in `migrate`: the number at place m is m over 2^24, which an f32 holds exactly.
type Table = [u32; 1024];

fn table() -> Table {
    std::array::from_fn(|m| (m as f32 / 16_777_216.0).to_bits())
}

// Exponent field 0 by the table, an infinity and the normal numbers by arithmetic: the exponent's bias is larger by 112.
fn half(table: &Table, bits: u16) -> u32 {
    let abs = bits & 0x7fff;
    let wide = match abs {
        0..=0x3ff => table[usize::from(abs)],
        0x7c00 => 0x7f80_0000,
        _ => (u32::from(abs) << 13) + (112 << 23),
    };
    wide | u32::from(bits & 0x8000) << 16
}

// Whether every sample is held. Not inlined: a function's own slices are known to lie apart, and u16 to f32 takes half as long then.
#[inline(never)]
fn convert(from: &str, to: &str, table: &Table, src: &[u8], dst: &mut [u8]) -> bool {
    let mut held = true;
    match (from, to) {
        ("u8", "u16") => {
            for (x, y) in src.iter().zip(dst.chunks_exact_mut(2)) {
                y.copy_from_slice(&u16::from(*x).to_le_bytes());
            }
        }
        ("u16", "f32") => {
            for (x, y) in src.chunks_exact(2).zip(dst.chunks_exact_mut(4)) {
                y.copy_from_slice(&f32::from(u16::from_le_bytes([x[0], x[1]])).to_le_bytes());
            }
        }
        // a NaN is looked for before anything is written
        ("f16", "f32") => {
            for x in src.chunks_exact(2) {
                held &= u16::from_le_bytes([x[0], x[1]]) & 0x7fff <= 0x7c00;
            }
            if held {
                for (x, y) in src.chunks_exact(2).zip(dst.chunks_exact_mut(4)) {
                    y.copy_from_slice(&half(table, u16::from_le_bytes([x[0], x[1]])).to_le_bytes());
                }
            }
        }
        ("u16", "u8") => {
            for (x, y) in src.chunks_exact(2).zip(dst) {
                *y = x[0];
                held &= x[1] == 0;
            }
        }
        ("f32", "u16") => {
            for (x, y) in src.chunks_exact(4).zip(dst.chunks_exact_mut(2)) {
                let x = f32::from_le_bytes([x[0], x[1], x[2], x[3]]);
                let n = x as u16;
                y.copy_from_slice(&n.to_le_bytes());
                held &= f32::from(n) == x;
            }
        }
        _ => panic!("no conversion from {from} to {to}"),
    }
    held
}

fn main() -> std::io::Result<()> {
    let mut words: Vec<String> = std::env::args().collect();
    let converts = words.last().is_some_and(|word| word == "convert");
    words.truncate(words.len() - usize::from(converts));
    let [from, to] = [1, 2].map(|i: usize| words[i][1..].parse::<usize>().unwrap() / 8); // bytes of a sample
    let table = table();
    let mut input = File::open(&words[3])?;
    let mut output = File::create(&words[4])?;
    let samples = match words.len() {
        6 => words[5].parse().unwrap(),
        _ if from < to => 262144 / to,
        _ => 32768,
    };
    let mut src = vec![0u8; samples * from];
    let mut dst = vec![0u8; samples * to];
    loop {
        let mut got = 0;
        while got < src.len() {
            match input.read(&mut src[got..])? {
                0 => break,
                more => got += more,
            }
        }
        if converts && !convert(&words[1], &words[2], &table, &src[..got], &mut dst) {
            println!("refused");
            return Ok(());
        }
        output.write_all(&dst[..got / from * to])?;
        if got < src.len() {
            println!("refused=0");
            return Ok(());
        }
    }
}
