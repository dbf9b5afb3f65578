//! The keys of many records of (u16, i16, f32), one at a time and in one call: keys NAME OF BITS, NAME FOR KEYS, TURNS. Prints two lines of the
//! table of bench/keys; the best turn counts.

#[path = "../bindings/rust/silamogo.rs"]
mod silamogo;

use std::time::Instant;

use silamogo::Kind;

const SHAPE: [Kind; 3] = [Kind::U16, Kind::I16, Kind::F32];
const BYTES: usize = 8;

fn best(turns: usize, mut run: impl FnMut()) -> f64 {
    let times = (0..turns).map(|_| {
        let start = Instant::now();
        run();
        start.elapsed().as_secs_f64()
    });
    times.fold(f64::MAX, f64::min)
}

fn main() -> Result<(), Box<dyn std::error::Error>> {
    let [_, bits, out, turns]: [String; 4] = std::env::args().collect::<Vec<_>>().try_into().expect("three arguments");
    let bits: Vec<u64> = std::fs::read(bits)?.chunks_exact(8).map(|word| u64::from_le_bytes(word.try_into().unwrap())).collect();
    let (count, turns) = (bits.len() / SHAPE.len(), turns.parse()?);
    let print = |way: &str, seconds: f64| println!("| Rust, {way} | {:.0} |", count as f64 / seconds / 1e3);

    let mut one_by_one = vec![0; count * BYTES];
    let seconds = best(turns, || {
        for (bits, key) in bits.chunks_exact(SHAPE.len()).zip(one_by_one.chunks_exact_mut(BYTES)) {
            silamogo::key_write(&SHAPE, bits, key).unwrap();
        }
    });
    print("`key_write` for each record", seconds);

    let (mut keys, mut lengths) = (vec![0; count * BYTES], vec![0; count]);
    let seconds = best(turns, || silamogo::keys_write(&SHAPE, &bits, &mut keys, &mut lengths).unwrap());
    print("`keys_write`", seconds);
    assert!(keys == one_by_one && lengths == vec![BYTES as u64; count], "keys differ");
    std::fs::write(out, keys)?;
    Ok(())
}
