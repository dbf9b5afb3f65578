//! Silamogo from Rust: what would have saved the glass negatives, then each family of calls once.

mod silamogo;

use silamogo::{Kind, Sample};

/// 16-bit greys to 8 bits: a grey that 8 bits don't have is told with its place, and nothing is written.
fn rows() -> silamogo::Result<()> {
    let greys = [0u16, 17, 255, 256, 4095, 65535];
    let mut narrow = [9u8; 6];
    match silamogo::row_u16_to_u8(&greys, &mut narrow) {
        Ok(()) => println!("six greys to 8 bits: done"),
        Err(refusal) => println!("six greys to 8 bits: {refusal}; the row is {narrow:?}"),
    }
    silamogo::row_u16_to_u8(&greys[..3], &mut narrow[..3])?;
    println!("the first three: {narrow:?}");
    println!("three into six: {:?}", silamogo::row_u16_to_u8(&greys[..3], &mut narrow));
    println!("none: {:?}", silamogo::row_u16_to_u8(&[], &mut []));

    let (mut wide, mut floats, mut back) = ([0; 6], [0.0; 6], [0; 6]);
    silamogo::row_u8_to_u16(&narrow, &mut wide)?;
    silamogo::row_u16_to_f32(&wide, &mut floats)?;
    silamogo::row_f32_to_u16(&floats, &mut back)?;
    println!("to 16 bits, floats and back: {wide:?} {floats:?} {}", wide == back);
    floats[4] = 0.5;
    println!("a half to 16 bits: {:?}", silamogo::row_f32_to_u16(&floats, &mut back));
    floats[4] = -0.0;
    println!("a masked pixel to 16 bits: {:?}", silamogo::row_f32_to_u16(&floats, &mut back));

    let mut light = [-0.25, 0.5, 1.5];
    silamogo::row_clamp(&mut light, 0.0, 1.0)?;
    println!("clamp: {light:?}");
    Ok(())
}

fn samples() -> silamogo::Result<()> {
    let (minus_zero, zero) = (Sample::from(-0.0f32), Sample::from(0.0f32));
    println!("minus zero and zero: {:?}, {:?}", silamogo::compare(minus_zero, zero)?, silamogo::total_order(minus_zero, zero)?);
    println!("position of minus zero: {}", silamogo::position(minus_zero)?);
    println!("NaN and NaN: {:?}", silamogo::compare(f32::NAN.into(), f32::NAN.into())?);
    println!("class of 1e-40: {:?}", silamogo::classify(1e-40f32.into())?);
    println!("255 to u8: {:?}", u8::try_from(Sample::from(255u16)));
    println!("256 to u8: {:?}", u8::try_from(Sample::from(256u16)));
    println!("16777217 to f32: {:?}", f32::try_from(Sample::from(16777217u32)));
    println!("-1 to f64: {:?}", f64::try_from(Sample::from(-1i8)));
    println!("1.5 from f16 to f32: {:?}", f32::try_from(Sample::f16(0x3e00)));
    println!("1.5 to f16: {:04x}", silamogo::convert(1.5f64.into(), Kind::F16)?.bits);
    println!("65505 to f16: {:?}", silamogo::convert(65505u16.into(), Kind::F16));
    println!("least of 3 and -2: {}", i16::try_from(silamogo::min(3i16.into(), (-2i16).into())?)?);
    println!("greatest of a kind each: {:?}", silamogo::max(3u8.into(), 3i8.into()));
    println!("clamp between 2 and 1: {:?}", silamogo::clamp(1.5f64.into(), 2f64.into(), 1f64.into()));
    println!("u8 of nine bits: {:?}", silamogo::convert(Sample { kind: Kind::U8, bits: 0x100 }, Kind::U16));
    Ok(())
}

fn records() -> silamogo::Result<()> {
    let shape = [Kind::U16, Kind::I16, Kind::F32];
    let tile = [Sample::from(258u16), Sample::from(-1i16), Sample::from(-1f32)].map(|s| s.bits);
    let next = [Sample::from(258u16), Sample::from(0i16), Sample::from(-9f32)].map(|s| s.bits);
    println!("two tiles: {:?}", silamogo::record_compare(&shape, &tile, &shape, &next)?);

    let mut buffer = [0; 96];
    let length = silamogo::key_write(&shape, &tile, &mut buffer)?;
    let key = &mut buffer[..length];
    println!("key: {key:02x?}");
    let mut fields = [0; 3];
    silamogo::key_read(&shape, key, &mut fields)?;
    println!("read back: {}", fields == tile);
    println!("a byte too few: {:?}", silamogo::key_read(&shape, &key[1..], &mut fields));
    key[4..].fill(0xff);
    println!("a NaN: {:?}", silamogo::key_read(&shape, key, &mut fields));

    let (mut keys, mut lengths) = ([0; 16], [0; 2]);
    silamogo::keys_write(&shape, &[tile, next].concat(), &mut keys, &mut lengths)?;
    println!("both keys: {keys:02x?}, lengths {lengths:?}");

    let mut light = [0; 2];
    silamogo::key_write(&[Kind::F16], &[Sample::f16(0x3e00).bits], &mut light)?;
    println!("key of an f16: {light:02x?}");
    Ok(())
}

fn main() -> Result<(), Box<dyn std::error::Error>> {
    rows()?;
    samples()?;
    records()?;
    Ok(())
}
