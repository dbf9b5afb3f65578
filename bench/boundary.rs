//! The boundary's calls on one sample, and on slices of kind numbers and bits.

#[path = "../bindings/rust/silamogo.rs"]
mod silamogo;

pub use silamogo::c::*;

pub const DONE: Answer = Answer { number: 0, place: 0 };

// SAFETY of the four: a sample passes by value; pointers and lengths are those of slices that are lent for the call.

pub fn convert(v: Sample, to: u8) -> Given<Sample> {
    unsafe { silamogo_convert(v, to) }
}

pub fn record_compare(a_kinds: &[u8], a_bits: &[u64], b_kinds: &[u8], b_bits: &[u64]) -> Given<u8> {
    let (a, x, b, y) = (a_kinds.as_ptr(), a_bits.as_ptr(), b_kinds.as_ptr(), b_bits.as_ptr());
    unsafe { silamogo_record_compare(a, a_kinds.len(), x, a_bits.len(), b, b_kinds.len(), y, b_bits.len()) }
}

pub fn key_write(kinds: &[u8], bits: &[u64], buffer: &mut [u8]) -> Given<usize> {
    unsafe { silamogo_key_write(kinds.as_ptr(), kinds.len(), bits.as_ptr(), bits.len(), buffer.as_mut_ptr(), buffer.len()) }
}

pub fn key_read(kinds: &[u8], key: &[u8], bits: &mut [u64]) -> Answer {
    unsafe { silamogo_key_read(kinds.as_ptr(), kinds.len(), key.as_ptr(), key.len(), bits.as_mut_ptr(), bits.len()) }
}
