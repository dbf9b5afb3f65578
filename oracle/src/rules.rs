//! The rules in whole numbers, a second opinion on every judge: no float, and
//! nothing of Rust's own but arithmetic and comparison of integers.

pub mod choice;
pub mod convert;
pub mod key;
pub mod order;
pub mod prefix;
pub mod record;
pub mod whole;
