//! Answers by Rust's own bodies on Rust's own number types.

pub mod choice;
pub mod convert;
pub mod half;
pub mod key;
pub mod native;
pub mod order;
pub mod prefix;
pub mod record;
