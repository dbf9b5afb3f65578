//! What the oracle's programs are made of: cases, judges by Rust's own bodies,
//! rules in whole numbers, and the comparison of answers.

pub mod answer;
pub mod cases;
pub mod check;
pub mod edges;
pub mod fixed;
pub mod grammar;
pub mod judge;
pub mod lines;
pub mod malformed;
#[cfg(test)]
mod mistakes;
pub mod operands;
pub mod order;
pub mod program;
pub mod random;
pub mod rules;
#[cfg(test)]
mod second_opinion;
pub mod sheet;
pub mod text;
pub mod value;
