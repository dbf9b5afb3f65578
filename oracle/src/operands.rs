//! Random operands of case lines: edges and random patterns mixed.

pub mod choice;
pub mod convert;
pub mod key;
pub mod prefix;
pub mod record;
pub mod row;
pub mod value;
