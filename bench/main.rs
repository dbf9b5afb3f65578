//! The proved library against the same work in Rust, on the same inputs, in turn, in one run: rows of samples, single samples, records and keys.
//! One table: the best time of each side, and the library's over it; below 1 the library is the faster one. All but rows is timed on x86-64
//! alone: a library of bench/native hands over an answer of three words or more as x86-64 does, which Rust doesn't know elsewhere.

mod boundary;
mod random;
mod records;
mod rows;
mod rust_records;
mod rust_rows;
mod rust_singles;
mod singles;
mod table;
mod turns;

fn main() {
    table::print_head();
    rows::run();
    if cfg!(target_arch = "x86_64") {
        singles::run();
        records::run();
    }
}
