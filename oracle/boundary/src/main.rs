//! Drives the proved library through its C boundary, and holds every answer
//! against the oracle's judges and Rust's own floats. It links the library, and
//! shares nothing with it but the wrapper's declarations.

mod calls;
mod cases;
mod every;
mod every_f16;
mod every_f32;
mod lines;
mod powers;
mod raw;
#[rustfmt::skip]
#[path = "../../../bindings/rust/silamogo.rs"]
mod silamogo;

use std::process::ExitCode;

const USAGE: &str = "\
usage: boundary every-f32 STEP     every STEPth pattern of f32, and all near the borders of exponents
       boundary every-f16          every pattern of f16, and what is around its numbers in other kinds
       boundary powers-of-two      powers of two of the float kinds, alone and with one digit more
       boundary cases SEED COUNT   random cases of every call, made from a seed
";

fn main() -> ExitCode {
    let arguments: Vec<String> = std::env::args().skip(1).collect();
    let arguments: Vec<&str> = arguments.iter().map(String::as_str).collect();
    let well = match arguments[..] {
        ["every-f32", step] => number(step)
            .filter(|&step| step > 0)
            .map(every_f32::every_f32),
        ["every-f16"] => Some(every_f16::every_f16()),
        ["powers-of-two"] => Some(powers::powers_of_two()),
        ["cases", seed, count] => number(seed).zip(number(count)).map(cases::cases),
        _ => None,
    };
    match well {
        Some(Ok(said)) => {
            println!("{said}");
            ExitCode::SUCCESS
        }
        Some(Err(difference)) => {
            println!("DIFFERS: {difference}");
            ExitCode::FAILURE
        }
        None => {
            eprint!("{USAGE}");
            ExitCode::from(2)
        }
    }
}

fn number(text: &str) -> Option<u64> {
    text.parse().ok()
}
