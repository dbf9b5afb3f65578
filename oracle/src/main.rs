//! An independent second program for the case lines: it makes cases, answers
//! them, and compares another program's answers with its own.

use std::ffi::{OsStr, OsString};
use std::io::{self, BufWriter, Write};
use std::process::ExitCode;

use oracle::cases::Cases;
use oracle::{check, fixed, lines, order, program, sheet};

const USAGE: &str = "\
usage: oracle cases SEED COUNT            case lines made from a seed
       oracle fixed                       the fixed list of case lines
       oracle answers                     answers to the case lines on standard input
       oracle compare SEED COUNT PROGRAM  a program's answers against ours
       oracle soak SECONDS PROGRAM        the same, seed after seed for that time
       oracle order SEED COUNT PROGRAM    the order of a program's keys against comparison
       oracle sheet                       the sheet of the f32 samples on standard input
       oracle strips SEED COUNT PROGRAM   a program's sheets of made strips against ours
PROGRAM may have arguments behind it.
";

fn main() -> ExitCode {
    let arguments: Vec<OsString> = std::env::args_os().skip(1).collect();
    let mut out = BufWriter::new(io::stdout().lock());
    let Some(well) = run(&arguments, &mut out) else {
        eprint!("{USAGE}");
        return ExitCode::from(2);
    };
    match well.and_then(|well| out.flush().map(|()| well)) {
        Ok(true) => ExitCode::SUCCESS,
        Ok(false) => ExitCode::FAILURE,
        // The reader of our output has gone, as `head` does: no need to say so.
        Err(error) if error.kind() == io::ErrorKind::BrokenPipe => ExitCode::FAILURE,
        Err(error) => {
            eprintln!("oracle: {error}");
            ExitCode::FAILURE
        }
    }
}

/// Answers whether all is well; nothing for a command line that there isn't.
fn run(arguments: &[OsString], out: &mut impl Write) -> Option<io::Result<bool>> {
    let (name, rest) = arguments.split_first()?;
    Some(match (name.to_str()?, rest) {
        ("cases", [seed, count]) => {
            let cases = Cases::new(number(seed)?).take(number(count)?);
            program::write_lines(cases, out).map(|()| true)
        }
        ("fixed", []) => {
            let lines = fixed::lines().into_iter().map(String::into_bytes);
            program::write_lines(lines, out).map(|()| true)
        }
        ("answers", []) => answers(out).map(|()| true),
        ("compare", [seed, count, program @ ..]) if !program.is_empty() => {
            check::compare(number(seed)?, number(count)?, program, out)
        }
        ("soak", [seconds, program @ ..]) if !program.is_empty() => {
            check::soak(number(seconds)?, program, out)
        }
        ("order", [seed, count, program @ ..]) if !program.is_empty() => {
            order::order(number(seed)?, number(count)?, program, out)
        }
        ("sheet", []) => sheet::sheet(io::stdin().lock())
            .and_then(|lines| out.write_all(lines.as_bytes()))
            .map(|()| true),
        ("strips", [seed, count, program @ ..]) if !program.is_empty() => {
            sheet::strips(number(seed)?, number(count)?, program, out)
        }
        _ => return None,
    })
}

fn answers(out: &mut impl Write) -> io::Result<()> {
    let mut input = io::stdin().lock();
    while let Some(line) = program::read_line(&mut input)? {
        writeln!(out, "{}", lines::answer(&line))?;
    }
    Ok(())
}

fn number<T: std::str::FromStr>(text: &OsStr) -> Option<T> {
    text.to_str()?.parse().ok()
}
