//! Runs a program on lines.

use std::ffi::OsString;
use std::io::{self, BufRead, BufReader, BufWriter, Write};
use std::process::{Child, ChildStdin, Command, ExitStatus, Stdio};
use std::thread;

/// How a program ended that had all its lines.
pub struct Ended {
    too_many: bool,
    status: ExitStatus,
}

impl Ended {
    /// Says what went wrong, and answers whether nothing did.
    pub fn report(&self, out: &mut impl Write) -> io::Result<bool> {
        if self.too_many {
            writeln!(out, "more answers than cases")?;
        }
        if !self.status.success() {
            writeln!(out, "the program ended with {}", self.status)?;
        }
        Ok(!self.too_many && self.status.success())
    }
}

/// Gives lines to a program, and takes each with its answer; with nothing when
/// there are no more answers.
pub fn ask<L>(
    program: &[OsString],
    lines: L,
    mut take: impl FnMut(Vec<u8>, Option<Vec<u8>>) -> io::Result<()>,
) -> io::Result<Ended>
where
    L: Iterator<Item = Vec<u8>> + Clone + Send + 'static,
{
    let mut child = start(program)?;
    let input = child.stdin.take().expect("a piped input");
    let mut answers = BufReader::new(child.stdout.take().expect("a piped output"));
    // The writer makes its own lines.
    let written = lines.clone();
    let writer = thread::spawn(move || feed(written, input));

    for line in lines {
        take(line, read_line(&mut answers)?)?;
    }
    let too_many = read_line(&mut answers)?.is_some();
    // Closes the pipe: a program that never stops writing ends here.
    drop(answers);
    writer.join().expect("the writing thread")?;
    let status = child.wait()?;
    Ok(Ended { too_many, status })
}

/// The first word is the program's name, the others are its arguments.
pub fn start(words: &[OsString]) -> io::Result<Child> {
    let (program, arguments) = words
        .split_first()
        .ok_or_else(|| io::Error::new(io::ErrorKind::InvalidInput, "no program"))?;
    Command::new(program)
        .args(arguments)
        .stdin(Stdio::piped())
        .stdout(Stdio::piped())
        .spawn()
        .map_err(|error| {
            io::Error::new(
                error.kind(),
                format!("{}: {error}", program.to_string_lossy()),
            )
        })
}

/// A program that stops reading shows by its missing answers.
fn feed(lines: impl Iterator<Item = Vec<u8>>, input: ChildStdin) -> io::Result<()> {
    match write_lines(lines, &mut BufWriter::new(input)) {
        Err(error) if error.kind() == io::ErrorKind::BrokenPipe => Ok(()),
        result => result,
    }
}

pub fn write_lines(lines: impl Iterator<Item = Vec<u8>>, out: &mut impl Write) -> io::Result<()> {
    for line in lines {
        out.write_all(&line)?;
        out.write_all(b"\n")?;
    }
    out.flush()
}

/// One line without its newline; nothing at the end of the input. The last
/// line may lack its newline.
pub fn read_line(input: &mut impl BufRead) -> io::Result<Option<Vec<u8>>> {
    let mut line = Vec::new();
    if input.read_until(b'\n', &mut line)? == 0 {
        return Ok(None);
    }
    if line.last() == Some(&b'\n') {
        line.pop();
    }
    Ok(Some(line))
}

#[cfg(test)]
mod tests {
    use super::*;

    fn split(mut input: &[u8]) -> Vec<Vec<u8>> {
        std::iter::from_fn(|| read_line(&mut input).expect("a slice reads")).collect()
    }

    #[test]
    fn ends_of_lines() {
        assert_eq!(split(b""), Vec::<Vec<u8>>::new());
        assert_eq!(split(b"\n"), [b""]);
        assert_eq!(split(b"a\n"), [b"a"]);
        assert_eq!(split(b"a"), [b"a"]);
        assert_eq!(split(b"a\n\nb"), [&b"a"[..], b"", b"b"]);
        assert_eq!(split(b"a\r\n\n"), [&b"a\r"[..], b""]);
    }
}
