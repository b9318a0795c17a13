//! The program `judge`, run on inputs in its own framing.

use crate::Compared;
use generate::hex::hex;
use second::{judge_input, verdict_line, Verdict};
use std::io::{Error, ErrorKind, Result, Write};
use std::os::fd::OwnedFd;
use std::os::unix::net::UnixDatagram;
use std::path::Path;
use std::process::{Command, Stdio};

/// How an input reaches the program.
#[derive(Clone, Copy, Debug, PartialEq, Eq)]
pub enum Feeding {
    /// Through a pipe, all at once.
    Whole,
    /// So many bytes at each read, however many the program asks for: its standard
    /// input is a socket of messages, each read takes one, and an empty one is the end.
    /// What of a message is longer than asked for is lost, so pieces are short.
    Pieces(usize),
}

/// Runs the program and compares all that it writes. The answer is the second's.
pub fn run_both(program: &Path, input: &[u8], feeding: Feeding) -> Compared<Verdict> {
    let mut work = vec![0; second::judging::WORK_NUMBERS];
    let expected = judge_input(input, &mut work);
    let found =
        output_of(program, input, feeding).map_err(|error| format!("the program: {error}"))?;
    match found == verdict_line(&expected) + "\n" {
        true => Ok(expected),
        false => {
            let input = hex(input);
            let words = format!("program, {feeding:?}\ninput {input}");
            Err(format!("{words}\nfound {found:?}\nexpected {expected:?}"))
        }
    }
}

fn output_of(program: &Path, input: &[u8], feeding: Feeding) -> Result<String> {
    let run = |stdin: Stdio| Command::new(program).stdin(stdin).stdout(Stdio::piped()).spawn();
    let (child, fed) = match feeding {
        Feeding::Whole => {
            let mut child = run(Stdio::piped())?;
            let fed = child.stdin.take().expect("a pipe").write_all(input);
            (child, fed)
        }
        Feeding::Pieces(size) => {
            let (ours, theirs) = UnixDatagram::pair()?;
            let child = run(OwnedFd::from(theirs).into())?;
            let mut pieces = input.chunks(size).chain([&[][..]]);
            let fed = pieces.try_for_each(|piece| ours.send(piece).map(drop));
            (child, fed)
        }
    };
    match fed {
        // A program need not read more than it wants to know.
        Err(error) if !is_closed(&error) => return Err(error),
        _ => (),
    }
    let output = child.wait_with_output()?;
    if !output.status.success() {
        return Err(Error::other(output.status.to_string()));
    }
    Ok(String::from_utf8_lossy(&output.stdout).into_owned())
}

/// Does the error say that the program reads no more?
fn is_closed(error: &Error) -> bool {
    use ErrorKind::{BrokenPipe, ConnectionRefused, ConnectionReset, NotConnected};
    matches!(error.kind(), BrokenPipe | ConnectionRefused | ConnectionReset | NotConnected)
}
