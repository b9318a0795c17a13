//! What the programs share: arguments, files, a result written whole, how they stop.

use std::fs::File;
use std::io::{Error, ErrorKind, Read, Write};
use std::process::ExitCode;
use std::sync::atomic::{AtomicBool, Ordering};

/// All went well.
pub const DONE: u8 = 0;
/// A text or a file was refused.
pub const REFUSED: u8 = 1;
/// The command was not understood, a file could not be read, or a write failed.
pub const UNDONE: u8 = 2;

/// Longer files are not read.
const MOST_BYTES: u64 = 1 << 24;

/// Why a program stops. There is no message if nobody is left to read the output.
#[derive(Debug)]
pub struct Failure {
    pub status: u8,
    pub message: Option<String>,
}

impl Failure {
    pub fn refused(message: impl Into<String>) -> Failure {
        Failure { status: REFUSED, message: Some(message.into()) }
    }

    pub fn undone(message: impl Into<String>) -> Failure {
        Failure { status: UNDONE, message: Some(message.into()) }
    }
}

/// What goes to standard output, and the status of a program that wrote it whole.
pub type Outcome = Result<(Vec<u8>, u8), Failure>;

/// Runs a program over its arguments.
pub fn run_with(program: impl Fn(&[&str]) -> Outcome) -> ExitCode {
    let words: Result<Vec<String>, _> =
        std::env::args_os().skip(1).map(|word| word.into_string()).collect();
    let outcome = match &words {
        Ok(words) => program(&words.iter().map(String::as_str).collect::<Vec<&str>>()),
        Err(word) => Err(Failure::undone(format!("the argument {word:?} is not UTF-8"))),
    };
    let written = outcome.and_then(|(bytes, status)| written(&bytes).map(|()| status));
    let status = written.unwrap_or_else(|failure| {
        // If standard error is full or closed too, the status still tells.
        let _ = failure.message.map(|message| writeln!(std::io::stderr(), "{message}"));
        failure.status
    });
    ExitCode::from(status)
}

/// Writes all of it to standard output. A pipe that is closed gets no message.
fn written(bytes: &[u8]) -> Result<(), Failure> {
    let mut out = std::io::stdout().lock();
    let done = out.write_all(bytes).and_then(|()| out.flush());
    done.map_err(|error| match error.kind() {
        ErrorKind::BrokenPipe => Failure { status: UNDONE, message: None },
        _ => Failure::undone(format!("standard output: {error}")),
    })
}

/// Writes a file whole.
pub fn write_file(path: &str, bytes: &[u8]) -> Result<(), Failure> {
    std::fs::write(path, bytes).map_err(|error| Failure::undone(format!("{path}: {error}")))
}

/// What messages call a file.
pub fn called(file: &str) -> &str {
    match file {
        "-" => "standard input",
        _ => file,
    }
}

/// The whole file; a hyphen is standard input, once.
pub fn bytes_of(file: &str) -> Result<Vec<u8>, Failure> {
    static TAKEN: AtomicBool = AtomicBool::new(false);
    let read = match file {
        "-" if TAKEN.swap(true, Ordering::Relaxed) => {
            return Err(Failure::undone("standard input is named twice"));
        }
        "-" => whole(std::io::stdin().lock()),
        path => File::open(path).and_then(whole),
    };
    read.map_err(|error| Failure::undone(format!("{}: {error}", called(file))))
}

fn whole(input: impl Read) -> Result<Vec<u8>, Error> {
    let mut bytes = Vec::new();
    input.take(MOST_BYTES + 1).read_to_end(&mut bytes)?;
    match bytes.len() as u64 > MOST_BYTES {
        false => Ok(bytes),
        true => Err(Error::other(format!("it has over {MOST_BYTES} bytes"))),
    }
}

/// The whole file as text.
pub fn text_of(file: &str) -> Result<String, Failure> {
    let text = String::from_utf8(bytes_of(file)?);
    text.map_err(|_| Failure::refused(format!("{}: the text is not UTF-8", called(file))))
}
