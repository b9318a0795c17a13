//! Asks whether a packed call is in the family of a packed certificate over a packed
//! rule book.
//!
//!     covers BOOK CERTIFICATE CALL
//!
//! prints `covered` index or the refusal's line, and the reason for a refusal on standard
//! error. The exit code is 0 if the call is covered and 1 if it is not, or something is
//! refused. It is 2, with the reason on standard error, if this could not be asked or the
//! answer could not be written.

use gearcinder::Coverage;
use std::io::Write;
use std::process::ExitCode;

fn main() -> ExitCode {
    let files: Vec<String> = std::env::args().skip(1).collect();
    let coverage = match files.as_slice() {
        [book, certificate, call] => asked(book, certificate, call),
        _ => Err("usage: covers BOOK CERTIFICATE CALL".to_string()),
    };
    match coverage.and_then(printed) {
        Ok(Coverage::Covered { .. }) => ExitCode::SUCCESS,
        Ok(Coverage::Refused(refusal)) => {
            eprintln!("{}", refusal.reason());
            ExitCode::FAILURE
        }
        Err(message) => {
            eprintln!("{message}");
            ExitCode::from(2)
        }
    }
}

fn asked(book: &str, certificate: &str, call: &str) -> Result<Coverage, String> {
    let (book, certificate, call) = (read(book)?, read(certificate)?, read(call)?);
    let mut work = vec![0; gearcinder::WORK_NUMBERS];
    Ok(gearcinder::covers(&book, &certificate, &call, &mut work))
}

fn read(path: &str) -> Result<Vec<u8>, String> {
    std::fs::read(path).map_err(|error| format!("{path}: {error}"))
}

fn printed(coverage: Coverage) -> Result<Coverage, String> {
    let mut out = std::io::stdout().lock();
    let done = writeln!(out, "{coverage}").and_then(|()| out.flush());
    done.map(|()| coverage).map_err(|error| format!("standard output: {error}"))
}
