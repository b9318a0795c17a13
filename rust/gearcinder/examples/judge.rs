//! Judges a packed rule book and a packed certificate.
//!
//!     judge BOOK CERTIFICATE
//!
//! prints the verdict's line, and the reason for a refusal on standard error. The
//! exit code is 0 if the certificate is accepted and 1 if it is refused. It is 2, with
//! the reason on standard error, if the judge could not be asked or its answer could
//! not be written.

use gearcinder::Verdict;
use std::io::Write;
use std::process::ExitCode;

fn main() -> ExitCode {
    let files: Vec<String> = std::env::args().skip(1).collect();
    let verdict = match files.as_slice() {
        [book, certificate] => judged(book, certificate),
        _ => Err("usage: judge BOOK CERTIFICATE".to_string()),
    };
    match verdict.and_then(printed) {
        Ok(Verdict::Accepted(_)) => ExitCode::SUCCESS,
        Ok(Verdict::Refused(refusal)) => {
            eprintln!("{}", refusal.reason());
            ExitCode::FAILURE
        }
        Err(message) => {
            eprintln!("{message}");
            ExitCode::from(2)
        }
    }
}

fn judged(book: &str, certificate: &str) -> Result<Verdict, String> {
    let (book, certificate) = (read(book)?, read(certificate)?);
    let mut work = vec![0; gearcinder::WORK_NUMBERS];
    Ok(gearcinder::judge(&book, &certificate, &mut work))
}

fn read(path: &str) -> Result<Vec<u8>, String> {
    std::fs::read(path).map_err(|error| format!("{path}: {error}"))
}

fn printed(verdict: Verdict) -> Result<Verdict, String> {
    let mut out = std::io::stdout().lock();
    let done = writeln!(out, "{verdict}").and_then(|()| out.flush());
    done.map(|()| verdict).map_err(|error| format!("standard output: {error}"))
}
