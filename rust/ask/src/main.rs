//! Asks the proved judge of a book and a certificate, or whether a call is in the accepted
//! family, and tells the answer: first as a line, as the program `judge` does, then the same
//! in words.

use gearcinder::{Acceptance, WORK_NUMBERS};
use second::files::parse_both;
use std::process::ExitCode;
use text::inputs::{book_of, certificate_of, CallFrom};
use text::shell::{run_with, Failure, Outcome, DONE, REFUSED, UNDONE};
use text::words::{coverage_words, verdict_words};

const HELP: &str = "gearcinder-judge BOOK CERTIFICATE
    judges the certificate, and prints the answer as a line and in words
gearcinder-judge covers BOOK CERTIFICATE (CALL | --term TERM)
    tells likewise whether the call is in the accepted family
gearcinder-judge --version

BOOK, CERTIFICATE and CALL are packed files, or text if the name ends in `.txt`; a
hyphen is standard input. The status is 0 if the certificate is accepted or the call
is covered, 1 if something is refused or the call is not covered, and 2 if the judge
could not be asked or the answer could not be written.
";

fn main() -> ExitCode {
    run_with(|words| match words {
        ["help" | "--help" | "-h"] => Ok((HELP.into(), DONE)),
        ["--version"] => Ok((version().into_bytes(), DONE)),
        [book, certificate] if ![book, certificate].iter().any(|word| is_option(word)) => {
            asked(judged(book, certificate))
        }
        ["covers", book, certificate, call @ ..]
            if ![book, certificate].iter().any(|word| is_option(word)) =>
        {
            match CallFrom::words(call) {
                Some(call) => asked(covered(book, certificate, call)),
                None => Err(misused()),
            }
        }
        _ => Err(misused()),
    })
}

/// Here 1 means that the judge refused, and nothing else.
fn asked(outcome: Outcome) -> Outcome {
    outcome.map_err(|failure| Failure { status: UNDONE, ..failure })
}

fn misused() -> Failure {
    Failure::undone(HELP.trim_end())
}

fn is_option(word: &str) -> bool {
    word.starts_with('-') && word != "-"
}

fn version() -> String {
    format!("gearcinder-judge {}\n", env!("CARGO_PKG_VERSION"))
}

fn judged(book: &str, certificate: &str) -> Outcome {
    let book = book_of(book)?;
    let certificate = certificate_of(&book, certificate)?;
    let mut work = vec![0; WORK_NUMBERS];
    let verdict = gearcinder::judge(&book.bytes, &certificate, &mut work);
    let read = parse_both(&book.bytes, &certificate).ok();
    let words = verdict_words(&plain(verdict), read.as_ref().map(|(_, certificate)| certificate));
    let status = if verdict.is_accepted() { DONE } else { REFUSED };
    Ok((format!("{verdict}\n{words}\n").into_bytes(), status))
}

fn covered(book: &str, certificate: &str, call: CallFrom) -> Outcome {
    let book = book_of(book)?;
    let certificate = certificate_of(&book, certificate)?;
    let call = call.packed(&book)?;
    let mut work = vec![0; WORK_NUMBERS];
    let coverage = gearcinder::covers(&book.bytes, &certificate, &call, &mut work);
    let read = parse_both(&book.bytes, &certificate).ok();
    let plain = match coverage {
        gearcinder::Coverage::Covered { index } => second::Coverage::Covered { index },
        gearcinder::Coverage::Refused(refusal) => second::Coverage::Refused(plainly(refusal)),
    };
    let words = coverage_words(&plain, read.as_ref().map(|(_, certificate)| certificate));
    let status = if coverage.is_covered() { DONE } else { REFUSED };
    Ok((format!("{coverage}\n{words}\n").into_bytes(), status))
}

/// The answer as the words take it.
fn plain(verdict: gearcinder::Verdict) -> second::Verdict {
    match verdict {
        gearcinder::Verdict::Accepted(Acceptance { line, k, alpha }) => {
            second::Verdict::Accepted { line, k, alpha }
        }
        gearcinder::Verdict::Refused(refusal) => second::Verdict::Refused(plainly(refusal)),
    }
}

fn plainly(refusal: gearcinder::Refusal) -> second::Refusal {
    let gearcinder::Refusal { number, place, a, b } = refusal;
    second::Refusal::new(number, place as u8, a, b)
}
