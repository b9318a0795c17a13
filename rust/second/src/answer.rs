//! What the operations answer.

/// "W (0 book, 1 certificate, 2 line, 3 closing, 4 neither)", and for a call
/// "W = 5".
pub const BOOK: u8 = 0;
pub const CERTIFICATE: u8 = 1;
pub const LINE: u8 = 2;
pub const CLOSING: u8 = 3;
pub const NEITHER: u8 = 4;
pub const CALL: u8 = 5;

/// "A refusal carries its number, W, A and B."
#[derive(Clone, Copy, Debug, PartialEq, Eq, PartialOrd, Ord, Hash)]
pub struct Refusal {
    pub number: u8,
    pub w: u8,
    pub a: u64,
    pub b: u64,
}

impl Refusal {
    pub fn new(number: u8, w: u8, a: u64, b: u64) -> Refusal {
        Refusal { number, w, a, b }
    }

    /// "Otherwise both are 0": refusals that have no place.
    pub fn placeless(number: u8, w: u8) -> Refusal {
        Refusal::new(number, w, 0, 0)
    }
}

/// The answer of reading and writing.
#[derive(Clone, Copy, Debug, PartialEq, Eq)]
pub enum Answer {
    /// "they answer the number of places filled"
    Filled(usize),
    Refused(Refusal),
}

/// The answer of judging.
#[derive(Clone, Copy, Debug, PartialEq, Eq)]
pub enum Verdict {
    /// "An accepting answer gives the line, k and α."
    Accepted {
        line: u64,
        k: u64,
        alpha: u64,
    },
    Refused(Refusal),
}

/// The answer to whether a call is in the accepted family.
#[derive(Clone, Copy, Debug, PartialEq, Eq)]
pub enum Coverage {
    /// "If yes, give the smallest such index."
    Covered {
        index: u64,
    },
    Refused(Refusal),
}

/// "It prints one line: `accept` line k α, or `refuse` number W A B, in decimal
/// with single spaces." The newline is not part of the string.
pub fn verdict_line(verdict: &Verdict) -> String {
    match verdict {
        Verdict::Accepted { line, k, alpha } => format!("accept {line} {k} {alpha}"),
        Verdict::Refused(Refusal { number, w, a, b }) => format!("refuse {number} {w} {a} {b}"),
    }
}

/// `covered` index, or the refusal's line.
pub fn coverage_line(coverage: &Coverage) -> String {
    match coverage {
        Coverage::Covered { index } => format!("covered {index}"),
        Coverage::Refused(refusal) => verdict_line(&Verdict::Refused(*refusal)),
    }
}
