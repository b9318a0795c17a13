//! What judging answers.

use std::fmt;

/// "W (0 book, 1 certificate, 2 line, 3 closing, 4 neither)".
pub const BOOK: u8 = 0;
pub const CERTIFICATE: u8 = 1;
pub const LINE: u8 = 2;
pub const CLOSING: u8 = 3;
pub const NEITHER: u8 = 4;

/// "A refusal carries its number, W, A and B."
#[derive(Clone, Copy, Debug, PartialEq, Eq)]
pub struct Refusal {
    pub number: u8,
    pub w: u8,
    pub a: u64,
    pub b: u64,
}

/// The answer of judging.
#[derive(Clone, Copy, Debug, PartialEq, Eq)]
pub enum Verdict {
    /// "An accepting answer gives the line, k and α."
    Accepted {
        line: u64,
        k: u64,
        alpha: u64,
    },
    Refused(Refusal),
}

/// A refusal that has no place.
pub fn placeless(number: u8, w: u8) -> Refusal {
    Refusal { number, w, a: 0, b: 0 }
}

/// The program's line, without its newline.
impl fmt::Display for Verdict {
    fn fmt(&self, out: &mut fmt::Formatter) -> fmt::Result {
        match self {
            Verdict::Accepted { line, k, alpha } => write!(out, "accept {line} {k} {alpha}"),
            Verdict::Refused(Refusal { number, w, a, b }) => {
                write!(out, "refuse {number} {w} {a} {b}")
            }
        }
    }
}
