//! What the operations answer.

use crate::raw::Numbers;
use std::fmt;

/// What a refusal speaks of. Its number is the W of the program's line.
#[derive(Clone, Copy, Debug, PartialEq, Eq, Hash)]
pub enum Place {
    Book = 0,
    Certificate = 1,
    Line = 2,
    Closing = 3,
    Neither = 4,
    Call = 5,
}

/// Why an input was refused. Displayed, it is the program's line: `refuse`
/// number W A B.
#[derive(Clone, Copy, Debug, PartialEq, Eq, Hash)]
pub struct Refusal {
    /// The refusal's number, 1 to 17; see [`Refusal::reason`].
    pub number: u8,
    pub place: Place,
    /// For 3 to 7 the bit offset at which the refused field begins, or, in the
    /// file being written, the field's number. For 9 to 16 the line judged, or
    /// the line that the closing names.
    pub a: u64,
    /// For 9 to 16 the part of the check.
    pub b: u64,
}

impl Refusal {
    /// The refusal's number in words.
    pub fn reason(&self) -> &'static str {
        match self.number {
            1 => "the work table has fewer than 8,192 numbers",
            2 => "the file is longer than it may be",
            3 => "a field begins or runs past the end",
            4 => "a field is out of its range",
            5 => "a term is not normal",
            6 => "a term has more than 256 nodes",
            7 => "a padding bit is 1, or something is left over",
            8 => "the output does not fit the slice lent for it",
            9 => "the rule's head or the base does not equal the left",
            10 => "the rule's call does not equal the used left, or the left",
            11 => "the used line's right is empty where it may not be, or the reverse",
            12 => "the right is not what is reached",
            13 => "the right of a descent depends on the index",
            14 => "the closing names a line whose right is empty",
            15 => "the closing does not lead back to the left",
            16 => "a side has more than 1,024 nodes",
            17 => "the call is not in the accepted family",
            _ => "unknown",
        }
    }
}

impl fmt::Display for Refusal {
    fn fmt(&self, f: &mut fmt::Formatter<'_>) -> fmt::Result {
        write!(f, "refuse {} {} {} {}", self.number, self.place as u8, self.a, self.b)
    }
}

impl std::error::Error for Refusal {}

/// What an accepted certificate names: the family of calls is `line`'s left at the
/// indices from `alpha` on, and `k` is the closing's step. The crate's page says what
/// is known of such a call.
#[derive(Clone, Copy, Debug, PartialEq, Eq, Hash)]
pub struct Acceptance {
    pub line: u64,
    pub k: u64,
    pub alpha: u64,
}

/// The judge's answer. Displayed, it is the program's line.
#[derive(Clone, Copy, Debug, PartialEq, Eq, Hash)]
pub enum Verdict {
    Accepted(Acceptance),
    Refused(Refusal),
}

impl Verdict {
    pub fn is_accepted(&self) -> bool {
        matches!(self, Verdict::Accepted(_))
    }
}

impl fmt::Display for Verdict {
    fn fmt(&self, f: &mut fmt::Formatter<'_>) -> fmt::Result {
        match self {
            Verdict::Accepted(Acceptance { line, k, alpha }) => {
                write!(f, "accept {line} {k} {alpha}")
            }
            Verdict::Refused(refusal) => refusal.fmt(f),
        }
    }
}

/// Whether a call is in the family of an accepted certificate. Displayed, it is `covered`
/// index, or the refusal's line.
#[derive(Clone, Copy, Debug, PartialEq, Eq, Hash)]
pub enum Coverage {
    /// The call is the named line's left at this index, filled; it is the smallest such
    /// index from α on.
    Covered { index: u64 },
    /// 17 if the call is not in the family.
    Refused(Refusal),
}

impl Coverage {
    pub fn is_covered(&self) -> bool {
        matches!(self, Coverage::Covered { .. })
    }
}

impl fmt::Display for Coverage {
    fn fmt(&self, f: &mut fmt::Formatter<'_>) -> fmt::Result {
        match self {
            Coverage::Covered { index } => write!(f, "covered {index}"),
            Coverage::Refused(refusal) => refusal.fmt(f),
        }
    }
}

/// Takes the numbers apart: what was found, or the refusal.
pub(crate) fn told([kind, one, two, three, four]: Numbers) -> Result<[u64; 3], Refusal> {
    match kind {
        0 => Ok([one, two, three]),
        _ => Err(Refusal { number: one as u8, place: place_of(two), a: three, b: four }),
    }
}

fn place_of(w: u64) -> Place {
    match w {
        0 => Place::Book,
        1 => Place::Certificate,
        2 => Place::Line,
        3 => Place::Closing,
        4 => Place::Neither,
        5 => Place::Call,
        _ => unreachable!("W is proved to be 0 to 5"),
    }
}
