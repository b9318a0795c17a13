//! The judge over a rule book and a certificate.

use crate::answer::{Refusal, Verdict, CLOSING, LINE, NEITHER};
use crate::files::parse_both;
use crate::model::{Book, Certificate, Closing, Filling, Line, Proof, Rule, Use};
use crate::term::Term;

/// "the work table has fewer than 8,192 64-bit numbers"
pub const WORK_NUMBERS: usize = 8_192;
/// "A side whose normal form has more than 1,024 nodes is refused with 16".
pub const SIDE_NODES: usize = 1_024;
/// "More than 49,154 bytes is refusal 2".
pub const INPUT_BYTES: usize = 49_154;

/// The part in which an unfold's right is compared.
const RIGHT_PART: u64 = 15;

type Checked = Result<(), Refusal>;

/// A term or the empty mark (`None`).
type Side = Option<Term>;

/// Judges a certificate over its book.
pub fn judge(book: &[u8], certificate: &[u8], work: &mut [u64]) -> Verdict {
    verdict(over_table(work, || judged(book, certificate)))
}

/// The program's framing: "two bytes, the book's length, high byte first, then
/// the book; the certificate begins at the next byte after the book and takes
/// the rest".
pub fn judge_input(input: &[u8], work: &mut [u64]) -> Verdict {
    verdict(over_table(work, || {
        let (book, certificate) = framed(input)?;
        judged(book, certificate)
    }))
}

/// "Order: 1; ..", before the framing too. This judge needs no work table, but
/// keeps the promise about it: "The work table is all zeros after every call but
/// refusal 1, which doesn't touch it."
pub fn over_table<T>(
    work: &mut [u64],
    answered: impl FnOnce() -> Result<T, Refusal>,
) -> Result<T, Refusal> {
    if work.len() < WORK_NUMBERS {
        return Err(Refusal::placeless(1, NEITHER));
    }
    work.fill(0);
    answered()
}

fn verdict(judged: Result<Closing, Refusal>) -> Verdict {
    match judged {
        Ok(closing) => {
            Verdict::Accepted { line: u64::from(closing.line), k: closing.k, alpha: closing.alpha }
        }
        Err(refusal) => Verdict::Refused(refusal),
    }
}

/// "More than 49,154 bytes is refusal 2, fewer than two bytes or fewer than the
/// length says is 3, both with W = 4 and A and B 0."
fn framed(input: &[u8]) -> Result<(&[u8], &[u8]), Refusal> {
    if input.len() > INPUT_BYTES {
        return Err(Refusal::placeless(2, NEITHER));
    }
    let short = Refusal::placeless(3, NEITHER);
    let (length, rest) = input.split_first_chunk::<2>().ok_or(short)?;
    rest.split_at_checked(usize::from(u16::from_be_bytes(*length))).ok_or(short)
}

/// "the whole book field by field; the whole certificate; then lines from 0 up;
/// then closing"
fn judged(book: &[u8], certificate: &[u8]) -> Result<Closing, Refusal> {
    let (book, certificate) = parse_both(book, certificate)?;
    check(&book, &certificate)?;
    Ok(certificate.closing)
}

/// The judgement of well-formed trees.
pub fn check(book: &Book, certificate: &Certificate) -> Checked {
    for number in 0..certificate.lines.len() {
        check_line(book, &certificate.lines, number)?;
    }
    check_closing(&certificate.lines, &certificate.closing)
}

fn check_line(book: &Book, lines: &[Line], number: usize) -> Checked {
    let judged = Judged { w: LINE, a: number as u64 };
    let line = &lines[number];
    match &line.proof {
        Proof::Unfold { rule, stop, filling, before, last } => {
            let rule = &book.rules[usize::from(*rule)];
            let unfold = Unfold { rule, stop: usize::from(*stop), filling, before, last };
            unfold.check(lines, line, judged)
        }
        Proof::Descent { base, rule, filling } => {
            let rule = &book.rules[usize::from(*rule)];
            Descent { base, rule, filling }.check(lines, line, judged)
        }
    }
}

/// What is judged: "A is the line judged, in the closing the line named, and B
/// is the part".
#[derive(Clone, Copy)]
struct Judged {
    w: u8,
    a: u64,
}

impl Judged {
    fn refuse<T>(self, number: u8, part: u64) -> Result<T, Refusal> {
        Err(Refusal::new(number, self.w, self.a, part))
    }

    fn demand(self, good: bool, number: u8, part: u64) -> Checked {
        if good {
            Ok(())
        } else {
            self.refuse(number, part)
        }
    }

    /// "Every comparison builds its first-named side, then its second." Both
    /// are always built, so 16 stands before `otherwise`.
    fn compare(self, first: Side, second: Side, part: u64, otherwise: u8) -> Checked {
        let first = self.built(first, part)?;
        let second = self.built(second, part)?;
        self.demand(first == second, otherwise, part)
    }

    /// The normal form of a side. "The empty mark has no nodes".
    fn built(self, side: Side, part: u64) -> Result<Side, Refusal> {
        let normal = side.map(|term| term.normal());
        if normal.as_ref().map_or(0, Term::nodes) > SIDE_NODES {
            return self.refuse(16, part);
        }
        Ok(normal)
    }
}

struct Unfold<'a> {
    rule: &'a Rule,
    stop: usize,
    filling: &'a Filling,
    before: &'a [Use],
    last: &'a Option<Use>,
}

impl Unfold<'_> {
    fn check(&self, lines: &[Line], line: &Line, judged: Judged) -> Checked {
        // "part 0: u filled equals left, else 9"
        let head = self.rule.head.filled(self.filling);
        judged.compare(Some(head), Some(line.left.clone()), 0, 9)?;
        // "part j, for j = 1 to i where a use stands"
        for (place, one) in self.before.iter().chain(self.last).enumerate() {
            self.check_use(lines, one, place + 1, judged)?;
        }
        // "part 15: right equals ... else 12"
        judged.compare(line.right.clone(), self.reached(lines), RIGHT_PART, 12)
    }

    fn check_use(&self, lines: &[Line], one: &Use, j: usize, judged: Judged) -> Checked {
        let used = &lines[usize::from(one.line)];
        let calls = self.rule.calls.len();
        // "For j < i the used line's right must be empty; for j = i < m it must
        // not be; else 11."
        let right_allowed = if j < self.stop {
            used.right.is_none()
        } else if j < calls {
            used.right.is_some()
        } else {
            true
        };
        judged.demand(right_allowed, 11, j as u64)?;
        // "Then vj filled equals the instance of the used left, else 10"
        judged.compare(Some(self.call(j)), Some(instance(&used.left, one)), j as u64, 10)
    }

    /// "the empty mark if m = 0, vi filled if the line stops there, else the
    /// instance of the used right"
    fn reached(&self, lines: &[Line]) -> Side {
        match self.last {
            _ if self.rule.calls.is_empty() => None,
            None => Some(self.call(self.stop)),
            Some(one) => instance_of_right(lines, one),
        }
    }

    /// vj filled, j from 1.
    fn call(&self, j: usize) -> Term {
        self.rule.calls[j - 1].filled(self.filling)
    }
}

struct Descent<'a> {
    base: &'a Use,
    rule: &'a Rule,
    filling: &'a Filling,
}

impl Descent<'_> {
    fn check(&self, lines: &[Line], line: &Line, judged: Judged) -> Checked {
        // "part 0: the instance of the base's left equals left reindexed by
        // (0,0), else 9"
        let base_left = instance(&lines[usize::from(self.base.line)].left, self.base);
        judged.compare(Some(base_left), Some(line.left.reindexed(0, 0)), 0, 9)?;
        // "part 1: the instance of the base's right equals right reindexed by
        // (0,0), else 12"
        let base_right = instance_of_right(lines, self.base);
        let right_at_0 = line.right.as_ref().map(|right| right.reindexed(0, 0));
        judged.compare(base_right, right_at_0, 1, 12)?;
        // "part 2: the rule's head filled equals left reindexed by (1,1), else 9"
        let head = self.rule.head.filled(self.filling);
        judged.compare(Some(head), Some(line.left.reindexed(1, 1)), 2, 9)?;
        // "part 3: the rule's call filled equals left, else 10"
        let call = self.rule.calls[0].filled(self.filling);
        judged.compare(Some(call), Some(line.left.clone()), 3, 10)?;
        // "part 4: right is empty or has a = 0 in every power, else 13"
        let steady = line.right.as_ref().is_none_or(Term::is_constant_in_the_index);
        judged.demand(steady, 13, 4)
    }
}

fn check_closing(lines: &[Line], closing: &Closing) -> Checked {
    let judged = Judged { w: CLOSING, a: u64::from(closing.line) };
    let line = &lines[usize::from(closing.line)];
    // "Part 0: the line's right is not empty, else 14."
    let Some(right) = &line.right else {
        return judged.refuse(14, 0);
    };
    // "Part 1: right reindexed by (1, α) equals left reindexed by (1, α+k) and
    // then filled, else 15."
    let reached = right.reindexed(1, closing.alpha);
    let later = line.left.instance(1, closing.alpha + closing.k, &closing.filling);
    judged.compare(Some(reached), Some(later), 1, 15)
}

/// "A use is an earlier line, an index pair and a filling, which together give
/// an instance of that line."
fn instance(term: &Term, one: &Use) -> Term {
    term.instance(one.i, one.j, &one.filling)
}

/// "The empty mark ... is its own instance at any index".
fn instance_of_right(lines: &[Line], one: &Use) -> Side {
    lines[usize::from(one.line)].right.as_ref().map(|right| instance(right, one))
}
