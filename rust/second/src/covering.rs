//! Is a call in the accepted family? The plain way: one index after the other,
//! the pattern at each of them written out and matched with the call.

use crate::answer::{Coverage, Refusal, NEITHER};
use crate::files::{parse_both, parse_call};
use crate::judging::{check, over_table};
use crate::term::Term;
use std::borrow::Cow;
use std::collections::BTreeMap;

/// "No search beyond index 4,095 is needed when the pattern has a power with a
/// above 0, since a call's exponents end there".
pub const LAST_INDEX: u64 = 4_095;

/// The variables of a pattern, each with the part of the call that it stands for.
type Bindings = BTreeMap<u8, Term>;

/// "say whether some index from α on and some filling turn the accepted pattern
/// into exactly that call"
pub fn covers(book: &[u8], certificate: &[u8], call: &[u8], work: &mut [u64]) -> Coverage {
    match over_table(work, || covering_index(book, certificate, call)) {
        Ok(index) => Coverage::Covered { index },
        Err(refusal) => Coverage::Refused(refusal),
    }
}

/// "Refusals: the judge's own first; then 3 to 7 for the call, with W = 5, ..;
/// then 17, W = 4, not covered."
fn covering_index(book: &[u8], certificate: &[u8], call: &[u8]) -> Result<u64, Refusal> {
    let (book, certificate) = parse_both(book, certificate)?;
    check(&book, &certificate)?;
    let call = parse_call(&book, call)?;
    let closing = &certificate.closing;
    let pattern = &certificate.lines[usize::from(closing.line)].left;
    smallest_index(pattern, closing.alpha, &call).ok_or(Refusal::placeless(17, NEITHER))
}

/// The smallest index from `alpha` on at which the pattern is the call. "A
/// pattern without index answers α."
pub fn smallest_index(pattern: &Term, alpha: u64, call: &Term) -> Option<u64> {
    let last = if pattern.is_constant_in_the_index() { alpha } else { LAST_INDEX };
    (alpha..=last).find(|index| is_call_at(pattern, *index, call))
}

/// Does some filling turn the pattern at this index into the call?
pub fn is_call_at(pattern: &Term, index: u64, call: &Term) -> bool {
    // By (0, n) every power has a = 0, and b as many symbols as it means at n.
    let at_index = pattern.reindexed(0, index).normal();
    matches(&at_index, call, &mut Bindings::new())
}

/// Matches a normal term without index with another. What a variable stands for
/// is kept, and must be the same wherever it stands.
fn matches(pattern: &Term, call: &Term, bindings: &mut Bindings) -> bool {
    match (pattern, call) {
        (Term::Var(name), _) => bindings.entry(*name).or_insert_with(|| call.clone()) == call,
        (Term::Fun(one, parts), Term::Fun(other, others)) => {
            one == other
                && parts.iter().zip(others).all(|(part, other)| matches(part, other, bindings))
        }
        (Term::Pow { symbol: one, b, arg, .. }, Term::Pow { symbol: other, b: more, .. }) => {
            one == other && b <= more && matches(arg, &without(call, *b), bindings)
        }
        _ => false,
    }
}

/// A power without so many of its symbols.
fn without(power: &Term, count: u64) -> Cow<'_, Term> {
    match power {
        Term::Pow { b, arg, .. } if *b == count => Cow::Borrowed(arg),
        Term::Pow { symbol, a, b, arg } => {
            Cow::Owned(Term::Pow { symbol: *symbol, a: *a, b: b - count, arg: arg.clone() })
        }
        other => Cow::Borrowed(other),
    }
}
