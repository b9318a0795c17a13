//! One-way matching of terms with powers.

use second::{Filling, Term};
use std::collections::BTreeMap;

/// Variables of a pattern with the normal terms that stand for them.
pub type Bindings = BTreeMap<u8, Term>;

/// Extends the bindings so that the pattern, filled, has the normal form
/// `target`; false if that fails. Both terms are normal.
pub fn solve(pattern: &Term, target: &Term, bindings: &mut Bindings) -> bool {
    match (pattern, target) {
        (Term::Var(name), _) => match bindings.get(name) {
            Some(bound) => bound == target,
            None => {
                bindings.insert(*name, target.clone());
                true
            }
        },
        (Term::Fun(one, ones), Term::Fun(other, others)) => {
            one == other
                && ones.len() == others.len()
                && ones.iter().zip(others).all(|(one, other)| solve(one, other, bindings))
        }
        (Term::Pow { symbol, a, b, arg }, Term::Pow { symbol: like, a: a2, b: b2, arg: below }) => {
            symbol == like
                && a <= a2
                && b <= b2
                && solve_rest(arg, *symbol, a2 - a, b2 - b, below, bindings)
        }
        _ => false,
    }
}

/// Matches what is left of a power; below it stands no power of its like.
fn solve_rest(
    pattern: &Term,
    symbol: u8,
    a: u64,
    b: u64,
    below: &Term,
    bindings: &mut Bindings,
) -> bool {
    if a == 0 && b == 0 {
        solve(pattern, below, bindings)
    } else {
        solve(pattern, &Term::pow(symbol, a, b, below.clone()), bindings)
    }
}

pub fn filling_of(bindings: &Bindings) -> Filling {
    bindings.iter().map(|(name, term)| (*name, term.clone())).collect()
}
