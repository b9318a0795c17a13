//! Trees made by hand, in short words: for the generator and the tests.

use crate::model::{Rule, Use};
use crate::term::Term;

pub fn var(name: u8) -> Term {
    Term::Var(name)
}

pub fn fun(symbol: u8, arguments: &[Term]) -> Term {
    Term::Fun(symbol, arguments.to_vec())
}

pub fn rule(head: Term, calls: &[Term]) -> Rule {
    Rule { head, calls: calls.to_vec() }
}

pub fn use_of(line: usize, i: u64, j: u64, filling: &[(u8, Term)]) -> Use {
    Use { line: line as u8, i, j, filling: filling.to_vec() }
}
