//! Refusals 9 to 16 at each part, the limit of 1,024 nodes, and the traps.

#[path = "../common/mod.rs"]
mod common;
mod descents;
mod large;
mod traps;
mod unfolds;

use common::*;
use second::*;

const BIG: u8 = 3;

/// Symbols c/0, s/1, r/1, big/8 and p/2.
pub fn book(rules: &[Rule]) -> Book {
    Book { arities: vec![0, 1, 1, 8, 2], rules: rules.to_vec() }
}

pub fn c() -> Term {
    f(0, &[])
}

pub fn pair(first: Term, second: Term) -> Term {
    f(4, &[first, second])
}

/// big(x, ..., x, y)
pub fn big(x: Term, y: Term) -> Term {
    let mut arguments = vec![x; 7];
    arguments.push(y);
    f(BIG, &arguments)
}

/// A normal term of so many nodes with one variable: powers of s and r in turn.
pub fn tower(nodes: u32, name: u8) -> Term {
    (1..nodes).fold(v(name), |below, n| p(1 + (n % 2) as u8, 0, 1, below))
}

pub fn certificate(lines: &[Line], closing: Closing) -> Certificate {
    Certificate { lines: lines.to_vec(), closing }
}

pub fn end() -> Closing {
    closing(0, 0, 0, &[])
}
