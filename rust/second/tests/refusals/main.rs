//! Every refusal number up to 8 with its place, and the order of refusals.

#[path = "../common/mod.rs"]
mod common;
mod ends;
mod lent;
mod order;
mod ranges;
mod sizes;
mod terms;

use common::*;
use second::spell::pack_book;
use second::*;

/// c/0, s/1, r/1, f/2 and the rules c. c :- c. f(x,y) :- f(x,y), c.
pub fn small_book() -> Book {
    let c = || f(0, &[]);
    let g = || f(3, &[v(0), v(1)]);
    Book {
        arities: vec![0, 1, 1, 2],
        rules: vec![rule(c(), &[]), rule(c(), &[c()]), rule(g(), &[g(), c()])],
    }
}

pub fn small_bytes() -> Vec<u8> {
    pack_book(&small_book())
}

/// A term of so many nodes, of 10 bits each: f/2 chained to the right, ending in c.
pub fn chain(nodes: usize) -> Term {
    assert!(nodes % 2 == 1);
    (0..nodes / 2).fold(f(0, &[]), |below, _| f(3, &[f(0, &[]), below]))
}
