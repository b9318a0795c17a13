//! Powers of two symbols, large terms, and sides as large as they may be.

use super::{s, x, y, zero, S, X, Y};
use crate::random::Random;
use crate::world::{fun, rule, use_of, Case, World};
use second::Term;

/// Powers of two unary symbols that vanish and meet at index 0.
pub fn two_symbols(random: &mut Random) -> Option<Case> {
    const R: u8 = 2;
    let f = |t: Term| fun(3, &[t, y()]);
    let r = |a: u64, b: u64, below: Term| Term::pow(R, a, b, below);
    let more = random.between(1, 3);
    let rules = [
        rule(f(s(0, 1, x())), &[f(s(0, 1, r(0, more, x())))]),
        rule(f(s(0, 2, x())), &[f(s(0, 1, x())), zero()]),
        rule(zero(), &[f(s(0, 1, x()))]),
    ];
    let mut world = World::new(&[1, 0, 1, 2], &rules);
    let each = random.between(1, 2);
    let hint = r(each, random.small(), s(0, random.between(1, 9), x()));
    let grows = world.unfold(0, 1, &[(X, hint)], Vec::new(), None)?;
    let inner = use_of(grows, 1, random.small(), &[(X, s(1, 0, zero()))]);
    let _ = world.unfold(0, 1, &[], Vec::new(), Some(inner.clone()));
    let _ = world.unfold(1, 1, &[(X, s(1, 0, x()))], Vec::new(), None);
    let _ = world.unfold(2, 1, &[], Vec::new(), Some(inner));
    world.closed(grows, more / each, random.between(0, 3))
}

/// Terms of up to 256 nodes and large numbers.
pub fn large_terms(random: &mut Random) -> Option<Case> {
    const R: u8 = 2;
    let tower = |random: &mut Random, nodes: u64, end: Term| {
        (1..nodes).fold(end, |below, n| {
            Term::pow(
                if n % 2 == 0 { S } else { R },
                random.small(),
                random.between(1, 4_095),
                below,
            )
        })
    };
    let side = |t: Term| fun(3, &[t, zero()]);
    let mut world = World::new(&[1, 0, 1, 2], &[rule(side(x()), &[side(x())])]);
    let nodes = random.between(200, 254);
    let hint = tower(random, nodes, y()).normal();
    let line = world.unfold(0, 1, &[(X, hint.clone())], Vec::new(), None)?;
    let _ = world.unfold(0, 1, &[], Vec::new(), Some(use_of(line, 1, 0, &[])));
    world.closed(line, 0, *random.pick(&[0, 1, 2_047, 4_095]))
}

/// A call of exactly 1,024 nodes or a few less on both sides.
pub fn full_side(random: &mut Random) -> Option<Case> {
    full_side_of(random.between(1_000, 1_024))
}

/// c :- big(x, ..., x, y), c. big(x, ..., x, y).
pub fn full_side_of(nodes: u64) -> Option<Case> {
    const R: u8 = 2;
    let tower = |nodes: u64, end: Term| {
        (1..nodes).fold(end, |below, n| Term::pow(if n % 2 == 0 { S } else { R }, 0, 1, below))
    };
    let mut arguments = vec![x(); 7];
    arguments.push(y());
    let big = fun(3, &arguments);
    let rules = [rule(zero(), &[big.clone(), zero()]), rule(big, &[])];
    let mut world = World::new(&[1, 0, 1, 8], &rules);
    let fact = world.fact(1, &[])?;
    let hints = [(X, tower(128, x())), (Y, tower(nodes - 1 - 7 * 128, y()))];
    let line = world.unfold(0, 2, &hints, vec![use_of(fact, 0, 0, &hints)], None)?;
    world.closed(line, 0, 0)
}
