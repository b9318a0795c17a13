//! Pairs with sides around the limit of 1,024 nodes.

use crate::random::Random;
use crate::world::{fun, rule, use_of, var, Case, World};
use second::{Certificate, Closing, Filling, Line, Proof, Term, Use};

const S: u8 = 0;
const C: u8 = 1;
const R: u8 = 2;
const BIG: u8 = 3;

/// A tower of so many nodes: powers of r and s in turn, r at the bottom.
fn tower(nodes: u64, name: u8, random: &mut Random) -> Term {
    (1..nodes).fold(var(name), |below, n| {
        let symbol = if n % 2 == 0 { S } else { R };
        Term::pow(symbol, random.small(), random.between(1, 9), below)
    })
}

/// A filling of x and y that makes big(x, ..., x, y) have about 1,024 nodes.
fn sizes(random: &mut Random) -> Filling {
    let (x, y) = match random.below(3) {
        0 => (128, 127 + random.between(0, 2)),
        1 => (random.between(120, 150), random.between(1, 256)),
        _ => (random.between(1, 256), random.between(1, 256)),
    };
    vec![(0, tower(x, 0, random)), (1, tower(y, 1, random))]
}

/// A pair with sides around the limit of 1,024 nodes, at any part.
pub fn large_side(random: &mut Random) -> Option<Case> {
    let mut arguments = vec![var(0); 7];
    arguments.push(var(1));
    let big = || fun(BIG, &arguments);
    let c = || fun(C, &[]);
    // c :- c, ..., c, big(..), c, ...: the large call is call `place`.
    let place = random.between(1, 8) as usize;
    let mut calls = vec![c(); place + random.below(9 - place)];
    calls[place - 1] = big();
    let stops = calls.len().min(place + 1) as u64;
    let rules = [
        rule(big(), &[]),
        rule(c(), &[big(), c()]),
        rule(c(), &[big()]),
        rule(big(), &[c()]),
        rule(c(), &[c()]),
        rule(c(), &[c(), c(), big(), big(), c()]),
        rule(c(), &[]),
        rule(c(), &calls),
    ];
    let mut world = World::new(&[1, 0, 1, 8], &rules);
    let fact = world.fact(0, &[])?;
    let to_big = world.unfold(2, 1, &[], Vec::new(), None)?;
    let to_c = world.unfold(4, 1, &[], Vec::new(), None)?;
    let from_big = world.unfold(3, 1, &[], Vec::new(), None)?;
    let fact_c = use_of(world.fact(6, &[])?, 2, 3, &[]);
    let one = sizes(random);
    let other = if random.chance(1, 3) { one.clone() } else { sizes(random) };
    let use_with = |line: usize, filling: &Filling| use_of(line, 1, 0, filling);
    let right = if random.chance(1, 2) { Some(c()) } else { None };
    let unfold = |left: Term, right: Option<Term>, rule: u8, stop: u8, before: &[Use], last| Line {
        left,
        right,
        proof: Proof::Unfold { rule, stop, filling: one.clone(), before: before.to_vec(), last },
    };
    let descent = |base: Use, rule: u8, filling: &Filling, right: Option<Term>| Line {
        left: c(),
        right,
        proof: Proof::Descent { base, rule, filling: filling.clone() },
    };
    let mut closing = Closing { line: to_c as u8, k: 0, alpha: 0, filling: Vec::new() };
    let either = *random.pick(&[fact, from_big, from_big]);
    let line = match random.below(18) {
        14..=17 => {
            let stop = random.between(place as u64, stops) as usize;
            let used = if place < stop { fact } else { either };
            let mut before = vec![fact_c; place - 1];
            before.push(use_with(used, &other));
            let last = if place == stop { before.pop() } else { None };
            unfold(c(), right, 7, stop as u8, &before, last)
        }
        10 => unfold(c(), right, 1, 1, &[], Some(use_with(either, &other))),
        11 => {
            let before = [fact_c.clone(), fact_c];
            unfold(c(), right, 5, 3, &before, Some(use_with(either, &other)))
        }
        12 => {
            let before = [fact_c.clone(), fact_c, use_with(fact, &one)];
            unfold(c(), right, 5, 4, &before, Some(use_with(either, &other)))
        }
        13 => unfold(c(), Some(c()), 1, 2, &[use_with(either, &other)], None),
        0 => unfold(big(), right, 0, 0, &[], None),
        1 => unfold(c(), Some(c()), 1, 2, &[use_with(fact, &other)], None),
        2 => unfold(c(), right, 2, 1, &[], Some(use_with(from_big, &other))),
        3 => unfold(c(), right, 2, 1, &[], None),
        4 => unfold(c(), right, 4, 1, &[], Some(use_with(to_big, &other))),
        5 => descent(use_with(fact, &one), 4, &other, right),
        6 => descent(use_with(to_big, &one), 4, &other, right),
        7 => descent(use_with(to_c, &one), 3, &other, Some(c())),
        8 => descent(use_with(to_c, &one), 2, &other, Some(c())),
        _ => {
            closing = Closing { line: from_big as u8, k: 3, alpha: 1, filling: other };
            unfold(c(), Some(c()), 4, 1, &[], None)
        }
    };
    world.lines.push(line);
    Some(Case { book: world.book, certificate: Certificate { lines: world.lines, closing } })
}
