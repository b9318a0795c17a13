//! Loops without descents.

use super::{s, world, x, y, z, zero, X, Y};
use crate::random::Random;
use crate::world::{fun, random_term, rule, use_of, var, Case};
use second::{Term, Use};

/// f(x1, ..., xm) :- f(x1, ..., xm), with any index terms filled in.
pub fn plain_loop(random: &mut Random) -> Option<Case> {
    let arity = *random.pick(&[0, 2, 2, 3, 5, 8]);
    let names: Vec<Term> = (0..arity).map(var).collect();
    let call = fun(2, &names);
    let mut world = world(&[arity], &[rule(call.clone(), &[call])]);
    let arities = world.book.arities.clone();
    let hints: Vec<(u8, Term)> =
        (0..arity).map(|name| (name, random_term(random, &arities[..2], 4, true, 4))).collect();
    let line = world.unfold(0, 1, &hints, Vec::new(), None)?;
    let alpha = *random.pick(&[0, 0, 1, 7, 4_095]);
    let k = if arity == 0 { random.between(0, 4_095 - alpha) } else { 0 };
    world.closed(line, k, alpha)
}

/// count(x) :- count(s^k(x)), at s^{e,b}(0) or s^{e,b}(x).
pub fn counter(random: &mut Random) -> Option<Case> {
    let step = random.between(1, 12);
    let side = |t: Term| fun(2, &[t, y()]);
    let mut world = world(&[2], &[rule(side(x()), &[side(s(0, step, x()))])]);
    let each = random.between(1, 4);
    let end = if random.chance(1, 2) { zero() } else { x() };
    let hints = [(X, s(each, random.small(), end))];
    let line = world.unfold(0, 1, &hints, Vec::new(), None)?;
    let alpha = random.small();
    world.closed(line, step / each, alpha)
}

/// loop(x) :- c1, ..., cj, loop(s(x)), d1, ... with facts for the c.
pub fn several_calls(random: &mut Random) -> Option<Case> {
    let before = random.between(1, 7) as usize;
    let after = if random.chance(1, 3) { 0 } else { random.below(8 - before) };
    let side = |t: Term| fun(2, &[t, y()]);
    let goal = |number: usize| fun(3, &[x(), s(0, 1 + number as u64, y())]);
    let mut calls: Vec<Term> = (0..before).map(goal).collect();
    calls.push(side(s(0, 1, x())));
    calls.extend((0..after).map(|_| zero()));
    let rules = [rule(side(x()), &calls), rule(fun(3, &[x(), s(0, 1, y())]), &[])];
    let mut world = world(&[2, 2], &rules);
    let fact = world.fact(1, &[])?;
    let end = if random.chance(1, 2) { zero() } else { x() };
    let top = s(1, random.small(), end);
    let uses = (0..before).map(|number| {
        let deep = if number == 0 { y() } else { s(0, number as u64, y()) };
        use_of(fact, random.index(), random.index(), &[(X, top.clone()), (Y, deep)])
    });
    let uses: Vec<Use> = uses.collect();
    let line = world.unfold(0, before + 1, &[], uses.clone(), None)?;
    if random.chance(1, 2) {
        return world.closed(line, random.between(0, 1), random.small());
    }
    // Twice round, through the line just made.
    let twice = world.unfold(0, before + 1, &[], uses, Some(use_of(line, 1, 1, &[])))?;
    world.closed(twice, random.between(0, 2), random.small())
}

/// f(x,y,z) with its arguments moved round and grown.
pub fn swap(random: &mut Random) -> Option<Case> {
    let mut order = [x(), y(), z()];
    random.shuffle(&mut order);
    let head = fun(2, &[x(), y(), z()]);
    let next = order.map(|t| match random.below(3) {
        0 => s(0, random.between(1, 3), t),
        _ => t,
    });
    let mut world = world(&[3], &[rule(head, &[fun(2, &next)])]);
    let line = world.unfold(0, 1, &[], Vec::new(), None)?;
    let line = match random.below(3) {
        0 => world.unfold(0, 1, &[], Vec::new(), Some(use_of(line, 2, 5, &[])))?,
        _ => line,
    };
    world.closed(line, random.between(0, 9), random.between(0, 9))
}

/// count(x) :- count(s(x)), many lines that each use the one before.
pub fn chain_of_uses(random: &mut Random) -> Option<Case> {
    let side = |t: Term| fun(2, &[t, y()]);
    let mut world = world(&[2], &[rule(side(x()), &[side(s(0, 1, x()))])]);
    let mut line = world.unfold(0, 1, &[(X, s(1, 0, x()))], Vec::new(), None)?;
    let most = *random.pick(&[3, 10, 30, 30, 254]);
    for _ in 0..random.between(1, most) {
        let filling = [(X, s(0, 1, x()))];
        line = world.unfold(0, 1, &[], Vec::new(), Some(use_of(line, 1, 0, &filling)))?;
    }
    let steps = world.lines.len() as u64;
    let k = random.between(0, steps);
    world.closed(line, k, random.small())
}
