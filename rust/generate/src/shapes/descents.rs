//! Loops whose lines stand on descents.

use super::{s, world, x, y, z, zero, X, Y};
use crate::random::Random;
use crate::world::{fun, rule, use_of, Case};
use second::{Rule, Term};

/// A relation a(s^p(x), s^q(y)) :- a(x,y). a(x,x), p and q given.
fn scaling(symbol: u8, p: u64, q: u64) -> [Rule; 2] {
    let side = |one: Term, other: Term| fun(symbol, &[one, other]);
    [rule(side(x(), x()), &[]), rule(side(s(0, p, x()), s(0, q, y())), &[side(x(), y())])]
}

/// loop(x) :- double(x,y), loop(s^c(y)).
pub fn doubled(random: &mut Random) -> Option<Case> {
    let factor = random.between(2, 4);
    let more = random.small();
    let [fact, step] = scaling(2, 1, factor);
    let side = |t: Term| fun(3, &[t, z()]);
    let grown = if more == 0 { y() } else { s(0, more, y()) };
    let again = rule(side(x()), &[fun(2, &[x(), y()]), side(grown)]);
    let mut world = world(&[2, 2], &[fact, step, again]);
    let base = world.fact(0, &[])?;
    let scaled = world.descent(1, use_of(base, random.index(), random.index(), &[]))?;
    let pair = (random.between(1, 3), random.small());
    let line = world.unfold(2, 2, &[], vec![use_of(scaled, pair.0, pair.1, &[])], None)?;
    let (k, alpha) = (random.between(0, 3), random.between(0, 3));
    world.closed(line, k, alpha)
}

/// loop(x) :- half(x,y), double(y,z), loop(s^c(z)).
pub fn halved(random: &mut Random) -> Option<Case> {
    let factor = random.between(2, 4);
    let [half_fact, half] = scaling(2, factor, 1);
    let [back_fact, back] = scaling(3, 1, factor);
    let more = random.between(1, 6);
    let side = |t: Term| fun(4, &[t, zero()]);
    let calls = [fun(2, &[x(), y()]), fun(3, &[y(), z()]), side(s(0, more, z()))];
    let again = rule(side(x()), &calls);
    let mut world = world(&[2, 2, 2], &[half_fact, half, back_fact, back, again]);
    let first = world.fact(0, &[])?;
    let halves = world.descent(1, use_of(first, 0, 0, &[]))?;
    let second = world.fact(2, &[])?;
    let doubles = world.descent(3, use_of(second, 0, 3, &[]))?;
    let uses = vec![use_of(halves, 1, 0, &[]), use_of(doubles, 1, 0, &[])];
    let line = world.unfold(4, 3, &[], uses, None)?;
    let (k, alpha) = (random.between(0, 2), random.small());
    world.closed(line, k, alpha)
}

/// m(s(x),y) :- m(x,y). m(0,s(y)) :- m(0,y). m(0,0). A descent over a descent.
pub fn nested(random: &mut Random) -> Option<Case> {
    let m = |one: Term, other: Term| fun(2, &[one, other]);
    let side = |one: Term, other: Term| fun(3, &[one, other]);
    let rules = [
        rule(m(zero(), zero()), &[]),
        rule(m(zero(), s(0, 1, y())), &[m(zero(), y())]),
        rule(m(s(0, 1, x()), y()), &[m(x(), y())]),
        rule(side(x(), y()), &[m(x(), y()), side(s(0, 1, x()), y())]),
    ];
    let mut world = world(&[2, 2], &rules);
    let fact = world.fact(0, &[])?;
    let inner = world.descent(1, use_of(fact, random.index(), random.index(), &[]))?;
    let outer = world.descent(2, use_of(inner, 0, random.small(), &[]))?;
    let line = world.unfold(3, 2, &[], vec![use_of(outer, 1, random.small(), &[])], None)?;
    let (k, alpha) = (1, random.small());
    world.closed(line, k, alpha)
}

/// down(s(x),y) :- down(x,y). down(0,y) :- go(y). go(y) :- down(y, s^c(y)).
pub fn descent_to_a_call(random: &mut Random) -> Option<Case> {
    let more = random.between(1, 3);
    let down = |one: Term, other: Term| fun(2, &[one, other]);
    let go = |t: Term| fun(3, &[t, zero()]);
    let rules = [
        rule(down(s(0, 1, x()), y()), &[down(x(), y())]),
        rule(down(zero(), y()), &[go(y()), go(zero())]),
        rule(go(y()), &[down(y(), s(0, more, y()))]),
    ];
    let mut world = world(&[2, 2], &rules);
    let base = world.unfold(1, 1, &[], Vec::new(), None)?;
    let steps = world.descent(0, use_of(base, 0, 0, &[]))?;
    let index = random.between(1, 2);
    let filling = [(Y, s(index, more, zero()))];
    let line = world.unfold(2, 1, &[], Vec::new(), Some(use_of(steps, index, 0, &filling)))?;
    let k = more / index;
    world.closed(line, k, random.small())
}

/// The paper's Example 1, the document's book W.
pub fn example_1(random: &mut Random) -> Option<Case> {
    let gt = |one: Term, other: Term| fun(2, &[one, other]);
    let add = |one: Term, other: Term, sum: Term| fun(3, &[one, other, sum]);
    let again = |one: Term, other: Term| fun(4, &[one, other]);
    let rules = [
        rule(gt(s(0, 1, x()), zero()), &[]),
        rule(gt(s(0, 1, x()), s(0, 1, y())), &[gt(x(), y())]),
        rule(add(x(), zero(), x()), &[]),
        rule(add(x(), s(0, 1, y()), s(0, 1, z())), &[add(x(), y(), z())]),
        rule(again(x(), y()), &[gt(x(), y()), add(x(), y(), z()), again(z(), s(0, 1, y()))]),
    ];
    let mut world = world(&[2, 3, 2], &rules);
    let first = world.fact(0, &[])?;
    let greater = world.descent(1, use_of(first, 0, 0, &[]))?;
    let second = world.fact(2, &[])?;
    let sum = world.descent(3, use_of(second, 0, 0, &[]))?;
    let uses = vec![use_of(greater, 1, 0, &[]), use_of(sum, 1, 0, &[(X, s(1, 1, x()))])];
    let line = world.unfold(4, 3, &[], uses, None)?;
    world.closed(line, 1, random.between(1, 20))
}
