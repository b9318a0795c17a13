//! Two shapes in one pair, and random lines that hold.

use super::SHAPES;
use crate::random::Random;
use crate::scramble::move_numbers;
use crate::world::{random_term, use_of, Case, World};
use second::{Certificate, Use};

/// Two shapes in one pair, then random lines that hold; any closing.
pub fn combination(random: &mut Random) -> Option<Case> {
    let (_, one) = *random.pick(&SHAPES[..12]);
    let (_, other) = *random.pick(&SHAPES[..12]);
    let mut world = joined(one(random)?, other(random)?)?;
    for _ in 0..random.between(0, 12) {
        random_line(&mut world, random);
    }
    let closing = world.any_closing(random)?;
    Some(Case { book: world.book, certificate: Certificate { lines: world.lines, closing } })
}

/// Both books and all lines, the second's numbers moved up.
fn joined(one: Case, other: Case) -> Option<World> {
    let mut second = other;
    let symbols = one.book.arities.len() as u8;
    let rules = one.book.rules.len() as u8;
    let lines = one.certificate.lines.len() as u8;
    move_numbers(&mut second, symbols, rules, lines);
    let mut world = World { book: one.book, lines: one.certificate.lines };
    world.book.arities.extend(second.book.arities);
    world.book.rules.extend(second.book.rules);
    world.lines.extend(second.certificate.lines);
    (world.lines.len() <= 200).then_some(world)
}

/// Adds a random line that holds, if the first trials find one.
pub fn random_line(world: &mut World, random: &mut Random) {
    let _ = (0..8).find_map(|_| {
        if random.chance(1, 4) {
            random_descent(world, random)
        } else {
            random_unfold(world, random)
        }
    });
}

fn random_use(world: &World, random: &mut Random) -> Option<Use> {
    if world.lines.is_empty() {
        return None;
    }
    let line = random.below(world.lines.len());
    let pairs = [(1, 0), (1, 0), (0, 0), (0, 1), (1, 1), (2, 0), (2, 1), (0, 4)];
    let (i, j) = *random.pick(&pairs);
    let mut filling = Vec::new();
    for name in 0..3 {
        if random.chance(1, 4) {
            filling.push((name, random_term(random, &world.book.arities, 3, true, 4)));
        }
    }
    Some(use_of(line, i, j, &filling))
}

fn random_unfold(world: &mut World, random: &mut Random) -> Option<usize> {
    let number = random.below(world.book.rules.len());
    let calls = world.book.rules[number].calls.len();
    let stop = if calls == 0 { 0 } else { 1 + random.below(calls) };
    let mut before = Vec::new();
    for _ in 1..stop {
        before.push(random_use(world, random)?);
    }
    let last = if stop > 0 && random.chance(1, 2) { random_use(world, random) } else { None };
    let mut hints = Vec::new();
    for name in 0..3 {
        if random.chance(1, 4) {
            hints.push((name, random_term(random, &world.book.arities, 3, true, 5)));
        }
    }
    world.unfold(number, stop, &hints, before, last)
}

fn random_descent(world: &mut World, random: &mut Random) -> Option<usize> {
    let one_call: Vec<usize> = (0..world.book.rules.len())
        .filter(|number| world.book.rules[*number].calls.len() == 1)
        .collect();
    if one_call.is_empty() {
        return None;
    }
    let number = *random.pick(&one_call);
    let mut base = random_use(world, random)?;
    base.i = 0;
    world.descent(number, base)
}
