//! Small changes of a pair that keep it well-formed: each plants a fault that a check can
//! find, or answers nothing.

use crate::random::Random;
use crate::visit::{parts_of, rule_of};
use crate::world::{fits_a_file, random_term, use_of, Case};
use second::{Closing, Filling, Line, Proof, Term};

/// Changes a term a little; it still fits a file.
pub fn nudge(term: &mut Term, arities: &[u8], random: &mut Random) -> Option<()> {
    let place = random.below(term.nodes());
    let node = node_at(term, place);
    let changed = nudged(node, arities, random)?;
    *node = changed;
    *term = term.normal();
    fits_a_file(term).then_some(())
}

/// The node with this number, counted from the root down, left to right.
pub fn node_at(term: &mut Term, place: usize) -> &mut Term {
    if place == 0 {
        return term;
    }
    match term {
        Term::Var(_) => panic!("no such node"),
        Term::Pow { arg, .. } => node_at(arg, place - 1),
        Term::Fun(_, arguments) => {
            let mut place = place - 1;
            for argument in arguments {
                let nodes = argument.nodes();
                if place < nodes {
                    return node_at(argument, place);
                }
                place -= nodes;
            }
            panic!("no such node")
        }
    }
}

fn nudged(node: &Term, arities: &[u8], random: &mut Random) -> Option<Term> {
    let changed = match (random.below(4), node.clone()) {
        (0, Term::Pow { symbol, a, b, arg }) => Term::Pow { symbol, a: a + 1, b, arg },
        (1, Term::Pow { symbol, a, b, arg }) => Term::Pow { symbol, a, b: b + 1, arg },
        (2, _) => random_term(random, arities, 3, true, 4),
        (_, node) => Term::pow(any_unary(arities, random)?, random.small(), random.small(), node),
    };
    Some(changed)
}

fn any_unary(arities: &[u8], random: &mut Random) -> Option<u8> {
    let unary: Vec<usize> = (0..arities.len()).filter(|number| arities[*number] == 1).collect();
    (!unary.is_empty()).then(|| *random.pick(&unary) as u8)
}

pub fn nudge_entry(filling: &mut Filling, arities: &[u8], random: &mut Random) -> Option<()> {
    if filling.is_empty() {
        filling.push((random.small() as u8, random_term(random, arities, 3, true, 4)));
        return Some(());
    }
    let place = random.below(filling.len());
    if random.chance(1, 3) {
        filling.remove(place);
        return Some(());
    }
    nudge(&mut filling[place].1, arities, random)
}

pub fn nudge_use(line: &mut Line, arities: &[u8], random: &mut Random) -> Option<()> {
    let mut uses = parts_of(&mut line.proof).1;
    if uses.is_empty() {
        return None;
    }
    let last = uses.len() - 1;
    let place = if random.chance(1, 2) { last } else { random.below(last + 1) };
    let one = &mut *uses[place];
    match random.below(3) {
        0 => one.i = random.between(0, 4),
        1 => one.j = random.between(0, 4),
        _ => nudge_entry(&mut one.filling, arities, random)?,
    }
    Some(())
}

pub fn nudge_right(line: &mut Line, arities: &[u8], random: &mut Random) -> Option<()> {
    match &mut line.right {
        Some(_) if random.chance(1, 3) => line.right = None,
        Some(right) => nudge(right, arities, random)?,
        None => line.right = Some(random_term(random, arities, 3, true, 5)),
    }
    Some(())
}

pub fn use_a_line_with_right(line: &mut Line, earlier: &[Line], random: &mut Random) -> Option<()> {
    let Proof::Unfold { before, .. } = &mut line.proof else { return None };
    let with_right = numbers_where(earlier, |line| line.right.is_some());
    if before.is_empty() || with_right.is_empty() {
        return None;
    }
    let last = before.len() - 1;
    let place = if random.chance(1, 2) { last } else { random.below(last + 1) };
    before[place].line = *random.pick(&with_right) as u8;
    Some(())
}

pub fn use_an_empty_line(line: &mut Line, earlier: &[Line], random: &mut Random) -> Option<()> {
    let Proof::Unfold { last, stop, .. } = &mut line.proof else { return None };
    let empty = numbers_where(earlier, |line| line.right.is_none());
    if *stop == 0 || empty.is_empty() {
        return None;
    }
    *last = Some(use_of(*random.pick(&empty), random.small(), random.small(), &[]));
    Some(())
}

fn numbers_where(lines: &[Line], wanted: impl Fn(&Line) -> bool) -> Vec<usize> {
    (0..lines.len()).filter(|number| wanted(&lines[*number])).collect()
}

/// Changes, in the book, a call of the rule that the line uses.
pub fn nudge_call_of_rule(case: &mut Case, number: usize, random: &mut Random) -> Option<()> {
    let line = &mut case.certificate.lines[number];
    if random.chance(1, 2) {
        return nudge_entry(parts_of(&mut line.proof).0, &case.book.arities, random);
    }
    let rule = &mut case.book.rules[usize::from(*rule_of(&mut line.proof))];
    let call = rule.calls.first_mut()?;
    nudge(call, &case.book.arities, random)?;
    (!matches!(call, Term::Var(_)) && call.is_constant_in_the_index()).then_some(())
}

/// Puts a power over some node that vanishes at index 0.
pub fn add_index(term: &mut Term, arities: &[u8], random: &mut Random) -> Option<()> {
    let symbol = any_unary(arities, random)?;
    let place = random.below(term.nodes());
    let node = node_at(term, place);
    *node = Term::pow(symbol, random.between(1, 3), 0, node.clone());
    *term = term.normal();
    fits_a_file(term).then_some(())
}

pub fn nudge_closing(closing: &mut Closing, arities: &[u8], random: &mut Random) -> Option<()> {
    match random.below(4) {
        0 => closing.k = random.between(0, 4_095 - closing.alpha),
        1 => closing.alpha = random.between(0, 4_095 - closing.k),
        2 => closing.alpha = closing.alpha.saturating_sub(1),
        _ => nudge_entry(&mut closing.filling, arities, random)?,
    }
    Some(())
}
