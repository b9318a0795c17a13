//! Two sides made to part at a chosen node, or nowhere.

use crate::random::Random;
use crate::world::{fun, random_term, var};
use second::judging::SIDE_NODES;
use second::{Filling, Term};

pub const S: u8 = 0;
pub const R: u8 = 1;
pub const C: u8 = 2;
pub const D: u8 = 3;
/// The symbol at the root of both sides; its arity is that of the sides.
pub const G: u8 = 4;

/// How the first side is made from the second.
#[derive(Clone, Copy, Debug, PartialEq, Eq)]
pub enum Parting {
    Nowhere,
    LastNode,
    /// In a of a power, mostly the last.
    A,
    /// In b of a power, mostly the last.
    B,
    /// In the first argument's root.
    Start,
    /// Two powers of one symbol are added up over a power of another.
    Joined,
    /// One of the sides is the empty mark, where it may be.
    Empty,
}

pub const PARTINGS: [Parting; 7] = [
    Parting::Nowhere,
    Parting::LastNode,
    Parting::A,
    Parting::B,
    Parting::Start,
    Parting::Joined,
    Parting::Empty,
];

/// A pattern with what makes it the second side of a comparison.
#[derive(Clone, Debug)]
pub struct Second {
    pub pattern: Term,
    pub i: u64,
    pub j: u64,
    pub filling: Filling,
}

impl Second {
    pub fn normal(&self) -> Term {
        self.pattern.instance(self.i, self.j, &self.filling).normal()
    }
}

/// Powers of s and r in turn over a term; some of them vanish at index 0.
pub fn chain(powers: u64, end: Term, random: &mut Random) -> Term {
    let mut symbol = *random.pick(&[S, R]);
    let above = (0..powers).fold(end, |below, _| {
        symbol = S + R - symbol;
        let (a, b) = match random.below(4) {
            0 => (random.between(1, 3), 0),
            1 => (random.between(1, 3), random.between(1, 3)),
            _ => (0, random.between(1, 3)),
        };
        Term::pow(symbol, a, b, below)
    });
    above.normal()
}

fn end(random: &mut Random) -> Term {
    match random.below(5) {
        0 => fun(C, &[]),
        1 => fun(D, &[]),
        _ => var(random.below(4) as u8),
    }
}

fn argument(random: &mut Random) -> Term {
    match random.below(6) {
        0 => end(random),
        1 => random_term(random, &[1, 1, 0, 0], 4, true, 6),
        _ => {
            let (powers, end) = (random.between(1, 5), end(random));
            chain(powers, end, random)
        }
    }
}

/// Variables filled by chains, whose roots may meet the powers above them.
fn chains(random: &mut Random) -> Filling {
    let mut filling = Vec::new();
    for name in 0..4 {
        if random.chance(2, 3) {
            let (powers, end) = (random.between(0, 4), end(random));
            filling.push((name, chain(powers, end, random)));
        }
    }
    filling
}

fn pair(random: &mut Random) -> (u64, u64) {
    *random.pick(&[(0, 0), (0, 0), (0, 0), (1, 0), (1, 0), (0, 1), (1, 1), (2, 3), (0, 3)])
}

/// A side of few nodes.
pub fn small(arity: u8, random: &mut Random) -> Second {
    let arguments: Vec<Term> = (0..arity)
        .map(|_| match random.below(8) {
            0 if arity == 2 => fun(G, &[argument(random), argument(random)]),
            _ => argument(random),
        })
        .collect();
    let ((i, j), filling) = (pair(random), chains(random));
    Second { pattern: fun(G, &arguments), i, j, filling }
}

/// A side of exactly so many nodes: seven arguments of one variable, and one of another.
pub fn of_nodes(nodes: usize, random: &mut Random) -> Option<Second> {
    let mut arguments: Vec<Term> = Vec::new();
    for place in 0..8 {
        let (powers, name) = (random.between(0, 3), u8::from(place == 7));
        arguments.push(chain(powers, var(name), random));
    }
    let (i, j) = pair(random);
    let (powers, x) = (random.between(110, 140), end(random));
    let x = chain(powers, x, random);
    let pattern = fun(G, &arguments);
    let mut second = Second { pattern, i, j, filling: vec![(0, x), (1, var(1))] };
    for _ in 0..8 {
        let missing = nodes.checked_sub(second.normal().nodes())?;
        if missing == 0 {
            return Some(second);
        }
        // Powers that meet are one node less: then the rest is asked for again.
        let longer = chain(missing as u64, second.filling[1].1.clone(), random);
        second.filling[1].1 = longer;
        if second.filling[1].1.nodes() > 256 {
            return None;
        }
    }
    None
}

/// The first side: it has at most 1,024 nodes, unless both sides shall be larger.
pub fn first_of(second: &Second, parting: Parting, random: &mut Random) -> Option<Term> {
    let mut first = second.normal();
    if first.nodes() > SIDE_NODES && random.chance(7, 8) {
        let over = first.nodes() - SIDE_NODES;
        first = shortened(first, over)?;
    }
    let last_power = powers_of(&first).checked_sub(1);
    let some_power = |random: &mut Random| match random.chance(2, 3) {
        true => last_power,
        false => last_power.map(|last| random.below(last + 1)),
    };
    match parting {
        Parting::Nowhere | Parting::Empty => (),
        Parting::LastNode => change_last(&mut first, random),
        Parting::A => {
            let place = some_power(random)?;
            change_power(&mut first, place, &mut |a, _| *a = if *a > 0 { *a - 1 } else { 1 });
        }
        Parting::B => {
            let place = some_power(random)?;
            change_power(&mut first, place, &mut |_, b| *b += 1);
        }
        Parting::Start => {
            let Term::Fun(_, arguments) = &mut first else { return None };
            let start = arguments.first_mut()?;
            *start = Term::pow(*random.pick(&[S, R]), 0, 1, start.clone());
        }
        Parting::Joined => return join(&first),
    }
    Some(first.normal())
}

/// Without so many powers over the last node.
fn shortened(term: Term, over: usize) -> Option<Term> {
    let Term::Fun(symbol, mut arguments) = term else { return None };
    let mut powers = Vec::new();
    let mut below = arguments.pop()?;
    while let Term::Pow { symbol, a, b, arg } = below {
        powers.push((symbol, a, b));
        below = *arg;
    }
    let kept = powers.len().checked_sub(over)?;
    let above = powers[..kept].iter().rev();
    arguments.push(above.fold(below, |below, (symbol, a, b)| Term::pow(*symbol, *a, *b, below)));
    Some(Term::Fun(symbol, arguments))
}

fn powers_of(term: &Term) -> usize {
    match term {
        Term::Var(_) => 0,
        Term::Fun(_, arguments) => arguments.iter().map(powers_of).sum(),
        Term::Pow { arg, .. } => 1 + powers_of(arg),
    }
}

/// Changes the numbers of the power with this place among the powers.
fn change_power(term: &mut Term, place: usize, change: &mut dyn FnMut(&mut u64, &mut u64)) {
    match term {
        Term::Var(_) => (),
        Term::Pow { a, b, .. } if place == 0 => change(a, b),
        Term::Pow { arg, .. } => change_power(arg, place - 1, change),
        Term::Fun(_, arguments) => {
            let mut place = place;
            for argument in arguments {
                let here = powers_of(argument);
                if place < here {
                    return change_power(argument, place, change);
                }
                place -= here;
            }
        }
    }
}

/// Another variable or constant in the place of the last node.
fn change_last(term: &mut Term, random: &mut Random) {
    match term {
        Term::Fun(_, arguments) if !arguments.is_empty() => {
            change_last(arguments.last_mut().expect("it is not empty"), random);
        }
        Term::Pow { arg, .. } => change_last(arg, random),
        last => {
            let others = [var(0), var(1), var(2), fun(C, &[]), fun(D, &[])];
            let others: Vec<&Term> = others.iter().filter(|other| *other != last).collect();
            *last = (*random.pick(&others)).clone();
        }
    }
}

/// Adds up the first two powers of one symbol that have a power of another between them.
pub fn join(term: &Term) -> Option<Term> {
    match term {
        Term::Var(_) => None,
        Term::Fun(symbol, arguments) => {
            let mut joined = arguments.iter().map(join).enumerate();
            let (place, joined) = joined.find_map(|(place, term)| Some((place, term?)))?;
            let mut arguments = arguments.clone();
            arguments[place] = joined;
            Some(Term::Fun(*symbol, arguments))
        }
        Term::Pow { symbol, a, b, arg } => {
            let Term::Pow { symbol: other, a: a2, b: b2, arg: below } = &**arg else {
                return join(arg).map(|arg| Term::pow(*symbol, *a, *b, arg));
            };
            match &**below {
                Term::Pow { symbol: like, a: a3, b: b3, arg: rest } if like == symbol => {
                    let rest = Term::pow(*other, *a2, *b2, (**rest).clone());
                    Some(Term::pow(*symbol, a + a3, b + b3, rest).normal())
                }
                _ => join(arg).map(|arg| Term::pow(*symbol, *a, *b, arg)),
            }
        }
    }
}
