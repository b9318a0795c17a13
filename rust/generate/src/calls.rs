//! Calls of which it is asked whether they are in an accepted family: some are, some nearly
//! are, and some are damaged.

use crate::damage::{change_bytes, change_fields, flip_bits, flip_near_the_end};
use crate::family::{fitting, of_arity, Family};
use crate::faults::accepted;
use crate::inputs::Inputs;
use crate::nudge::{node_at, nudge};
use crate::random::Random;
use crate::scramble::scrambled;
use crate::world::{fun, random_term, rule, var, Case, World};
use second::spell::{call_fields, pack, pack_book, pack_certificate};
use second::Term;

/// How a call was made.
#[derive(Clone, Copy, Debug, PartialEq, Eq, PartialOrd, Ord)]
pub enum Made {
    /// The pattern at an index from α on, filled.
    Within,
    /// The same; the terms begin with symbols of the powers above them, which join.
    Joining,
    /// The same, with as many nodes as a call may have.
    Full,
    /// One exponent is another.
    ExponentOff,
    /// One symbol is another.
    SymbolOff,
    /// A variable that stands twice in the pattern is another term in one place.
    VariableOff,
    /// The pattern at an index below α.
    Below,
    /// Any small change.
    Nudged,
    /// Any term.
    Random,
    /// Terms that are not normal, have an index or too many nodes.
    Trees,
    Fields,
    Bits,
    Bytes,
    Long,
    /// The certificate is perhaps refused.
    Judged,
}

/// What is asked.
#[derive(Clone, Debug)]
pub struct Asking {
    pub made: Made,
    pub book: Vec<u8>,
    pub certificate: Vec<u8>,
    pub call: Vec<u8>,
}

pub struct Calls {
    random: Random,
    inputs: Inputs,
}

/// How often each is made.
const TURNS: [(Made, usize); 15] = [
    (Made::Within, 16),
    (Made::Joining, 16),
    (Made::Full, 4),
    (Made::ExponentOff, 10),
    (Made::SymbolOff, 6),
    (Made::VariableOff, 8),
    (Made::Below, 6),
    (Made::Nudged, 6),
    (Made::Random, 4),
    (Made::Trees, 8),
    (Made::Fields, 8),
    (Made::Bits, 6),
    (Made::Bytes, 4),
    (Made::Long, 2),
    (Made::Judged, 16),
];

impl Calls {
    pub fn new(seed: u64) -> Calls {
        Calls { random: Random::new(seed ^ 0xCA11), inputs: Inputs::new(seed ^ 0xCA11) }
    }

    pub fn next_call(&mut self) -> Asking {
        let made = self.any_turn();
        loop {
            if let Some(asking) = self.made(made) {
                return asking;
            }
        }
    }

    fn any_turn(&mut self) -> Made {
        let all = TURNS.iter().map(|(_, times)| times).sum();
        let mut turn = self.random.below(all);
        for (made, times) in TURNS {
            if turn < times {
                return made;
            }
            turn -= times;
        }
        Made::Within
    }

    fn made(&mut self, made: Made) -> Option<Asking> {
        let case = any_case(&mut self.random)?;
        let call = self.call(made, &case)?;
        let (book, certificate) = match made {
            Made::Judged => {
                let input = self.inputs.next_input();
                (input.book, input.certificate)
            }
            _ => (pack_book(&case.book), pack_certificate(&case.certificate)),
        };
        Some(Asking { made, book, certificate, call })
    }

    fn call(&mut self, made: Made, case: &Case) -> Option<Vec<u8>> {
        let random = &mut self.random;
        let family = Family::of(case);
        let arities = &case.book.arities;
        let term = match made {
            Made::Within | Made::Fields | Made::Bits | Made::Bytes | Made::Long | Made::Judged => {
                family.within(false, random)?
            }
            Made::Joining => family.within(true, random)?,
            Made::Full => family.full(random)?,
            Made::ExponentOff => exponent_off(family.within(true, random)?, random)?,
            Made::SymbolOff => symbol_off(family.within(true, random)?, arities, random)?,
            Made::VariableOff => family.variable_off(random)?,
            Made::Below => family.below(random)?,
            Made::Nudged => {
                let mut term = family.within(true, random)?;
                nudge(&mut term, arities, random)?;
                term
            }
            Made::Random => random_term(random, arities, 64, false, 12),
            Made::Trees => bad_tree(family.within(true, random)?, random),
        };
        Some(damaged(made, &term, random))
    }
}

/// The call in bytes, damaged if that is how it is made.
fn damaged(made: Made, term: &Term, random: &mut Random) -> Vec<u8> {
    let mut fields = call_fields(term);
    if made == Made::Fields {
        change_fields(&mut fields, random);
    }
    let mut bytes = pack(&fields);
    match made {
        Made::Bits if random.chance(1, 3) => flip_near_the_end(&mut bytes, random),
        Made::Bits => flip_bits(&mut bytes, random),
        Made::Bytes => change_bytes(&mut bytes, random),
        Made::Long => bytes.resize(bytes.len() + random.between(1, 40_000) as usize, 0),
        Made::Judged if random.chance(1, 2) => change_bytes(&mut bytes, random),
        _ => (),
    }
    bytes
}

/// An accepted pair: of any shape, or any pattern that calls itself.
fn any_case(random: &mut Random) -> Option<Case> {
    match random.below(3) {
        0 => Some(accepted(random).1),
        1 => any_pattern(random),
        _ => Some(scrambled(any_pattern(random)?, random)),
    }
}

/// A line p(..) → p(..) or s(..) → s(..) with any terms, and a closing that holds for it.
fn any_pattern(random: &mut Random) -> Option<Case> {
    let arity = *random.pick(&[2, 2, 3, 8]);
    let names: Vec<Term> = (0..arity).map(var).collect();
    let call = fun(5, &names);
    let power = Term::pow(0, 0, 1, var(0));
    let rules = [rule(call.clone(), &[call]), rule(power.clone(), &[power])];
    let mut world = World::new(&[1, 0, 1, 2, 0, arity], &rules);
    let number = usize::from(random.chance(1, 5));
    let size = *random.pick(&[2, 4, 9, 20]);
    let with_index = !random.chance(1, 6);
    let hints = (0..arity).map(|name| {
        let term = random_term(random, &[1, 0, 1, 2, 0], 3, with_index, size);
        (name, large_numbers(term, random))
    });
    let hints: Vec<(u8, Term)> = hints.collect();
    let line = world.unfold(number, 1, &hints, Vec::new(), None)?;
    let alpha = *random.pick(&[0, 0, 0, 0, 1, 1, 2, 3, 9, 2_000, 4_095]);
    world.closed(line, 0, alpha)
}

/// Now and then one power has numbers of any size.
fn large_numbers(mut term: Term, random: &mut Random) -> Term {
    let place = random.below(term.nodes());
    if let (Term::Pow { a, b, .. }, true) = (node_at(&mut term, place), random.chance(1, 6)) {
        *a = if *a == 0 { 0 } else { random.between(1, 4_095) };
        *b = random.between(1, 4_095);
    }
    term
}

/// The term with one exponent more or less by 1.
fn exponent_off(mut term: Term, random: &mut Random) -> Option<Term> {
    let place = random.below(term.nodes());
    let Term::Pow { b, .. } = node_at(&mut term, place) else { return None };
    *b = if random.chance(1, 2) { *b + 1 } else { *b - 1 };
    fitting(term.normal())
}

/// The term with another symbol of the same arity in one place.
fn symbol_off(mut term: Term, arities: &[u8], random: &mut Random) -> Option<Term> {
    let place = random.below(term.nodes());
    let (Term::Fun(symbol, _) | Term::Pow { symbol, .. }) = node_at(&mut term, place) else {
        return None;
    };
    let other = *random.pick(&of_arity(arities, arities[usize::from(*symbol)]));
    if other == *symbol {
        return None;
    }
    *symbol = other;
    fitting(term.normal())
}

/// A term that may not stand in a call.
fn bad_tree(mut term: Term, random: &mut Random) -> Term {
    let place = random.below(term.nodes());
    let node = node_at(&mut term, place);
    *node = match (random.below(4), node.clone()) {
        (0, Term::Pow { symbol, b, arg, .. }) => {
            Term::Pow { symbol, a: random.between(1, 4_095), b, arg }
        }
        (1, Term::Pow { symbol, a, arg, .. }) => Term::Pow { symbol, a, b: 0, arg },
        (2, Term::Pow { symbol, a, b, arg }) => {
            Term::pow(symbol, 0, 1, Term::Pow { symbol, a, b, arg })
        }
        (_, Term::Fun(symbol, arguments)) if !arguments.is_empty() => {
            let mut built = Term::Fun(symbol, arguments.clone());
            for _ in 0..random.between(20, 300) {
                let mut around = arguments.clone();
                around[0] = built;
                built = Term::Fun(symbol, around);
            }
            built
        }
        (_, other) => other,
    };
    term
}
