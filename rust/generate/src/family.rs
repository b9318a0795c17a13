//! The accepted family of a case: its calls, and terms that are nearly calls of it.

use crate::nudge::nudge;
use crate::random::Random;
use crate::world::{fits_a_file, random_term, Case};
use second::covering::LAST_INDEX;
use second::{Filling, Term};
use std::collections::{BTreeMap, BTreeSet};

/// The accepted family of a case.
pub struct Family<'a> {
    pattern: &'a Term,
    alpha: u64,
    arities: &'a [u8],
}

impl Family<'_> {
    pub fn of(case: &Case) -> Family<'_> {
        let closing = &case.certificate.closing;
        let pattern = &case.certificate.lines[usize::from(closing.line)].left;
        Family { pattern, alpha: closing.alpha, arities: &case.book.arities }
    }

    /// A call of the family that fits a file.
    pub fn within(&self, joining: bool, random: &mut Random) -> Option<Term> {
        let index = self.any_index(random);
        fitting(self.at(index, &self.filling(joining, random)))
    }

    pub fn at(&self, index: u64, filling: &Filling) -> Term {
        self.pattern.reindexed(0, index).filled(filling).normal()
    }

    /// An index from α on, such that the powers fit a file if that can be.
    pub fn any_index(&self, random: &mut Random) -> u64 {
        let last = largest_index(self.pattern).max(self.alpha);
        let near = (self.alpha + random.small()).min(last);
        let any = random.between(self.alpha, last);
        *random.pick(&[self.alpha, near, near, last, any])
    }

    /// Terms for all variables.
    pub fn filling(&self, joining: bool, random: &mut Random) -> Filling {
        let mut names = BTreeSet::new();
        self.pattern.collect_variables(&mut names);
        names.into_iter().map(|name| (name, self.any_term(joining, random))).collect()
    }

    fn any_term(&self, joining: bool, random: &mut Random) -> Term {
        let term = random_term(random, self.arities, 64, false, 5);
        let symbols = powers_over_variables(self.pattern);
        match joining && !symbols.is_empty() && random.chance(2, 3) {
            true => Term::pow(*random.pick(&symbols), 0, random.between(1, 5), term).normal(),
            false => term,
        }
    }

    /// A call of the family with 254 to 257 nodes.
    pub fn full(&self, random: &mut Random) -> Option<Term> {
        let index = self.any_index(random);
        let mut filling = self.filling(false, random);
        let last = filling.len().checked_sub(1)?;
        let unary: Vec<u8> = of_arity(self.arities, 1);
        let wanted = random.between(254, 257) as usize;
        let [one, other] = [*unary.first()?, *unary.last()?];
        while one != other && self.at(index, &filling).nodes() < wanted {
            let below = filling[last].1.clone();
            let symbol = match below {
                Term::Pow { symbol, .. } if symbol == one => other,
                _ => one,
            };
            filling[last].1 = Term::pow(symbol, 0, random.between(1, 4_095), below);
        }
        let call = self.at(index, &filling);
        ((254..=260).contains(&call.nodes()) && numbers_fit(&call)).then_some(call)
    }

    /// One place of a variable that stands in several is filled by another term.
    pub fn variable_off(&self, random: &mut Random) -> Option<Term> {
        let mut counts = BTreeMap::new();
        count_variables(self.pattern, &mut counts);
        let twice: Vec<(u8, usize)> = counts.into_iter().filter(|(_, count)| *count > 1).collect();
        if twice.is_empty() {
            return None;
        }
        let (name, count) = *random.pick(&twice);
        let fresh = (0..64).find(|fresh| !has_variable(self.pattern, *fresh))?;
        let mut pattern = self.pattern.clone();
        rename_one(&mut pattern, name, fresh, &mut { random.below(count) });
        let mut filling = self.filling(true, random);
        let mut term = filling.iter().find(|(listed, _)| *listed == name)?.1.clone();
        match random.below(2) {
            0 => nudge(&mut term, self.arities, random)?,
            _ => term = Term::pow(*of_arity(self.arities, 1).first()?, 0, 1, term).normal(),
        }
        filling.push((fresh, term));
        let index = self.any_index(random);
        fitting(pattern.reindexed(0, index).filled(&filling).normal())
    }

    /// The pattern at an index below α, filled.
    pub fn below(&self, random: &mut Random) -> Option<Term> {
        let index = random.between(0, self.alpha.checked_sub(1)?.min(largest_index(self.pattern)));
        fitting(self.at(index, &self.filling(false, random)))
    }
}

/// The term, if it may be a call.
pub fn fitting(call: Term) -> Option<Term> {
    (fits_a_file(&call) && call.is_constant_in_the_index()).then_some(call)
}

/// The last index at which no power of the term passes 4,095.
pub fn largest_index(term: &Term) -> u64 {
    match term {
        Term::Var(_) => LAST_INDEX,
        Term::Fun(_, arguments) => arguments.iter().map(largest_index).min().unwrap_or(LAST_INDEX),
        Term::Pow { a, b, arg, .. } => {
            let own = (LAST_INDEX - (*b).min(LAST_INDEX)).checked_div(*a).unwrap_or(LAST_INDEX);
            own.min(largest_index(arg))
        }
    }
}

fn numbers_fit(term: &Term) -> bool {
    match term {
        Term::Var(_) => true,
        Term::Fun(_, arguments) => arguments.iter().all(numbers_fit),
        Term::Pow { a, b, arg, .. } => *a == 0 && *b <= 4_095 && numbers_fit(arg),
    }
}

pub fn of_arity(arities: &[u8], wanted: u8) -> Vec<u8> {
    (0..arities.len()).filter(|n| arities[*n] == wanted).map(|n| n as u8).collect()
}

/// The symbols of powers that stand directly over a variable.
fn powers_over_variables(term: &Term) -> Vec<u8> {
    match term {
        Term::Var(_) => Vec::new(),
        Term::Fun(_, arguments) => arguments.iter().flat_map(powers_over_variables).collect(),
        Term::Pow { symbol, arg, .. } if matches!(**arg, Term::Var(_)) => vec![*symbol],
        Term::Pow { arg, .. } => powers_over_variables(arg),
    }
}

/// How often each variable stands in a term.
pub fn count_variables(term: &Term, counts: &mut BTreeMap<u8, usize>) {
    match term {
        Term::Var(name) => *counts.entry(*name).or_default() += 1,
        Term::Fun(_, arguments) => arguments.iter().for_each(|t| count_variables(t, counts)),
        Term::Pow { arg, .. } => count_variables(arg, counts),
    }
}

fn has_variable(term: &Term, name: u8) -> bool {
    let mut names = BTreeSet::new();
    term.collect_variables(&mut names);
    names.contains(&name)
}

/// Another name in the place of this variable with that number.
fn rename_one(term: &mut Term, old: u8, new: u8, place: &mut usize) {
    match term {
        Term::Var(name) if *name == old => {
            if *place == 0 {
                *name = new;
            }
            *place = place.wrapping_sub(1);
        }
        Term::Var(_) => (),
        Term::Fun(_, arguments) => {
            arguments.iter_mut().for_each(|t| rename_one(t, old, new, place));
        }
        Term::Pow { arg, .. } => rename_one(arg, old, new, place),
    }
}
