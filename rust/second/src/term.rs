//! Terms, powers and the index.

use crate::model::Filling;

/// "A term is a variable, a symbol of arity other than 1 with its arguments, or
/// a power: a unary symbol s with whole numbers a and b over a term t."
#[derive(Clone, Debug, PartialEq, Eq)]
pub enum Term {
    Var(u8),
    Fun(u8, Vec<Term>),
    Pow { symbol: u8, a: u64, b: u64, arg: Box<Term> },
}

impl Term {
    /// s^{a,b}(arg)
    pub fn pow(symbol: u8, a: u64, b: u64, arg: Term) -> Term {
        Term::Pow { symbol, a, b, arg: Box::new(arg) }
    }

    /// Every variable, symbol and power is one node.
    pub fn nodes(&self) -> usize {
        match self {
            Term::Var(_) => 1,
            Term::Fun(_, arguments) => 1 + arguments.iter().map(Term::nodes).sum::<usize>(),
            Term::Pow { arg, .. } => 1 + arg.nodes(),
        }
    }

    /// "drop the zero powers and add up neighbours of the same symbol until
    /// none is left"
    pub fn normal(&self) -> Term {
        match self {
            Term::Var(name) => Term::Var(*name),
            Term::Fun(symbol, arguments) => {
                Term::Fun(*symbol, arguments.iter().map(Term::normal).collect())
            }
            Term::Pow { symbol, a, b, arg } => put_power(*symbol, *a, *b, arg.normal()),
        }
    }

    /// "Reindexing by (i, j) replaces the index n by i·n + j, so s^{a,b} becomes
    /// s^{a·i, a·j+b}."
    pub fn reindexed(&self, i: u64, j: u64) -> Term {
        match self {
            Term::Var(name) => Term::Var(*name),
            Term::Fun(symbol, arguments) => {
                Term::Fun(*symbol, arguments.iter().map(|t| t.reindexed(i, j)).collect())
            }
            Term::Pow { symbol, a, b, arg } => {
                Term::pow(*symbol, times(*a, i), plus(times(*a, j), *b), arg.reindexed(i, j))
            }
        }
    }

    /// "Filling replaces variables by terms, all at once. A variable that isn't
    /// listed stays itself."
    pub fn filled(&self, filling: &Filling) -> Term {
        match self {
            Term::Var(name) => match listed(filling, *name) {
                Some(term) => term.clone(),
                None => Term::Var(*name),
            },
            Term::Fun(symbol, arguments) => {
                Term::Fun(*symbol, arguments.iter().map(|t| t.filled(filling)).collect())
            }
            Term::Pow { symbol, a, b, arg } => Term::pow(*symbol, *a, *b, arg.filled(filling)),
        }
    }

    /// "An instance is a term reindexed first and then filled; the filling's own
    /// terms are not reindexed."
    pub fn instance(&self, i: u64, j: u64, filling: &Filling) -> Term {
        self.reindexed(i, j).filled(filling)
    }

    /// "has a = 0 in every power"
    pub fn is_constant_in_the_index(&self) -> bool {
        match self {
            Term::Var(_) => true,
            Term::Fun(_, arguments) => arguments.iter().all(Term::is_constant_in_the_index),
            Term::Pow { a, arg, .. } => *a == 0 && arg.is_constant_in_the_index(),
        }
    }

    /// Adds the names of all variables to `names`.
    pub fn collect_variables(&self, names: &mut std::collections::BTreeSet<u8>) {
        match self {
            Term::Var(name) => {
                names.insert(*name);
            }
            Term::Fun(_, arguments) => {
                arguments.iter().for_each(|t| t.collect_variables(names));
            }
            Term::Pow { arg, .. } => arg.collect_variables(names),
        }
    }
}

/// Puts a power over a term that is normal already, and the whole is normal.
fn put_power(symbol: u8, a: u64, b: u64, below: Term) -> Term {
    if a == 0 && b == 0 {
        return below;
    }
    match below {
        Term::Pow { symbol: like, a: a2, b: b2, arg } if like == symbol => {
            Term::Pow { symbol, a: plus(a, a2), b: plus(b, b2), arg }
        }
        other => Term::pow(symbol, a, b, other),
    }
}

fn listed(filling: &Filling, name: u8) -> Option<&Term> {
    filling.iter().find(|(variable, _)| *variable == name).map(|(_, term)| term)
}

/// "nothing wraps": file numbers lie below 4,096 and a term has at most 65,536
/// nodes before it is compared, so 64 bits are never left; if they were, this
/// stops the program rather than give a wrong number.
fn times(x: u64, y: u64) -> u64 {
    x.checked_mul(y).expect("product within 64 bits")
}

fn plus(x: u64, y: u64) -> u64 {
    x.checked_add(y).expect("sum within 64 bits")
}
