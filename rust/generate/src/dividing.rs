//! A side as files can hold it: its arguments as a filling, divided between a call and what
//! fills it, cut, or at an earlier index.

use crate::random::Random;
use crate::world::var;
use second::{Filling, Term};

pub fn arguments(side: &Term) -> &[Term] {
    match side {
        Term::Fun(_, arguments) => arguments,
        _ => &[],
    }
}

/// The arguments of a side, as terms of the variables from `name` on.
pub fn filled_by(side: &Term, name: u8) -> Filling {
    arguments(side).iter().zip(name..).map(|(term, name)| (name, term.clone())).collect()
}

/// A call's term that is filled to this one, and what fills its variable: some powers
/// stand in the call, or a part of one.
pub fn divided(term: &Term, name: u8, random: &mut Random) -> (Term, Term) {
    match term {
        Term::Pow { symbol, a, b, arg } if *b > 0 && *b <= 4_095 && random.chance(1, 2) => {
            if *a == 0 && random.chance(1, 2) {
                let (call, rest) = divided(arg, name, random);
                return (Term::pow(*symbol, 0, *b, call), rest);
            }
            let taken = random.between(1, *b);
            let rest = Term::pow(*symbol, *a, b - taken, (**arg).clone()).normal();
            (Term::pow(*symbol, 0, taken, var(name)), rest)
        }
        other => (var(name), other.clone()),
    }
}

/// The side with at most so many powers at the top of each argument, and what stood below
/// the others.
pub fn cut(side: &Term, most: usize) -> Term {
    fn kept(term: &Term, most: usize) -> Term {
        match term {
            Term::Pow { arg, .. } if most == 0 => kept(arg, 0),
            Term::Pow { symbol, a, b, arg } => Term::pow(*symbol, *a, *b, kept(arg, most - 1)),
            other => other.clone(),
        }
    }
    match side {
        Term::Fun(symbol, arguments) => {
            Term::Fun(*symbol, arguments.iter().map(|argument| kept(argument, most)).collect())
        }
        other => other.clone(),
    }
}

/// The term that is this one when reindexed by (1, alpha).
pub fn earlier(term: &Term, alpha: u64) -> Option<Term> {
    Some(match term {
        Term::Var(name) => var(*name),
        Term::Fun(symbol, arguments) => {
            let arguments = arguments.iter().map(|argument| earlier(argument, alpha));
            Term::Fun(*symbol, arguments.collect::<Option<Vec<Term>>>()?)
        }
        Term::Pow { symbol, a, b, arg } => {
            Term::pow(*symbol, *a, b.checked_sub(a * alpha)?, earlier(arg, alpha)?)
        }
    })
}
