//! A book with lines that hold by construction.

use crate::random::Random;
use crate::solve::{filling_of, solve, Bindings};
pub use second::making::{fun, rule, use_of, var};
use second::{Book, Certificate, Closing, Filling, Line, Proof, Rule, Term, Use};

pub const MOST_LINES: usize = 255;

#[derive(Clone, Debug)]
pub struct World {
    pub book: Book,
    pub lines: Vec<Line>,
}

/// A whole pair of files as trees.
#[derive(Clone, Debug)]
pub struct Case {
    pub book: Book,
    pub certificate: Certificate,
}

/// May the term stand in a certificate?
pub fn fits_a_file(term: &Term) -> bool {
    term.nodes() <= 256 && numbers_fit(term) && term.normal() == *term
}

fn numbers_fit(term: &Term) -> bool {
    match term {
        Term::Var(name) => *name < 64,
        Term::Fun(_, arguments) => arguments.iter().all(numbers_fit),
        Term::Pow { a, b, arg, .. } => *a <= 4_095 && *b <= 4_095 && numbers_fit(arg),
    }
}

fn filling_fits(filling: &Filling) -> bool {
    filling.iter().all(|(_, term)| fits_a_file(term))
}

impl World {
    pub fn new(arities: &[u8], rules: &[Rule]) -> World {
        World { book: Book { arities: arities.to_vec(), rules: rules.to_vec() }, lines: Vec::new() }
    }

    fn push(&mut self, line: Line) -> Option<usize> {
        let fits = fits_a_file(&line.left)
            && line.right.as_ref().is_none_or(fits_a_file)
            && self.lines.len() < MOST_LINES;
        if fits {
            self.lines.push(line);
            Some(self.lines.len() - 1)
        } else {
            None
        }
    }

    pub fn left_of(&self, one: &Use) -> Term {
        self.lines[usize::from(one.line)].left.instance(one.i, one.j, &one.filling).normal()
    }

    pub fn right_of(&self, one: &Use) -> Option<Term> {
        let right = self.lines[usize::from(one.line)].right.as_ref()?;
        Some(right.instance(one.i, one.j, &one.filling).normal())
    }

    /// Adds an unfold; the filling is found by matching the calls that have
    /// uses, starting from the hints.
    pub fn unfold(
        &mut self,
        number: usize,
        stop: usize,
        hints: &[(u8, Term)],
        before: Vec<Use>,
        last: Option<Use>,
    ) -> Option<usize> {
        let rule = self.book.rules[number].clone();
        let mut bindings: Bindings = hints.iter().cloned().collect();
        for (place, one) in before.iter().chain(&last).enumerate() {
            if !self.use_allowed(one, place + 1, stop, rule.calls.len())
                || !solve(&rule.calls[place], &self.left_of(one), &mut bindings)
            {
                return None;
            }
        }
        let filling = filling_of(&bindings);
        if !filling_fits(&filling) {
            return None;
        }
        let right = match &last {
            _ if rule.calls.is_empty() => None,
            None => Some(rule.calls[stop - 1].filled(&filling).normal()),
            Some(one) => self.right_of(one),
        };
        let left = rule.head.filled(&filling).normal();
        let (rule, stop) = (number as u8, stop as u8);
        self.push(Line { left, right, proof: Proof::Unfold { rule, stop, filling, before, last } })
    }

    fn use_allowed(&self, one: &Use, j: usize, stop: usize, calls: usize) -> bool {
        let empty = self.lines[usize::from(one.line)].right.is_none();
        if j < stop {
            empty
        } else {
            j == calls || !empty
        }
    }

    pub fn fact(&mut self, number: usize, hints: &[(u8, Term)]) -> Option<usize> {
        self.unfold(number, 0, hints, Vec::new(), None)
    }

    /// Adds a descent whose left grows, argument by argument, by what the rule
    /// takes off.
    pub fn descent(&mut self, number: usize, base: Use) -> Option<usize> {
        let rule = self.book.rules[number].clone();
        let left = grown(&rule.head, rule.calls.first()?, &self.left_of(&base))?;
        let right = self.right_of(&base);
        let mut bindings = Bindings::new();
        let next = left.reindexed(1, 1).normal();
        let good = solve(&rule.calls[0], &left, &mut bindings)
            && solve(&rule.head, &next, &mut bindings)
            && left.reindexed(0, 0).normal() == self.left_of(&base)
            && right.as_ref().is_none_or(Term::is_constant_in_the_index);
        let filling = filling_of(&bindings);
        if !good || !filling_fits(&filling) {
            return None;
        }
        self.push(Line { left, right, proof: Proof::Descent { base, rule: number as u8, filling } })
    }

    /// A closing of the line with this k and α, if there is one.
    pub fn closing(&self, line: usize, k: u64, alpha: u64) -> Option<Closing> {
        let right = self.lines[line].right.as_ref()?.reindexed(1, alpha).normal();
        let left = self.lines[line].left.reindexed(1, alpha + k).normal();
        let mut bindings = Bindings::new();
        let filling = filling_of(solve(&left, &right, &mut bindings).then_some(&bindings)?);
        filling_fits(&filling).then_some(Closing { line: line as u8, k, alpha, filling })
    }

    pub fn closed(self, line: usize, k: u64, alpha: u64) -> Option<Case> {
        let closing = self.closing(line, k, alpha)?;
        Some(Case { book: self.book, certificate: Certificate { lines: self.lines, closing } })
    }

    /// A closing of any line, by trial.
    pub fn any_closing(&self, random: &mut Random) -> Option<Closing> {
        (0..60).find_map(|_| {
            let line = random.below(self.lines.len());
            let (k, alpha) = (random.between(0, 4), random.between(0, 4));
            self.closing(line, k, alpha)
        })
    }
}

/// The left of a descent from the base's left: each argument grows by as many
/// symbols as the head has more than the call.
fn grown(head: &Term, call: &Term, base: &Term) -> Option<Term> {
    match (head, call, base) {
        (Term::Fun(one, heads), Term::Fun(other, calls), Term::Fun(symbol, bases))
            if one == other && one == symbol =>
        {
            let places = heads.iter().zip(calls).zip(bases);
            let arguments = places.map(|((head, call), base)| grown_argument(head, call, base));
            Some(Term::Fun(*symbol, arguments.collect::<Option<Vec<Term>>>()?))
        }
        (Term::Pow { .. }, Term::Pow { .. }, Term::Pow { .. }) => grown_argument(head, call, base),
        _ => None,
    }
}

fn grown_argument(head: &Term, call: &Term, base: &Term) -> Option<Term> {
    let (symbol, more) = match (head, call) {
        (Term::Pow { symbol, b, .. }, Term::Pow { symbol: like, b: less, .. })
            if symbol == like =>
        {
            (*symbol, b.checked_sub(*less)?)
        }
        (Term::Pow { symbol, b, .. }, Term::Var(_)) => (*symbol, *b),
        _ => return Some(base.clone()),
    };
    Some(Term::pow(symbol, more, 0, base.clone()).normal())
}

/// A random normal term of about `size` nodes at most.
pub fn random_term(
    random: &mut Random,
    arities: &[u8],
    names: u64,
    with_index: bool,
    size: usize,
) -> Term {
    random_node(random, arities, names, with_index, size).normal()
}

fn random_node(
    random: &mut Random,
    arities: &[u8],
    names: u64,
    with_index: bool,
    size: usize,
) -> Term {
    let variable = |random: &mut Random| Term::Var(random.between(0, names - 1) as u8);
    if arities.is_empty() || random.chance(1, 4) {
        return variable(random);
    }
    let symbol = random.below(arities.len());
    match usize::from(arities[symbol]) {
        1 if size > 1 => {
            let a = if with_index { random.small() } else { 0 };
            let b = random.small();
            let below = random_node(random, arities, names, with_index, size - 1);
            Term::pow(symbol as u8, a, b, below)
        }
        arity if arity != 1 && arity < size.max(1) => {
            let share = (size - 1) / arity.max(1);
            let arguments =
                (0..arity).map(|_| random_node(random, arities, names, with_index, share));
            Term::Fun(symbol as u8, arguments.collect())
        }
        _ => variable(random),
    }
}
