//! Two sides put into any check that compares them, in lines that hold but for that check.

use crate::dividing::{arguments, cut, divided, earlier, filled_by};
use crate::random::Random;
use crate::sides::{first_of, of_nodes, small, Parting, Second, C, G, S};
use crate::visit::each_term;
use crate::world::{fits_a_file, fun, rule, use_of, var, Case};
use second::{Book, Certificate, Closing, Filling, Line, Proof, Rule, Term, Use};

/// The rules of every book; the calls of `CALLS` differ from book to book.
const FACT: u8 = 0;
const STEP: u8 = 1;
const TO_SIDE: u8 = 2;
const LOOP: u8 = 3;
const END: u8 = 4;
const CALLS: u8 = 5;

/// A check, by what is compared there.
#[derive(Clone, Copy, Debug, PartialEq, Eq)]
enum Place {
    Calls,
    UsedRight,
    ReachedCall,
    Closing,
    BaseLeft,
    BaseRight,
    DescentHead,
    DescentCall,
    UnfoldHead,
}

/// A pair in which two sides that part like this are compared; often none comes of it.
pub fn two_sides(parting: Parting, random: &mut Random) -> Option<Case> {
    use Place::*;
    let place = match random.below(15) {
        _ if parting == Parting::Empty => *random.pick(&[UsedRight, ReachedCall, BaseRight]),
        0..=4 => Calls,
        5 | 6 => UsedRight,
        7 => ReachedCall,
        8 | 9 => Closing,
        10 => BaseLeft,
        11 => BaseRight,
        12 => DescentHead,
        13 => DescentCall,
        _ => UnfoldHead,
    };
    let large = random.chance(1, 3) && matches!(place, Calls | UsedRight | ReachedCall | Closing);
    let arity = if large { 8 } else { 2 };
    let mut second = match large {
        true => of_nodes(*random.pick(&[1_023, 1_024, 1_024, 1_024, 1_025, 1_025, 1_100]), random)?,
        false => small(arity, random),
    };
    let (alpha, k) = (*random.pick(&[0, 0, 1, 2]), random.between(0, 3));
    match place {
        Calls | UsedRight => (),
        ReachedCall => {
            second = Second { pattern: second.normal(), i: 1, j: 0, filling: Vec::new() };
        }
        Closing => (second.i, second.j) = (1, alpha + k),
        BaseLeft => second = whole(second, 0, 0),
        BaseRight => {
            second = whole(second, 0, 0);
            if random.chance(1, 4) {
                second.pattern = Term::pow(S, random.between(1, 3), 0, second.pattern);
            }
        }
        DescentHead => second = whole(second, 1, 1),
        DescentCall | UnfoldHead => second = whole(second, 1, 0),
    }
    let mut first = first_of(&second, parting, random)?;
    if large && place != Calls {
        // It has to fit a file.
        first = cut(&first, 25);
    }
    let mut making = Making { arity, calls: Vec::new(), lines: Vec::new(), closing: None };
    match place {
        Calls => making.calls(first, second, random),
        UsedRight | ReachedCall => making.right(place, first, second, parting, random),
        Closing => making.closing(first, &second, alpha, k)?,
        BaseRight => making.base_right(first, second, parting, random),
        _ => making.left(place, &first, &second),
    }
    making.finished()
}

/// The side with its filling put in, and another index pair.
fn whole(second: Second, i: u64, j: u64) -> Second {
    let pattern = second.pattern.filled(&second.filling).normal();
    Second { pattern, i, j, filling: Vec::new() }
}

struct Making {
    arity: u8,
    calls: Vec<Term>,
    lines: Vec<Line>,
    closing: Option<Closing>,
}

impl Making {
    fn side_from(&self, name: u8) -> Term {
        let variables: Vec<Term> = (name..name + self.arity).map(var).collect();
        fun(G, &variables)
    }

    fn push(&mut self, left: Term, right: Option<Term>, proof: Proof) -> usize {
        self.lines.push(Line { left, right, proof });
        self.lines.len() - 1
    }

    fn unfold(&mut self, sides: (Term, Option<Term>), by: (u8, u8, Filling, Option<Use>)) -> usize {
        let (rule, stop, filling, last) = by;
        let proof = Proof::Unfold { rule, stop, filling, before: Vec::new(), last };
        self.push(sides.0, sides.1, proof)
    }

    /// A call of the rule, filled, beside the left of a line: one such call or several, of
    /// which this is any; the others don't part.
    fn calls(&mut self, first: Term, second: Second, random: &mut Random) {
        let most = if self.arity == 8 { 2 } else { 7 };
        let others = random.below(most);
        let mut sides = Vec::new();
        for _ in 0..others {
            let mut other = small(self.arity, random);
            let side = other.normal();
            if random.chance(1, 3) {
                // All of it stands in the filling.
                other.pattern = self.side_from(0);
                other.filling = filled_by(&side, 0);
            }
            sides.push((side, other));
        }
        sides.insert(random.below(others + 1), (first, second));
        let (mut filling, mut uses) = (Filling::new(), Vec::new());
        for (first, second) in sides {
            self.call(&first, &mut filling, random);
            let Second { pattern, i, j, filling } = second;
            let by = (FACT, 0, filled_by(&pattern, 0), None);
            let used = self.unfold((pattern, None), by);
            uses.push(use_of(used, i, j, &filling));
        }
        let (mut stop, mut right, mut last) = (uses.len() as u8, None, None);
        if random.chance(1, 2) {
            (stop, right) = (stop + 1, Some(fun(C, &[])));
            self.calls.push(fun(C, &[]));
        } else {
            last = uses.pop();
        }
        let proof = Proof::Unfold { rule: CALLS, stop, filling, before: uses, last };
        self.push(fun(C, &[]), right, proof);
    }

    /// Adds a call that is this side when it is filled, and what fills it.
    fn call(&mut self, side: &Term, filling: &mut Filling, random: &mut Random) {
        let mut call = Vec::new();
        for argument in arguments(side) {
            let name = filling.len() as u8;
            let (term, rest) = divided(argument, name, random);
            call.push(term);
            filling.push((name, rest));
        }
        self.calls.push(fun(G, &call));
    }

    /// The right of an unfold beside the right of a used line, or beside a call.
    fn right(
        &mut self,
        place: Place,
        first: Term,
        second: Second,
        parting: Parting,
        random: &mut Random,
    ) {
        let c = || fun(C, &[]);
        let first_empty = parting == Parting::Empty && random.chance(1, 2);
        let right = (!first_empty).then_some(first);
        if parting == Parting::Empty && !first_empty {
            let fact = self.unfold((c(), None), (END, 0, Vec::new(), None));
            let last = Some(use_of(fact, 1, 0, &[]));
            self.unfold((c(), right), (LOOP, 1, Vec::new(), last));
        } else if place == Place::UsedRight {
            let Second { pattern, i, j, filling } = second;
            let by = (TO_SIDE, 1, filled_by(&pattern, 0), None);
            let used = self.unfold((c(), Some(pattern)), by);
            let last = Some(use_of(used, i, j, &filling));
            self.unfold((c(), right), (LOOP, 1, Vec::new(), last));
        } else {
            let mut filling = Vec::new();
            self.call(&second.pattern, &mut filling, random);
            self.unfold((c(), right), (CALLS, 1, filling, None));
        }
    }

    fn closing(&mut self, first: Term, second: &Second, alpha: u64, k: u64) -> Option<()> {
        let right = earlier(&first, alpha)?;
        let filling = [filled_by(&second.pattern, 0), filled_by(&right, self.arity)].concat();
        let sides = (second.pattern.clone(), Some(right));
        let line = self.unfold(sides, (STEP, 1, filling, None)) as u8;
        self.closing = Some(Closing { line, k, alpha, filling: second.filling.clone() });
        Some(())
    }

    fn base_right(&mut self, first: Term, second: Second, parting: Parting, random: &mut Random) {
        let c = || fun(C, &[]);
        let first_empty = parting == Parting::Empty && random.chance(1, 2);
        let base = match first_empty {
            true => self.unfold((c(), None), (END, 0, Vec::new(), None)),
            false => self.unfold((c(), Some(self.side_from(0))), (TO_SIDE, 1, Vec::new(), None)),
        };
        let right = (parting != Parting::Empty || first_empty).then_some(second.pattern);
        let base = use_of(base, random.index(), random.index(), &filled_by(&first, 0));
        self.push(c(), right, Proof::Descent { base, rule: LOOP, filling: Vec::new() });
    }

    /// The left of a line beside a head, a call or the left of a base.
    fn left(&mut self, place: Place, first: &Term, second: &Second) {
        let left = second.pattern.clone();
        if place == Place::UnfoldHead {
            self.unfold((left, None), (FACT, 0, filled_by(first, 0), None));
            return;
        }
        let [mut at_0, mut next, mut here] =
            [(0, 0), (1, 1), (1, 0)].map(|(i, j)| left.reindexed(i, j).normal());
        match place {
            Place::BaseLeft => at_0 = first.clone(),
            Place::DescentHead => next = first.clone(),
            _ => here = first.clone(),
        }
        let fact = self.unfold((self.side_from(0), None), (FACT, 0, Vec::new(), None));
        let base = use_of(fact, 3, 2, &filled_by(&at_0, 0));
        let filling = [filled_by(&next, 0), filled_by(&here, self.arity)].concat();
        self.push(left, None, Proof::Descent { base, rule: STEP, filling });
    }

    fn rules(&self) -> Vec<Rule> {
        let c = || fun(C, &[]);
        let (side, other) = (self.side_from(0), self.side_from(self.arity));
        vec![
            rule(side.clone(), &[]),
            rule(side.clone(), &[other]),
            rule(c(), &[side]),
            rule(c(), &[c()]),
            rule(c(), &[]),
            rule(c(), &self.calls),
        ]
    }

    /// The pair, closed on a loop if not otherwise, if its terms fit the files.
    fn finished(mut self) -> Option<Case> {
        let c = || fun(C, &[]);
        let book = Book { arities: vec![1, 1, 0, 0, self.arity], rules: self.rules() };
        let closing = self.closing.take().unwrap_or_else(|| {
            let line = self.unfold((c(), Some(c())), (LOOP, 1, Vec::new(), None)) as u8;
            Closing { line, k: 0, alpha: 0, filling: Vec::new() }
        });
        let certificate = Certificate { lines: self.lines, closing };
        let mut case = Case { book, certificate };
        let mut fit = true;
        each_term(&mut case, &mut |term| fit &= fits_a_file(term));
        fit.then_some(case)
    }
}
