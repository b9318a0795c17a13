//! Ways through a pair: its terms, their nodes, the parts of a line; and other numbers for
//! symbols and variables.

use crate::world::Case;
use second::{Book, Filling, Line, Proof, Term, Use};

/// Calls `change` on every term of the rules.
fn each_rule_term(book: &mut Book, change: &mut dyn FnMut(&mut Term)) {
    for rule in &mut book.rules {
        change(&mut rule.head);
        rule.calls.iter_mut().for_each(&mut *change);
    }
}

/// Calls `change` on every term of a line, fillings included.
pub fn each_line_term(line: &mut Line, change: &mut dyn FnMut(&mut Term)) {
    change(&mut line.left);
    line.right.iter_mut().for_each(&mut *change);
    let (filling, uses) = parts_of(&mut line.proof);
    filling.iter_mut().for_each(|(_, term)| change(term));
    for one in uses {
        one.filling.iter_mut().for_each(|(_, term)| change(term));
    }
}

/// The rule's filling and all uses of a line.
pub fn parts_of(proof: &mut Proof) -> (&mut Filling, Vec<&mut Use>) {
    match proof {
        Proof::Unfold { filling, before, last, .. } => {
            (filling, before.iter_mut().chain(last).collect())
        }
        Proof::Descent { base, filling, .. } => (filling, vec![base]),
    }
}

pub fn rule_of(proof: &mut Proof) -> &mut u8 {
    match proof {
        Proof::Unfold { rule, .. } | Proof::Descent { rule, .. } => rule,
    }
}

pub fn each_term(case: &mut Case, change: &mut dyn FnMut(&mut Term)) {
    each_rule_term(&mut case.book, change);
    for line in &mut case.certificate.lines {
        each_line_term(line, change);
    }
    case.certificate.closing.filling.iter_mut().for_each(|(_, term)| change(term));
}

fn each_node(term: &mut Term, change: &mut dyn FnMut(&mut Term)) {
    change(term);
    match term {
        Term::Var(_) => (),
        Term::Fun(_, arguments) => arguments.iter_mut().for_each(|t| each_node(t, change)),
        Term::Pow { arg, .. } => each_node(arg, change),
    }
}

pub fn renumber_symbols(term: &mut Term, numbers: &dyn Fn(u8) -> u8) {
    each_node(term, &mut |node| match node {
        Term::Fun(symbol, _) | Term::Pow { symbol, .. } => *symbol = numbers(*symbol),
        Term::Var(_) => (),
    });
}

pub fn rename(term: &mut Term, names: &[u8]) {
    each_node(term, &mut |node| {
        if let Term::Var(name) = node {
            *name = names[usize::from(*name)];
        }
    });
}
