//! Changes of a pair that keep its meaning: other numbers for symbols, rules,
//! lines and variables, further symbols, rules and lines.

use crate::random::Random;
use crate::visit::{each_line_term, each_term, parts_of, rename, renumber_symbols, rule_of};
use crate::world::{random_term, Case, World};
use second::{Filling, Line, Rule, Term};
use std::collections::BTreeSet;

/// Moves all numbers up, to make room for another pair before this one.
pub fn move_numbers(case: &mut Case, symbols: u8, rules: u8, lines: u8) {
    each_term(case, &mut |term| renumber_symbols(term, &|symbol| symbol + symbols));
    for line in &mut case.certificate.lines {
        *rule_of(&mut line.proof) += rules;
        for one in parts_of(&mut line.proof).1 {
            one.line += lines;
        }
    }
    case.certificate.closing.line += lines;
}

/// All changes, by chance.
pub fn scrambled(mut case: Case, random: &mut Random) -> Case {
    if random.chance(1, 2) {
        list_all_variables(&mut case);
        if random.chance(1, 4) {
            list_more_variables(&mut case, random);
        }
        rename_rules(&mut case, random);
        rename_lines(&mut case, random);
        drop_some_own_variables(&mut case, random);
    }
    if random.chance(1, 2) {
        add_symbols(&mut case, random);
    }
    if random.chance(1, 2) {
        add_rules(&mut case, random);
    }
    for _ in 0..*random.pick(&[0, 0, 1, 2, 5]) {
        add_line(&mut case, random);
    }
    case
}

fn variables_of<'a>(terms: impl Iterator<Item = &'a Term>) -> BTreeSet<u8> {
    let mut names = BTreeSet::new();
    terms.for_each(|term| term.collect_variables(&mut names));
    names
}

fn rule_variables(rule: &Rule) -> BTreeSet<u8> {
    variables_of(rule.calls.iter().chain([&rule.head]))
}

fn line_variables(line: &Line) -> BTreeSet<u8> {
    variables_of(line.right.iter().chain([&line.left]))
}

/// Lists, in every filling, each variable that it could replace.
pub fn list_all_variables(case: &mut Case) {
    let of_rules: Vec<BTreeSet<u8>> = case.book.rules.iter().map(rule_variables).collect();
    let lines = &mut case.certificate.lines;
    let of_lines: Vec<BTreeSet<u8>> = lines.iter().map(line_variables).collect();
    for line in lines {
        let rule = usize::from(*rule_of(&mut line.proof));
        let (filling, uses) = parts_of(&mut line.proof);
        list_missing(filling, &of_rules[rule]);
        for one in uses {
            list_missing(&mut one.filling, &of_lines[usize::from(one.line)]);
        }
    }
    let closing = &mut case.certificate.closing;
    list_missing(&mut closing.filling, &of_lines[usize::from(closing.line)]);
}

/// Lists, in one filling, variables that stand nowhere in what it fills.
fn list_more_variables(case: &mut Case, random: &mut Random) {
    let number = random.below(case.certificate.lines.len());
    let arities = case.book.arities.clone();
    let (filling, mut uses) = parts_of(&mut case.certificate.lines[number].proof);
    let filling = match uses.pop() {
        Some(one) if random.chance(1, 2) => &mut one.filling,
        _ => filling,
    };
    let count = *random.pick(&[1, 3, 64]);
    for name in permutation(random, 64).into_iter().take(count) {
        if !filling.iter().any(|(listed, _)| *listed == name) {
            filling.push((name, random_term(random, &arities, 64, true, 4)));
        }
    }
    filling.sort_by_key(|(name, _)| *name);
}

fn list_missing(filling: &mut Filling, names: &BTreeSet<u8>) {
    for name in names {
        if !filling.iter().any(|(listed, _)| listed == name) {
            filling.push((*name, Term::Var(*name)));
        }
    }
    filling.sort_by_key(|(name, _)| *name);
}

fn permutation(random: &mut Random, count: usize) -> Vec<u8> {
    let mut names: Vec<u8> = (0..count).map(|name| name as u8).collect();
    random.shuffle(&mut names);
    names
}

fn rename_listed(filling: &mut Filling, names: &[u8]) {
    for (name, _) in filling.iter_mut() {
        *name = names[usize::from(*name)];
    }
    filling.sort_by_key(|(name, _)| *name);
}

/// Other variables for every rule.
fn rename_rules(case: &mut Case, random: &mut Random) {
    let names: Vec<Vec<u8>> = case.book.rules.iter().map(|_| permutation(random, 64)).collect();
    for (rule, names) in case.book.rules.iter_mut().zip(&names) {
        rename(&mut rule.head, names);
        rule.calls.iter_mut().for_each(|call| rename(call, names));
    }
    for line in &mut case.certificate.lines {
        let rule = usize::from(*rule_of(&mut line.proof));
        rename_listed(parts_of(&mut line.proof).0, &names[rule]);
    }
}

/// Other variables for every line.
fn rename_lines(case: &mut Case, random: &mut Random) {
    let lines = &mut case.certificate.lines;
    let names: Vec<Vec<u8>> = lines.iter().map(|_| permutation(random, 64)).collect();
    for (line, own) in lines.iter_mut().zip(&names) {
        each_line_term(line, &mut |term| rename(term, own));
        for one in parts_of(&mut line.proof).1 {
            rename_listed(&mut one.filling, &names[usize::from(one.line)]);
        }
    }
    let closing = &mut case.certificate.closing;
    let own = &names[usize::from(closing.line)];
    closing.filling.iter_mut().for_each(|(_, term)| rename(term, own));
    rename_listed(&mut closing.filling, own);
}

/// "A variable that isn't listed stays itself": some that are listed with
/// themselves need not be.
fn drop_some_own_variables(case: &mut Case, random: &mut Random) {
    let mut thin = |filling: &mut Filling| {
        filling.retain(|(name, term)| *term != Term::Var(*name) || random.chance(1, 2));
    };
    for line in &mut case.certificate.lines {
        let (filling, uses) = parts_of(&mut line.proof);
        thin(filling);
        uses.into_iter().for_each(|one| thin(&mut one.filling));
    }
    thin(&mut case.certificate.closing.filling);
}

/// Further symbols, and all symbols in another order.
fn add_symbols(case: &mut Case, random: &mut Random) {
    let old = case.book.arities.len();
    let room = 255 - old;
    let mut arities = case.book.arities.clone();
    for _ in 0..random.below(room.min(6) + 1) {
        arities.push(*random.pick(&[0, 1, 1, 2, 3, 8]));
    }
    let order = permutation(random, arities.len());
    for (number, arity) in arities.into_iter().enumerate() {
        let place = usize::from(order[number]);
        if place >= case.book.arities.len() {
            case.book.arities.resize(place + 1, 0);
        }
        case.book.arities[place] = arity;
    }
    each_term(case, &mut |term| renumber_symbols(term, &|symbol| order[usize::from(symbol)]));
}

/// Further rules, and all rules in another order.
fn add_rules(case: &mut Case, random: &mut Random) {
    let room = 255 - case.book.rules.len();
    for _ in 0..random.below(room.min(4) + 1) {
        let rule = random_rule(&case.book.arities, random);
        case.book.rules.extend(rule);
    }
    let order = permutation(random, case.book.rules.len());
    let mut placed: Vec<(u8, Rule)> =
        order.iter().copied().zip(case.book.rules.drain(..)).collect();
    placed.sort_by_key(|(place, _)| *place);
    case.book.rules = placed.into_iter().map(|(_, rule)| rule).collect();
    for line in &mut case.certificate.lines {
        let rule = rule_of(&mut line.proof);
        *rule = order[usize::from(*rule)];
    }
}

pub fn random_rule(arities: &[u8], random: &mut Random) -> Option<Rule> {
    let count = random.below(4);
    let mut terms = Vec::new();
    for _ in 0..=count {
        let term = random_term(random, arities, 4, false, 8);
        if matches!(term, Term::Var(_)) {
            return None;
        }
        terms.push(term);
    }
    let head = terms.remove(0);
    Some(Rule { head, calls: terms })
}

/// A further line that nothing uses, anywhere among the lines.
fn add_line(case: &mut Case, random: &mut Random) {
    let count = case.certificate.lines.len();
    if count >= 250 {
        return;
    }
    let place = random.below(count + 1);
    let lines = case.certificate.lines[..place].to_vec();
    let mut world = World { book: case.book.clone(), lines };
    crate::shapes::random_line(&mut world, random);
    if world.lines.len() > place {
        insert_line(case, place, world.lines.pop().expect("a line was added"));
    }
}

/// Puts a line in and moves the numbers of those behind it.
pub fn insert_line(case: &mut Case, place: usize, line: Line) {
    let later = |number: &mut u8| {
        if usize::from(*number) >= place {
            *number += 1;
        }
    };
    for line in &mut case.certificate.lines {
        for one in parts_of(&mut line.proof).1 {
            later(&mut one.line);
        }
    }
    later(&mut case.certificate.closing.line);
    case.certificate.lines.insert(place, line);
}
