//! Damage at bit, byte, field and tree level.

use crate::nudge::node_at;
use crate::random::Random;
use crate::visit::{each_term, parts_of, rule_of};
use crate::world::Case;
use second::spell::Field;
use second::Term;

/// Flips a few bits.
pub fn flip_bits(bytes: &mut [u8], random: &mut Random) {
    if bytes.is_empty() {
        return;
    }
    for _ in 0..random.between(1, 3) {
        let bit = random.below(bytes.len() * 8);
        bytes[bit / 8] ^= 0x80 >> (bit % 8);
    }
}

/// Flips a bit of the last byte, where the padding is.
pub fn flip_near_the_end(bytes: &mut [u8], random: &mut Random) {
    if let Some(last) = bytes.last_mut() {
        *last ^= 1 << random.below(8);
    }
}

/// Changes, puts in, takes out, cuts or adds bytes.
pub fn change_bytes(bytes: &mut Vec<u8>, random: &mut Random) {
    let place = random.below(bytes.len().max(1));
    let any = random.number() as u8;
    let byte = *random.pick(&[0, 1, 0x80, 0xFF, any]);
    match random.below(6) {
        0 if !bytes.is_empty() => bytes[place] = byte,
        1 => bytes.insert(place.min(bytes.len()), byte),
        2 if !bytes.is_empty() => {
            bytes.remove(place);
        }
        3 => bytes.truncate(place),
        4 => bytes.push(byte),
        _ => {
            bytes.pop();
        }
    }
}

/// Changes, puts in or takes out one field; the rest moves along.
pub fn change_fields(fields: &mut Vec<Field>, random: &mut Random) {
    if fields.is_empty() {
        return;
    }
    let place = random.below(fields.len());
    let most = (1u16 << fields[place].width) - 1;
    let old = fields[place].value;
    let value = match random.below(6) {
        0 => 0,
        1 => most,
        2 => old.wrapping_add(1) & most,
        3 => old.wrapping_sub(1) & most,
        _ => random.number() as u16 & most,
    };
    match random.below(12) {
        0 => {
            fields.remove(place);
        }
        1 => {
            let copy = fields[place];
            fields.insert(place, copy);
        }
        2 => fields.truncate(place),
        3 => {
            let other = random.below(fields.len());
            let (one, two) = (fields[place].value, fields[other].value);
            fields[place].value = two;
            fields[other].value = one;
        }
        _ => fields[place].value = value,
    }
}

/// Changes the trees without regard to what a file may hold.
pub fn change_trees(case: &mut Case, random: &mut Random) {
    match random.below(10) {
        0..=4 => change_a_term(case, random),
        5 => change_a_number(case, random),
        6 => change_a_filling(case, random),
        7 => change_the_lines(case, random),
        8 => change_the_closing(case, random),
        _ => change_book(case, random),
    }
}

fn change_a_term(case: &mut Case, random: &mut Random) {
    let mut count = 0;
    each_term(case, &mut |_| count += 1);
    let mut wanted = random.below(count);
    let other = some_term(case, random);
    let arities = case.book.arities.clone();
    each_term(case, &mut |term| {
        if wanted == 0 {
            change_node(term, &other, &arities, random);
        }
        wanted = wanted.wrapping_sub(1);
    });
}

/// Some term of the pair.
fn some_term(case: &mut Case, random: &mut Random) -> Term {
    let mut terms = Vec::new();
    each_term(case, &mut |term| terms.push(term.clone()));
    random.pick(&terms).clone()
}

fn change_node(term: &mut Term, other: &Term, arities: &[u8], random: &mut Random) {
    let place = if random.chance(1, 4) { 0 } else { random.below(term.nodes()) };
    let node = node_at(term, place);
    let old = node.clone();
    *node = match (random.below(9), old) {
        (0, _) => Term::Var(random.between(0, 63) as u8),
        (1, _) => other.clone(),
        (2, Term::Pow { symbol, arg, .. }) => Term::Pow { symbol, a: 0, b: 0, arg },
        (3, Term::Pow { symbol, a, b, arg }) => {
            Term::pow(symbol, a, b, Term::Pow { symbol, a: b, b: 1, arg })
        }
        (4, Term::Pow { symbol, b, arg, .. }) => {
            Term::Pow { symbol, a: random.between(0, 4_095), b, arg }
        }
        (5, Term::Fun(symbol, arguments)) => Term::Fun(symbol ^ 1, arguments),
        (6, Term::Pow { symbol, a, b, arg }) => Term::Pow { symbol: symbol ^ 1, a, b, arg },
        (7, old) => tall(old, arities, random),
        (_, Term::Fun(symbol, mut arguments)) => {
            random.shuffle(&mut arguments);
            Term::Fun(symbol, arguments)
        }
        (_, old) => old,
    };
}

/// Puts 200 to 300 nodes over a node: two symbols in turn, each with that node
/// or what has been built so far as its last argument.
fn tall(node: Term, arities: &[u8], random: &mut Random) -> Term {
    let with_arguments: Vec<usize> =
        (0..arities.len()).filter(|symbol| arities[*symbol] > 0).collect();
    if with_arguments.is_empty() {
        return node;
    }
    let (one, other) = (*random.pick(&with_arguments), *random.pick(&with_arguments));
    let mut built = node;
    for number in 0..random.between(60, 300) {
        let symbol = if number % 2 == 0 { one } else { other };
        built = match arities[symbol] {
            1 => Term::pow(symbol as u8, 0, 1, built),
            arity => {
                let mut arguments = vec![Term::Var(0); usize::from(arity) - 1];
                arguments.push(built);
                Term::Fun(symbol as u8, arguments)
            }
        };
    }
    built
}

fn change_a_number(case: &mut Case, random: &mut Random) {
    let Some(place) = some_line(case, random) else { return };
    let line = &mut case.certificate.lines[place];
    let number = *random.pick(&[place, place + 1, place.saturating_sub(1), 0, 255]) as u8;
    if random.chance(1, 2) {
        *rule_of(&mut line.proof) = random.between(0, 8) as u8;
    } else if let Some(one) = parts_of(&mut line.proof).1.into_iter().next() {
        one.line = number;
    }
}

fn some_line(case: &Case, random: &mut Random) -> Option<usize> {
    let count = case.certificate.lines.len();
    (count > 0).then(|| random.below(count))
}

fn change_a_filling(case: &mut Case, random: &mut Random) {
    let Some(place) = some_line(case, random) else { return };
    let filling = parts_of(&mut case.certificate.lines[place].proof).0;
    match random.below(4) {
        0 => filling.reverse(),
        1 => {
            let copy = filling.clone();
            filling.extend(copy);
        }
        2 => filling.push((random.between(0, 63) as u8, Term::Var(0))),
        _ => *filling = (0..random.between(63, 66)).map(|n| (n as u8 % 64, Term::Var(1))).collect(),
    }
}

fn change_the_lines(case: &mut Case, random: &mut Random) {
    let Some(place) = some_line(case, random) else { return };
    let lines = &mut case.certificate.lines;
    let other = random.below(lines.len());
    match random.below(3) {
        0 => {
            lines.remove(place);
        }
        1 => lines.swap(place, other),
        _ => {
            let copy = lines[place].clone();
            lines.insert(other, copy);
        }
    }
}

fn change_the_closing(case: &mut Case, random: &mut Random) {
    let closing = &mut case.certificate.closing;
    let count = case.certificate.lines.len() as u64;
    match random.below(4) {
        0 => closing.line = random.between(0, count.min(255)) as u8,
        1 => closing.k = random.between(0, 4_095),
        2 => closing.alpha = random.between(0, 4_095),
        _ => closing.filling.reverse(),
    }
}

/// Changes arities, rules or their order.
pub fn change_book(case: &mut Case, random: &mut Random) {
    let book = &mut case.book;
    let symbol = random.below(book.arities.len());
    let place = random.below(book.rules.len());
    match random.below(5) {
        0 if !book.arities.is_empty() => book.arities[symbol] = random.between(0, 15) as u8,
        1 => {
            book.arities.pop();
        }
        2 => {
            book.rules.pop();
        }
        3 if !book.rules.is_empty() => {
            let head = &mut book.rules[place].head;
            *head = tall(head.clone(), &book.arities, random);
        }
        _ => random.shuffle(&mut book.rules),
    }
}
