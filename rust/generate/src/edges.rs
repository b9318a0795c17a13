//! Pairs at the edges of reading: files that end soon after a node, files cut short,
//! symbols beside the last, and runs of ones.

use crate::faults::{accepted, fits_the_files};
use crate::random::Random;
use crate::scramble::random_rule;
use crate::world::{fits_a_file, fun, random_term, rule, var, Case};
use crate::writing::Task;
use second::files::{parse_book, parse_both};
use second::spell::{book_fields, certificate_fields, pack_book, pack_certificate, Field};
use second::{Book, Certificate, Closing, Line, Proof, Term};
use std::collections::BTreeSet;

/// A window of 64 bits lies in eight bytes, or in nine if it begins within one.
pub const WINDOW_BITS: usize = 64;
pub const WINDOW_BYTES: usize = 9;

/// How a pair was made. A symbol is told by its number.
#[derive(Clone, Copy, Debug, PartialEq, Eq)]
pub enum Edge {
    /// Accepted, with a last rule that no line names and terms in its closing for variables
    /// that the line named hasn't.
    Whole,
    Cut,
    /// With one bit flipped, in the last bytes of a file.
    Flipped,
    /// Accepted, and over the book's last symbol, which has this arity.
    Last(u8, u8),
    /// The same over a book without rules: little stands behind the last arity.
    NoRules(u8),
    /// The same over a book that ends with the last arity.
    NothingBehind(u8),
    /// The last symbol's arity is above 8.
    TooManyArguments(u8),
    /// Over a symbol that the book hasn't.
    NoSymbol(u8),
    /// A window of ones, or a few more.
    Ones(Over),
}

/// What the ones stand over, from which bit on.
#[derive(Clone, Copy, Debug, PartialEq, Eq)]
pub struct Over {
    pub in_book: bool,
    pub place: usize,
    pub from_a_node: bool,
}

#[derive(Clone, Debug)]
pub struct Edged {
    pub edge: Edge,
    pub book: Vec<u8>,
    pub certificate: Vec<u8>,
}

impl Edged {
    /// Reads both files, with room for their fields.
    pub fn readings(&self) -> [Task; 2] {
        let (book, certificate) = (self.book.clone(), self.certificate.clone());
        let room = parse_book(&book).map_or(1, |book| book_fields(&book).len());
        let whole = Task::ReadBook { book: book.clone(), room };
        let parsed = parse_both(&book, &certificate);
        let room = parsed.map_or(1, |(_, certificate)| certificate_fields(&certificate).len());
        [whole, Task::ReadCertificate { book, certificate, room }]
    }
}

pub struct Edges {
    random: Random,
}

impl Edges {
    pub fn new(seed: u64) -> Edges {
        Edges { random: Random::new(seed ^ 0xED6E) }
    }

    /// What is made of one accepted pair and of one list of arities, and a few pairs more.
    pub fn next_batch(&mut self) -> Vec<Edged> {
        let random = &mut self.random;
        let case = with_ends(random);
        let first = whole(&case);
        let mut batch = cut(&first.book, &first.certificate, random);
        for in_book in [false, true] {
            let fields = match in_book {
                true => book_fields(&case.book),
                false => certificate_fields(&case.certificate),
            };
            batch.extend(ones(&first, in_book, &fields, random));
        }
        batch.push(first);
        batch.extend((0..3).map(|_| whole(&with_ends(random))));
        batch.extend(beside_the_last_symbol(random));
        let flipped: Vec<Edged> = batch.iter().flat_map(|pair| flipped(pair, random)).collect();
        batch.extend(flipped);
        batch
    }
}

fn whole(case: &Case) -> Edged {
    let (book, certificate) = (pack_book(&case.book), pack_certificate(&case.certificate));
    Edged { edge: Edge::Whole, book, certificate }
}

/// An accepted pair of short files.
fn with_ends(random: &mut Random) -> Case {
    loop {
        let (_, mut case) = accepted(random);
        let arities = &case.book.arities;
        if case.book.rules.len() < 255 {
            case.book.rules.extend(random_rule(arities, random));
        }
        let closing = &mut case.certificate.closing;
        let line = &case.certificate.lines[usize::from(closing.line)];
        let mut known: BTreeSet<u8> = closing.filling.iter().map(|(name, _)| *name).collect();
        add_variables(&line.left, &mut known);
        for _ in 0..random.below(4) {
            let name = random.between(0, 63) as u8;
            let size = 1 + random.below(6);
            let term = random_term(random, arities, 64, true, size);
            if fits_a_file(&term) && known.insert(name) {
                closing.filling.push((name, term));
            }
        }
        closing.filling.sort_by_key(|(name, _)| *name);
        if fits_the_files(&case) && pack_certificate(&case.certificate).len() < 1_000 {
            return case;
        }
    }
}

fn add_variables(term: &Term, known: &mut BTreeSet<u8>) {
    match term {
        Term::Var(name) => {
            known.insert(*name);
        }
        Term::Fun(_, arguments) => arguments.iter().for_each(|term| add_variables(term, known)),
        Term::Pow { arg, .. } => add_variables(arg, known),
    }
}

/// Four pairs, if this one is not damaged.
fn flipped(pair: &Edged, random: &mut Random) -> Vec<Edged> {
    if !matches!(pair.edge, Edge::Whole | Edge::Last(..)) {
        return Vec::new();
    }
    let flip = |in_book: bool| {
        let mut pair = Edged { edge: Edge::Flipped, ..pair.clone() };
        let file = if in_book { &mut pair.book } else { &mut pair.certificate };
        let from = file.len().saturating_sub(WINDOW_BYTES);
        let bit = random.below(8 * (file.len() - from));
        file[from + bit / 8] ^= 0x80 >> (bit % 8);
        pair
    };
    [true, false, false, false].map(flip).to_vec()
}

/// Both files of a pair, one after the other, at some of their lengths.
pub fn cut(book: &[u8], certificate: &[u8], random: &mut Random) -> Vec<Edged> {
    let of = |book: &[u8], certificate: &[u8]| Edged {
        edge: Edge::Cut,
        book: book.to_vec(),
        certificate: certificate.to_vec(),
    };
    let books =
        lengths(book.len(), random).into_iter().map(|length| of(&book[..length], certificate));
    let mut pairs: Vec<Edged> = books.collect();
    let certificates = lengths(certificate.len(), random);
    pairs.extend(certificates.into_iter().map(|length| of(book, &certificate[..length])));
    pairs
}

/// Lengths of a file that is cut: the first ten, the last ten and some between them.
fn lengths(length: usize, random: &mut Random) -> BTreeSet<usize> {
    let some: Vec<usize> = (0..10).map(|_| random.below(length)).collect();
    let ends = (0..length.min(10)).chain(length.saturating_sub(10)..length);
    ends.chain(some.into_iter().filter(|cut| *cut < length)).collect()
}

/// Ones over one of both files: from each bit of a byte on, from nodes on, and at its end.
fn ones(pair: &Edged, in_book: bool, fields: &[Field], random: &mut Random) -> Vec<Edged> {
    let length = 8 * if in_book { pair.book.len() } else { pair.certificate.len() };
    let nodes = nodes_in(fields);
    let mut places: Vec<(usize, bool)> =
        (0..8).map(|bit| (random.below(length / 8) * 8 + bit, false)).collect();
    places.extend((0..4).map(|_| (random.pick(&nodes).0, true)));
    places.push((length.saturating_sub(WINDOW_BITS), false));
    let at = |(place, from_a_node)| {
        let width = WINDOW_BITS + random.below(17);
        let mut over = pair.clone();
        over.edge = Edge::Ones(Over { in_book, place, from_a_node });
        let file = if in_book { &mut over.book } else { &mut over.certificate };
        // Now and then one bit stays as it is.
        let kept = place + random.below(4 * width);
        for bit in (place..length.min(place + width)).filter(|bit| *bit != kept) {
            file[bit / 8] |= 0x80 >> (bit % 8);
        }
        over
    };
    places.into_iter().map(at).collect()
}

/// Where the nodes among the fields begin and end. A field of two bits is a tag.
pub fn nodes_in(fields: &[Field]) -> Vec<(usize, usize)> {
    let mut at = 0;
    let mut nodes = Vec::new();
    for (number, field) in fields.iter().enumerate() {
        if field.width == 2 {
            let count = if field.value == 2 { 4 } else { 2 };
            let node = fields[number..].iter().take(count);
            nodes.push((at, at + node.map(|field| field.width as usize).sum::<usize>()));
        }
        at += field.width as usize;
    }
    nodes
}

/// A rule, a line and a closing that say of one call that it calls itself.
fn looping(call: Term) -> Case {
    let closing = Closing { line: 0, k: 0, alpha: 0, filling: Vec::new() };
    let line = Line {
        left: call.clone(),
        right: Some(call.clone()),
        proof: Proof::Unfold {
            rule: 0,
            stop: 1,
            filling: Vec::new(),
            before: Vec::new(),
            last: None,
        },
    };
    let book = Book { arities: Vec::new(), rules: vec![rule(call.clone(), &[call])] };
    Case { book, certificate: Certificate { lines: vec![line], closing } }
}

/// A symbol with arguments.
fn call_of(symbol: u8, arity: u8, random: &mut Random) -> Term {
    let mut variable = || var(random.between(0, 63) as u8);
    match arity {
        1 => Term::pow(symbol, 0, 1, variable()),
        _ => fun(symbol, &(0..arity).map(|_| variable()).collect::<Vec<Term>>()),
    }
}

fn beside_the_last_symbol(random: &mut Random) -> Vec<Edged> {
    let count = match random.below(8) {
        0 => random.between(0, 255),
        1 => random.between(253, 255),
        _ => random.between(0, 16),
    } as u8;
    let arities: Vec<u8> = (0..count).map(|_| random.between(0, 8) as u8).collect();
    let mut pairs = Vec::new();
    let without = pack_book(&Book { arities: arities.clone(), rules: Vec::new() });
    if let Some((arity, others)) = arities.split_last() {
        let last = count - 1;
        let Case { mut book, certificate } = looping(call_of(last, *arity, random));
        book.arities = arities.clone();
        let certificate = pack_certificate(&certificate);
        let mut add = |edge: Edge, book: &[u8]| {
            pairs.push(Edged { edge, book: book.to_vec(), certificate: certificate.clone() })
        };
        add(Edge::Last(last, *arity), &pack_book(&book));
        add(Edge::NoRules(last), &without);
        add(Edge::NothingBehind(last), &without[..1 + usize::from(count).div_ceil(2)]);
        book.arities = [others, &[random.between(9, 15) as u8]].concat();
        add(Edge::TooManyArguments(last), &pack_book(&book));
    }
    for symbol in [count, count.saturating_add(random.small() as u8), 255] {
        let call = call_of(symbol, random.between(0, 2) as u8, random);
        let certificate = pack_certificate(&looping(call).certificate);
        pairs.push(Edged { edge: Edge::NoSymbol(symbol), book: without.clone(), certificate });
    }
    pairs
}
