//! What is worth knowing of pairs at the edges of reading.

use crate::edges::{nodes_in, Edge, Edged, Over, WINDOW_BITS, WINDOW_BYTES};
use second::files::{parse_book, parse_both};
use second::spell::{book_fields, certificate_fields, Field};
use second::{Refusal, Verdict};
use std::collections::BTreeSet;

const FILES: [&str; 2] = ["book", "certificate"];
/// Of a symbol's number: the arity is in the upper or in the lower half of a byte.
const PARITIES: [&str; 2] = ["even", "odd"];

pub fn labels(edged: &Edged, verdict: &Verdict) -> Vec<String> {
    let Edged { edge, book, certificate } = edged;
    let mut labels = made(*edge, book, verdict);
    let parsed = parse_both(book, certificate);
    if let Err(Refusal { number: number @ 3..=7, w, a, .. }) = parsed {
        let place = FILES[usize::from(w)];
        let left = 8 * [book, certificate][usize::from(w)].len() - a as usize;
        match number {
            3 => labels.push(format!(" 3 {place}, {left} bits left")),
            _ if left < WINDOW_BITS => {
                labels.push(format!("{number:2} {place}, in its last window"))
            }
            _ => (),
        }
    }
    if book.len() <= WINDOW_BYTES {
        let good = if parse_book(book).is_ok() { "good" } else { "refused" };
        labels.push(format!("a book of {} bytes, {good}", book.len()));
    }
    if certificate.len() <= WINDOW_BYTES {
        labels.push(format!("a certificate of {} bytes", certificate.len()));
    }
    if let Ok((trees, certificate_trees)) = parsed {
        labels.extend(ends(&book_fields(&trees), book.len(), FILES[0]));
        labels.extend(ends(&certificate_fields(&certificate_trees), certificate.len(), FILES[1]));
    }
    labels
}

/// How the pair was made, if it is what it was made for.
fn made(edge: Edge, book: &[u8], verdict: &Verdict) -> Vec<String> {
    let parity = |symbol: u8| PARITIES[usize::from(symbol % 2)];
    let accepted = matches!(verdict, Verdict::Accepted { .. });
    match edge {
        Edge::Whole | Edge::Cut | Edge::Flipped => Vec::new(),
        Edge::Last(symbol, arity) if accepted => {
            vec![format!("accepted over the last symbol, {}, of arity {arity}", parity(symbol))]
        }
        Edge::Last(..) => Vec::new(),
        Edge::NoRules(symbol) => vec![format!("no rules behind the arities, {}", parity(symbol))],
        Edge::NothingBehind(symbol) => {
            vec![format!("the last arity ends the book, {}", parity(symbol))]
        }
        Edge::TooManyArguments(symbol) => {
            vec![format!("the last arity is above 8, {}", parity(symbol))]
        }
        Edge::NoSymbol(symbol) => {
            let place = 1 + usize::from(symbol) / 2;
            let within = if place < book.len() { "within" } else { "behind" };
            vec![format!("no such symbol, its half byte {within} the book, {}", parity(symbol))]
        }
        Edge::Ones(Over { in_book, place, from_a_node }) => {
            let file = FILES[usize::from(!in_book)];
            let mut labels =
                vec![format!("ones over the {file}, from bit {} of a byte", place % 8)];
            if from_a_node {
                labels.push(format!("ones over a node of the {file}"));
            }
            labels
        }
    }
}

/// How far before the file's end its last nodes end.
fn ends(fields: &[Field], bytes: usize, file: &str) -> BTreeSet<String> {
    let before = nodes_in(fields).into_iter().map(|(_, end)| 8 * bytes - end);
    before.filter(|bits| *bits < WINDOW_BITS).map(|bits| end_in_words(bits, file)).collect()
}

fn end_in_words(bits: usize, file: &str) -> String {
    format!("a node ends {bits:2} bits before the {file}'s end")
}

/// What has to be met. All fields of a book have an even number of bits.
pub fn wanted() -> Vec<String> {
    let mut wanted = Vec::new();
    for (file, step) in FILES.into_iter().zip([2, 1]) {
        wanted.extend((0..12).step_by(step).map(|left| format!(" 3 {file}, {left} bits left")));
        wanted.extend([4, 5, 7].map(|number| format!("{number:2} {file}, in its last window")));
        wanted.extend((0..WINDOW_BITS).step_by(step).map(|bits| end_in_words(bits, file)));
        wanted.extend((0..8).map(|bit| format!("ones over the {file}, from bit {bit} of a byte")));
        wanted.push(format!("ones over a node of the {file}"));
    }
    wanted.extend((2..=WINDOW_BYTES).map(|bytes| format!("a book of {bytes} bytes, good")));
    wanted.extend((0..=WINDOW_BYTES).map(|bytes| format!("a book of {bytes} bytes, refused")));
    wanted.extend((0..=WINDOW_BYTES).map(|bytes| format!("a certificate of {bytes} bytes")));
    for parity in PARITIES {
        wanted.extend(
            (0..=8)
                .map(|arity| format!("accepted over the last symbol, {parity}, of arity {arity}")),
        );
        wanted.extend(
            [
                "no rules behind the arities",
                "the last arity ends the book",
                "the last arity is above 8",
                "no such symbol, its half byte within the book",
                "no such symbol, its half byte behind the book",
            ]
            .map(|label| format!("{label}, {parity}")),
        );
    }
    wanted
}
