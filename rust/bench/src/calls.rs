//! `covers`, by the second implementation and by the proved one.

use crate::{times, work};
use second::files::{parse_both, parse_call};
use std::hint::black_box;
use text::vectors::{parse_vectors, Vector};

const INPUTS: &str = include_str!("../calls.txt");

pub fn inputs() -> Vec<Vector> {
    parse_vectors(INPUTS).expect("the inputs are what they say")
}

/// What this side answers to the input of this name.
pub fn answer(side: &str, name: &str) -> Option<String> {
    answer_of(side, inputs().iter().find(|input| input.name == name)?)
}

fn answer_of(side: &str, input: &Vector) -> Option<String> {
    match side {
        "second" => Some(second::coverage_line(&second_coverage(input, &mut work()))),
        "proved" => Some(gearcinder_coverage(input, &mut work()).to_string()),
        _ => None,
    }
}

// Names of their own, for a profiler.

#[inline(never)]
#[no_mangle]
fn gearcinder_coverage(input: &Vector, work: &mut [u64]) -> gearcinder::Coverage {
    let Vector { first, second, third, .. } = black_box(input);
    gearcinder::covers(first.bytes(), second.bytes(), third.bytes(), work)
}

#[inline(never)]
#[no_mangle]
fn second_coverage(input: &Vector, work: &mut [u64]) -> second::Coverage {
    let Vector { first, second, third, .. } = black_box(input);
    second::covers(first.bytes(), second.bytes(), third.bytes(), work)
}

/// The certificate is judged in each; what judging alone takes stands beside it.
pub fn table(seconds: f64) {
    println!(
        "| call | nodes of the pattern | nodes of the call | answer | second, µs | proved, µs | \
         of it judging, µs | second : proved |"
    );
    println!("|---|---|---|---|---|---|---|---|");
    inputs().iter().for_each(|input| row(input, seconds));
}

fn row(input: &Vector, seconds: f64) {
    for side in ["second", "proved"] {
        assert_eq!(answer_of(side, input).as_ref(), Some(&input.answer), "{}", input.name);
    }
    let (pattern, call) = nodes(input);
    let mut works = [work(), work(), work()];
    let [one, two, three] = &mut works;
    let mut by_second = || {
        black_box(second_coverage(input, one));
    };
    let mut by_proved = || {
        black_box(gearcinder_coverage(input, two));
    };
    let mut judged = || {
        let (book, certificate) = black_box((input.first.bytes(), input.second.bytes()));
        black_box(gearcinder::judge(book, certificate, three));
    };
    let [second, proved, judging] = times(seconds, [&mut by_second, &mut by_proved, &mut judged]);
    println!(
        "| {} | {pattern} | {call} | {} | {:.1} | {:.1} | {:.1} | {:.2} |",
        input.name,
        input.answer,
        second * 1e6,
        proved * 1e6,
        judging * 1e6,
        second / proved
    );
}

/// The nodes of the accepted pattern and of the call.
fn nodes(input: &Vector) -> (usize, usize) {
    let (book, certificate) =
        parse_both(input.first.bytes(), input.second.bytes()).expect("it is accepted");
    let call = parse_call(&book, input.third.bytes()).expect("the call is a term");
    let line = usize::from(certificate.closing.line);
    (certificate.lines[line].left.nodes(), call.nodes())
}
