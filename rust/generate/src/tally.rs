//! Counts of verdicts by refusal number, W and part.

use crate::inputs::{Input, Inputs, Kind};
use crate::parted::labels;
use second::files::parse_both;
use second::judging::SIDE_NODES;
use second::{judge_input, Book, Certificate, Proof, Refusal, Term, Use, Verdict};
use std::collections::BTreeMap;

#[derive(Default)]
pub struct Tally {
    pub accepted: BTreeMap<&'static str, usize>,
    pub accepted_after_damage: usize,
    /// By number, W and a description of the part.
    pub refused: BTreeMap<(u8, u8, String), usize>,
    pub by_kind: BTreeMap<String, usize>,
    /// By what the sides of comparisons were.
    pub compared: BTreeMap<String, usize>,
    /// Inputs made to be accepted that are not.
    pub missed: usize,
}

impl Tally {
    pub fn count(&mut self, input: &Input, verdict: &Verdict) {
        let name = match input.kind {
            Kind::Accepted(_) => "accepted shapes".to_string(),
            Kind::Failing(goal) => format!("failing: {goal:?}"),
            Kind::Sides(parting) => format!("two sides that part: {parting:?}"),
            other => format!("damaged: {other:?}"),
        };
        *self.by_kind.entry(name).or_default() += 1;
        self.count_compared(input, verdict);
        match (verdict, input.kind) {
            (Verdict::Accepted { .. }, Kind::Accepted(shape)) => {
                *self.accepted.entry(shape).or_default() += 1;
            }
            (Verdict::Accepted { .. }, _) => self.accepted_after_damage += 1,
            (Verdict::Refused(refusal), kind) => {
                self.missed += usize::from(matches!(kind, Kind::Accepted(_)));
                let place = (refusal.number, refusal.w, part_of(&input.framed, refusal));
                *self.refused.entry(place).or_default() += 1;
            }
        }
    }

    fn count_compared(&mut self, input: &Input, verdict: &Verdict) {
        let judged = match verdict {
            Verdict::Accepted { .. } => true,
            Verdict::Refused(refusal) => refusal.number >= 9,
        };
        if judged {
            let (book, certificate) = files_of(&input.framed);
            for label in labels(book, certificate, verdict) {
                *self.compared.entry(label).or_default() += 1;
            }
        }
    }

    pub fn print(&self) {
        let accepted: usize = self.accepted.values().sum();
        println!("accepted, made so: {accepted}");
        for (shape, count) in &self.accepted {
            println!("    {shape}: {count}");
        }
        println!("accepted after damage: {}", self.accepted_after_damage);
        println!("refused:");
        for ((number, w, part), count) in &self.refused {
            println!("    {number:2} W={w} {part}: {count}");
        }
        println!("compared:");
        for (label, count) in &self.compared {
            println!("    {label}: {count}");
        }
        println!("made:");
        for (kind, count) in &self.by_kind {
            println!("    {kind}: {count}");
        }
    }
}

fn part_of(framed: &[u8], refusal: &Refusal) -> String {
    if refusal.number < 9 {
        return String::new();
    }
    let (book, certificate) = files_of(framed);
    part_in_words(book, certificate, refusal)
}

/// The part of a refusal from 9 on: the kind of line, j against the stop, and the
/// large side.
pub fn part_in_words(book: &[u8], certificate: &[u8], refusal: &Refusal) -> String {
    let (book, certificate) =
        parse_both(book, certificate).expect("a refusal from 9 on speaks of well-formed files");
    if refusal.w == 3 {
        return format!("closing part {}{}", refusal.b, second_if(refusal.number == 16));
    }
    match &certificate.lines[refusal.a as usize].proof {
        Proof::Descent { .. } => {
            let side = if refusal.number == 16 { ", first side" } else { "" };
            format!("descent part {}{side}", refusal.b)
        }
        Proof::Unfold { .. } => unfold_part(&book, &certificate, refusal),
    }
}

/// The book and the certificate in a whole frame.
fn files_of(framed: &[u8]) -> (&[u8], &[u8]) {
    let length = usize::from(framed[0]) << 8 | usize::from(framed[1]);
    framed[2..].split_at(length)
}

fn second_if(large: bool) -> &'static str {
    if large {
        ", second side"
    } else {
        ""
    }
}

fn unfold_part(book: &Book, certificate: &Certificate, refusal: &Refusal) -> String {
    let line = &certificate.lines[refusal.a as usize];
    let Proof::Unfold { rule, stop, filling, before, last } = &line.proof else {
        unreachable!("the caller found an unfold")
    };
    let uses: Vec<&Use> = before.iter().chain(last).collect();
    let part = refusal.b as usize;
    let calls = &book.rules[usize::from(*rule)].calls;
    let relation = match part {
        0 => "unfold part 0",
        15 => "unfold part 15",
        j if j < usize::from(*stop) => "unfold part j<i",
        j if j < calls.len() => "unfold part j=i<m",
        _ => "unfold part j=i=m",
    };
    let number = if part == 0 || part == 15 { String::new() } else { format!(" (j={part})") };
    let side = match (refusal.number, part) {
        (16, 0) => ", first side",
        (16, 15) if line.right.is_none() => ", second side, right empty",
        (16, 15) => ", second side",
        (16, j) => {
            let one = uses[j - 1];
            let left = &certificate.lines[usize::from(one.line)].left;
            let first = large(&calls[j - 1].filled(filling));
            match (first, large(&left.instance(one.i, one.j, &one.filling))) {
                (true, true) => ", both sides",
                (true, false) => ", first side",
                _ => ", second side",
            }
        }
        _ => "",
    };
    format!("{relation}{number}{side}")
}

fn large(term: &Term) -> bool {
    term.normal().nodes() > SIDE_NODES
}

/// Judges so many inputs and counts them.
pub fn tally(seed: u64, count: usize) -> Tally {
    let mut inputs = Inputs::new(seed);
    let mut tally = Tally::default();
    let mut work = vec![0; second::judging::WORK_NUMBERS];
    for _ in 0..count {
        let input = inputs.next_input();
        tally.count(&input, &judge_input(&input.framed, &mut work));
    }
    tally
}
