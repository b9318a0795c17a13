//! The swift judge answers what the second one does, and leaves the same in the work
//! table.

use generate::inputs::{Inputs, Kind};
use second::verdict_line;
use std::collections::BTreeMap;
use swift::{Judge, WORK_NUMBERS};
use text::vectors::{parse_vectors, Vector};

const BENCH: &str = include_str!("../../bench/inputs.txt");
const TABLE: &str = include_str!("../../../data/table.txt");

/// Two files by both judges, over a work table that is not empty. The answer is the line
/// of both.
fn judged(judge: &mut Judge, book: &[u8], certificate: &[u8]) -> String {
    let mut works = [[7; WORK_NUMBERS]; 2];
    let [one, other] = &mut works;
    let expected = verdict_line(&second::judge(book, certificate, one));
    let found = judge.judge(book, certificate, other).to_string();
    assert_eq!(found, expected, "book {book:02x?}\ncertificate {certificate:02x?}");
    assert_eq!(works[0], works[1], "book {book:02x?}\ncertificate {certificate:02x?}");
    found
}

/// One judge for all inputs, so that nothing left by one may matter to the next.
#[test]
fn generated_inputs_get_the_same_verdict() {
    let mut judge = Judge::new();
    let mut met = BTreeMap::<String, usize>::new();
    for seed in 100..120 {
        let mut inputs = Inputs::new(seed);
        for _ in 0..400 {
            let input = inputs.next_input();
            let line = judged(&mut judge, &input.book, &input.certificate);
            let number = line.split(' ').take(2).collect::<Vec<&str>>().join(" ");
            let known = if line.starts_with("accept") { "accept".to_string() } else { number };
            *met.entry(known).or_default() += 1;
        }
    }
    // 1 needs a short table, and 8 is never given by judging.
    let numbers = (2..=7).chain(9..=16).map(|number| format!("refuse {number}"));
    for wanted in numbers.chain(["accept".to_string()]) {
        assert!(met.get(&wanted).is_some_and(|count| *count >= 10), "{wanted}: {met:?}");
    }
}

#[test]
fn whole_inputs_get_the_same_verdict() {
    let (mut judge, mut inputs) = (Judge::new(), Inputs::new(99));
    let mut work = vec![0; WORK_NUMBERS];
    let mut frames = 0;
    for _ in 0..2_000 {
        let input = inputs.next_input();
        frames += usize::from(input.kind == Kind::Frame);
        let expected = verdict_line(&second::judge_input(&input.framed, &mut work));
        let found = judge.judge_input(&input.framed, &mut work).to_string();
        assert_eq!(found, expected, "{:02x?}", input.framed);
    }
    assert!(frames > 20, "{frames}");
}

/// Each bit of the files flipped, and both cut at each byte.
#[test]
fn files_with_one_fault_get_the_same_verdict() {
    let mut judge = Judge::new();
    let mut count = 0;
    for vector in parse_vectors(TABLE).unwrap().iter().chain(&parse_vectors(BENCH).unwrap()[..1]) {
        let Vector { first, second, .. } = vector;
        let (book, certificate) = (first.bytes(), second.bytes());
        for place in 0..8 * book.len() {
            judged(&mut judge, &flipped(book, place), certificate);
        }
        for place in 0..8 * certificate.len() {
            judged(&mut judge, book, &flipped(certificate, place));
        }
        for length in 0..book.len() {
            judged(&mut judge, &book[..length], certificate);
        }
        for length in 0..certificate.len() {
            judged(&mut judge, book, &certificate[..length]);
        }
        count += 1;
    }
    assert!(count > 10, "{count}");
}

fn flipped(bytes: &[u8], place: usize) -> Vec<u8> {
    let mut bytes = bytes.to_vec();
    bytes[place / 8] ^= 0x80 >> (place % 8);
    bytes
}

#[test]
fn a_short_work_table_is_not_touched() {
    let mut judge = Judge::new();
    for length in [0, 1, WORK_NUMBERS - 1, WORK_NUMBERS, WORK_NUMBERS + 9] {
        let mut works = [vec![7; length], vec![7; length]];
        let [one, other] = &mut works;
        let expected = verdict_line(&second::judge(&[0, 0], &[0, 0], one));
        assert_eq!(judge.judge(&[0, 0], &[0, 0], other).to_string(), expected);
        let expected = verdict_line(&second::judge_input(&[0], one));
        assert_eq!(judge.judge_input(&[0], other).to_string(), expected);
        assert_eq!(works[0], works[1]);
    }
}
