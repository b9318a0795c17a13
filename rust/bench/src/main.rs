//! Times the proved judge between the second one and the swift one, on the same inputs in
//! one run; and the proved `covers` beside the second one.
//!
//!     bench [SECONDS]          the tables; so many seconds for each input (3)
//!     bench once JUDGE NAME    judges one input once, for a profiler
//!     bench once clearing      clears a work table once, for a profiler
//!     bench ratios [--goals]   counts instructions by callgrind, proved beside swift;
//!                              with --goals a ratio beyond its goal is a failure (1)
//!
//! JUDGE is second, proved or, of a judgement, swift. All three are lent a work table of 8,192 numbers and
//! leave zeros in it. The swift judge's own memory is allocated before it is timed.
//!
//! Build it by the profile bench-release: that has no overflow checks and no debug
//! assertions, which the tests have.

mod calls;
mod nodes;
mod ratios;

use nodes::{nodes_built, nodes_read};
use std::hint::black_box;
use std::process::ExitCode;
use std::time::{Duration, Instant};
use swift::Judge;
use text::vectors::{parse_vectors, Vector};

const INPUTS: &str = include_str!("../inputs.txt");

fn main() -> ExitCode {
    let arguments: Vec<String> = std::env::args().skip(1).collect();
    let words: Vec<&str> = arguments.iter().map(String::as_str).collect();
    let vectors = inputs();
    match words[..] {
        [] => tables(&vectors, 3.0),
        ["ratios"] => return ratios::ratios(&vectors, false),
        ["ratios", "--goals"] => return ratios::ratios(&vectors, true),
        ["once", "clearing"] => ratios::clear(),
        [seconds] => match seconds.parse() {
            Ok(seconds) => tables(&vectors, seconds),
            Err(_) => return help(&vectors),
        },
        ["once", judge, name] => {
            let input = vectors.iter().find(|vector| vector.name == name);
            let judged = input.and_then(|input| answer_of(judge, input));
            match judged.or_else(|| calls::answer(judge, name)) {
                Some(answer) => println!("{answer}"),
                None => return help(&vectors),
            }
        }
        _ => return help(&vectors),
    }
    ExitCode::SUCCESS
}

fn inputs() -> Vec<Vector> {
    parse_vectors(INPUTS).expect("the inputs are what they say")
}

fn help(vectors: &[Vector]) -> ExitCode {
    let asked = calls::inputs();
    let all = vectors.iter().chain(&asked);
    let names: Vec<&str> = all.map(|vector| vector.name.as_str()).collect();
    let judges = JUDGES.join("|");
    eprintln!("bench [SECONDS]\nbench once {judges} NAME\nbench once clearing");
    eprintln!("bench ratios [--goals]\nNAME: {}", names.join(", "));
    ExitCode::from(2)
}

fn work() -> Vec<u64> {
    vec![0; gearcinder::WORK_NUMBERS]
}

const JUDGES: [&str; 3] = ["second", "proved", "swift"];

/// What the judge of this name answers, as the program's line.
fn answer_of(judge: &str, input: &Vector) -> Option<String> {
    let (book, certificate, work) = (input.first.bytes(), input.second.bytes(), &mut work());
    match judge {
        "second" => Some(second::verdict_line(&second_judgement(book, certificate, work))),
        "proved" => Some(gearcinder_judgement(book, certificate, work).to_string()),
        "swift" => Some(swift_judgement(&mut Judge::new(), book, certificate, work).to_string()),
        _ => None,
    }
}

// The judgements have names of their own, so that a profiler can count what happens
// in them alone.

#[inline(never)]
#[no_mangle]
fn gearcinder_judgement(book: &[u8], certificate: &[u8], work: &mut [u64]) -> gearcinder::Verdict {
    gearcinder::judge(book, certificate, work)
}

#[inline(never)]
#[no_mangle]
fn second_judgement(book: &[u8], certificate: &[u8], work: &mut [u64]) -> second::Verdict {
    second::judge(book, certificate, work)
}

#[inline(never)]
#[no_mangle]
fn swift_judgement(
    judge: &mut Judge,
    book: &[u8],
    certificate: &[u8],
    work: &mut [u64],
) -> swift::Verdict {
    judge.judge(book, certificate, work)
}

fn tables(vectors: &[Vector], seconds: f64) {
    table(vectors, seconds);
    println!();
    calls::table(seconds);
}

fn note_of_assertions() {
    if cfg!(debug_assertions) {
        println!("built with debug assertions: use --profile bench-release");
    }
}

fn table(vectors: &[Vector], seconds: f64) {
    note_of_assertions();
    println!(
        "| input | bytes | nodes read | nodes built | second, µs | proved, µs | swift, µs | \
         proved, nodes/s | proved, bytes/s | second : proved | proved : swift |"
    );
    println!("|---|---|---|---|---|---|---|---|---|---|---|");
    for input in vectors {
        row(input, seconds);
    }
    let mut work = work();
    let [clearing] = times(seconds / 3.0, [&mut || black_box(&mut work).fill(0)]);
    println!(
        "\nEach of these times has {:.1} µs in it for clearing the work table.",
        clearing * 1e6
    );
}

fn row(input: &Vector, seconds: f64) {
    let (book, certificate) = (input.first.bytes(), input.second.bytes());
    for judge in JUDGES {
        assert_eq!(answer_of(judge, input).as_ref(), Some(&input.answer), "{}", input.name);
    }
    let [second, proved, swift] = times_of(seconds, book, certificate);
    let bytes = book.len() + certificate.len();
    let read = nodes_read(book, certificate);
    let built = nodes_built(book, certificate);
    let rate = |count: usize| format!("{:.2e}", count as f64 / proved);
    println!(
        "| {} | {bytes} | {read} | {built} | {:.1} | {:.1} | {:.1} | {} | {} | {:.2} | {:.2} |",
        input.name,
        second * 1e6,
        proved * 1e6,
        swift * 1e6,
        rate(read + built),
        rate(bytes),
        second / proved,
        proved / swift
    );
}

/// The times of the three judges, in the order of `JUDGES`.
fn times_of(seconds: f64, book: &[u8], certificate: &[u8]) -> [f64; 3] {
    let mut works = [work(), work(), work()];
    let [one, two, three] = &mut works;
    let mut judge = Judge::new();
    let files = || (black_box(book), black_box(certificate));
    let mut by_second = || {
        let (book, certificate) = files();
        black_box(second_judgement(book, certificate, one));
    };
    let mut by_proved = || {
        let (book, certificate) = files();
        black_box(gearcinder_judgement(book, certificate, two));
    };
    let mut by_swift = || {
        let (book, certificate) = files();
        black_box(swift_judgement(&mut judge, book, certificate, three));
    };
    times(seconds, [&mut by_second, &mut by_proved, &mut by_swift])
}

/// The median time of a call of each, in seconds, all taking turns.
fn times<const N: usize>(seconds: f64, calls: [&mut dyn FnMut(); N]) -> [f64; N] {
    const TURNS: usize = 21;
    let share = Duration::from_secs_f64(seconds / (N * TURNS) as f64);
    let mut timed = calls.map(|call| (calls_in(share, call), call, Vec::new()));
    for _ in 0..TURNS {
        for (count, call, found) in &mut timed {
            found.push(time_of(*count, call));
        }
    }
    timed.map(|(_, _, mut found)| {
        found.sort_by(f64::total_cmp);
        found[TURNS / 2]
    })
}

/// How many calls fill the time; at least one.
fn calls_in(share: Duration, call: &mut dyn FnMut()) -> usize {
    let begun = Instant::now();
    let mut calls = 0;
    while calls == 0 || begun.elapsed() < share {
        call();
        calls += 1;
    }
    calls
}

fn time_of(calls: usize, call: &mut dyn FnMut()) -> f64 {
    let begun = Instant::now();
    (0..calls).for_each(|_| call());
    begun.elapsed().as_secs_f64() / calls as f64
}
