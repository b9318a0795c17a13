//! The comparison as a program. It prints how many inputs met each refusal number,
//! place and part, each way in which two sides part or are equal, and each edge of reading,
//! and closes with 'N passed, 0 failed': one for each kind of run, and one if each of these
//! was met. It fails at the first difference.

use compare::answers::{answers_in_numbers, coverage_in_numbers};
use compare::calls::ask_both;
use compare::coverage::{
    wanted_of_calls, wanted_of_edges, wanted_of_files, wanted_of_judging, wanted_of_the_program,
    Coverage,
};
use compare::edges::at_an_edge;
use compare::files::perform_both;
use compare::follow::Followed;
use compare::judging::{files_of, judge_by_three};
use compare::program::{run_both, Feeding};
use compare::proved::Proved;
use compare::swiftly::Swift;
use compare::Compared;
use generate::calls::Calls;
use generate::edges::Edges;
use generate::inputs::{Inputs, Kind};
use generate::random::Random;
use generate::writing::Tasks;
use second::judging::INPUT_BYTES;
use second::Verdict;
use std::path::{Path, PathBuf};
use std::process::ExitCode;

const HELP: &str =
    "compare [--seed N] [--inputs N] [--tasks N] [--calls N] [--edges N] [--program JUDGE [--runs N]]
    --seed      where the generator begins (1)
    --inputs    books with certificates to be judged (20000)
    --tasks     files to be read and lists to be written (8000)
    --calls     calls that are asked for (8000)
    --edges     batches of pairs at the edges of reading (300)
    --program   the program `judge`, to be run as well
    --runs      inputs for the program (1500)";

/// How much a pipe holds.
const PIPE_BYTES: usize = 65_536;

struct Options {
    seed: u64,
    inputs: usize,
    tasks: usize,
    calls: usize,
    edges: usize,
    program: Option<PathBuf>,
    runs: usize,
}

fn options() -> Option<Options> {
    let mut options = Options {
        seed: 1,
        inputs: 20_000,
        tasks: 8_000,
        calls: 8_000,
        edges: 300,
        program: None,
        runs: 1_500,
    };
    let mut words = std::env::args().skip(1);
    while let Some(word) = words.next() {
        let value = words.next()?;
        match word.as_str() {
            "--seed" => options.seed = value.parse().ok()?,
            "--inputs" => options.inputs = value.parse().ok()?,
            "--tasks" => options.tasks = value.parse().ok()?,
            "--calls" => options.calls = value.parse().ok()?,
            "--edges" => options.edges = value.parse().ok()?,
            "--program" => options.program = Some(PathBuf::from(value)),
            "--runs" => options.runs = value.parse().ok()?,
            _ => return None,
        }
    }
    Some(options)
}

fn main() -> ExitCode {
    let Some(options) = options() else {
        eprintln!("{HELP}");
        return ExitCode::from(2);
    };
    match compared(&options) {
        Ok(passed) => {
            println!("{passed} passed, 0 failed");
            ExitCode::SUCCESS
        }
        Err(fault) => {
            println!("compare: {fault}");
            ExitCode::FAILURE
        }
    }
}

/// How many kinds of runs passed, and the test of what they met.
fn compared(options: &Options) -> Compared<usize> {
    let mut coverage = Coverage::default();
    let mut wanted =
        [wanted_of_judging(), wanted_of_files(), wanted_of_calls(), wanted_of_edges()].concat();
    let mut passed = 4;
    let followed = judgings(options, &mut coverage)?;
    readings_and_writings(options, &mut coverage)?;
    calls(options, &mut coverage)?;
    edges(options, &mut coverage)?;
    if let Some(program) = &options.program {
        runs(program, options, &mut coverage)?;
        runs_in_pieces(program, options, &mut coverage)?;
        wanted.extend(wanted_of_the_program());
        passed += 2;
    }
    let missing = coverage.report(&wanted);
    let Followed { derivations, steps, rounds, too_large } = followed;
    println!(
        "followed: {derivations} derivations of accepted certificates, {steps} steps, \
         {rounds} rounds; {too_large} too large to begin"
    );
    match missing.is_empty() {
        true => Ok(passed + 1),
        false => Err(format!("never met: {}", missing.join("; "))),
    }
}

/// The proved judge and the swift one beside the second.
fn judgings(options: &Options, coverage: &mut Coverage) -> Compared<Followed> {
    let mut inputs = Inputs::new(options.seed);
    let mut random = Random::new(!options.seed);
    let mut followed = Followed::default();
    let mut swift = Swift::default();
    for number in 0..options.inputs {
        let input = inputs.next_input();
        let (book, certificate) = files_of(&input);
        let one = judge_by_three(&mut swift, book, certificate, &mut random).and_then(|verdict| {
            coverage.judged(book, certificate, &verdict);
            if let Verdict::Accepted { .. } = verdict {
                followed.follow(book, certificate, &mut random)?;
            }
            match number % 100 {
                0 => answers_in_numbers(book, certificate, &mut random),
                _ => Ok(()),
            }
        });
        one.map_err(|fault| numbered("input", number, options.seed, &fault))?;
    }
    Ok(followed)
}

fn readings_and_writings(options: &Options, coverage: &mut Coverage) -> Compared<()> {
    let mut tasks = Tasks::new(options.seed);
    let mut random = Random::new(!options.seed);
    for number in 0..options.tasks {
        let task = tasks.next_task();
        let answer = perform_both(&Proved, &task, &mut random)
            .map_err(|fault| numbered("task", number, options.seed, &fault))?;
        coverage.performed(&task, &answer);
    }
    Ok(())
}

/// Calls that are, nearly are or are not in an accepted family.
fn calls(options: &Options, coverage: &mut Coverage) -> Compared<()> {
    let mut calls = Calls::new(options.seed);
    let mut random = Random::new(!options.seed);
    for number in 0..options.calls {
        let asking = calls.next_call();
        let one = ask_both(&Proved, &asking, &mut random).and_then(|answer| {
            coverage.asked(&asking, &answer);
            match number % 100 {
                0 => coverage_in_numbers(&asking, &mut random),
                _ => Ok(()),
            }
        });
        one.map_err(|fault| numbered("call", number, options.seed, &fault))?;
    }
    Ok(())
}

/// Pairs at the edges of reading: judged, and both files read.
fn edges(options: &Options, coverage: &mut Coverage) -> Compared<()> {
    let mut edges = Edges::new(options.seed);
    let mut random = Random::new(!options.seed);
    let mut swift = Swift::default();
    for number in 0..options.edges {
        for edged in edges.next_batch() {
            let one = at_an_edge(&edged, &mut swift, &mut random);
            let verdict = one.map_err(|fault| numbered("batch", number, options.seed, &fault))?;
            coverage.edged(&edged, &verdict);
        }
    }
    Ok(())
}

/// Runs the program on every input of a damaged frame and on some of the others.
fn runs(program: &Path, options: &Options, coverage: &mut Coverage) -> Compared<()> {
    let mut inputs = Inputs::new(options.seed);
    for number in 0..options.runs {
        let mut input = inputs.next_input();
        if number % 50 == 0 {
            input.framed.resize(INPUT_BYTES + number / 50 % 3, 0);
        } else if number % 10 == 0 && input.kind == Kind::Frame {
            input.framed.truncate(number / 10 % 3);
        }
        let verdict = run_both(program, &input.framed, Feeding::Whole)
            .map_err(|fault| numbered("run", number, options.seed, &fault))?;
        coverage.run("program", &verdict);
    }
    Ok(())
}

/// Runs the program on inputs of which each read gets a piece: short ones byte by byte,
/// and the longest, with some that are too long, for the program and for a pipe.
fn runs_in_pieces(program: &Path, options: &Options, coverage: &mut Coverage) -> Compared<()> {
    let mut inputs = Inputs::new(options.seed);
    let lengths = [0, 1, INPUT_BYTES - 1, INPUT_BYTES, INPUT_BYTES + 1, PIPE_BYTES, PIPE_BYTES + 1];
    for number in 0..options.runs / 10 {
        let mut framed = inputs.next_input().framed;
        if let Some(length) = lengths.get(number) {
            framed.resize(*length, 0);
        }
        let size = [1, 2, 3, 64, 500][number % 5].max(framed.len() / 500);
        let verdict = run_both(program, &framed, Feeding::Pieces(size))
            .map_err(|fault| numbered("run in pieces", number, options.seed, &fault))?;
        coverage.run("program, in pieces", &verdict);
    }
    Ok(())
}

fn numbered(what: &str, number: usize, seed: u64, fault: &str) -> String {
    format!("{what} {number} of seed {seed}\n{fault}")
}
