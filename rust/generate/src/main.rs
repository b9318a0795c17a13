//! Prints counts or the inputs themselves with the second judge's answers.

use generate::asked::tally_of_calls;
use generate::hex::{hex, wide};
use generate::inputs::Inputs;
use generate::tally::tally;
use generate::writing::{Outcome, Task, Tasks};
use second::{judge_input, verdict_line, Answer, Refusal, Verdict};
use std::io::{BufWriter, Write};
use std::path::Path;

const HELP: &str = "generate count SEED COUNT       counts by refusal number and part
generate lines SEED COUNT       one input per line: hex, a tab, the expected line
generate files SEED COUNT DIR   DIR/NUMBER.in and DIR/NUMBER.expected
generate tasks SEED COUNT       reader and writer tasks, one per line
generate calls SEED COUNT       counts of calls by answer and by how they were made";

fn main() -> std::io::Result<()> {
    let arguments: Vec<String> = std::env::args().skip(1).collect();
    let words: Vec<&str> = arguments.iter().map(String::as_str).collect();
    let number = |word: &str| word.parse::<u64>().ok();
    match words[..] {
        [command, seed, count, ref rest @ ..] => match (number(seed), number(count)) {
            (Some(seed), Some(count)) => run(command, seed, count as usize, rest),
            _ => help(),
        },
        _ => help(),
    }
}

fn help() -> std::io::Result<()> {
    eprintln!("{HELP}");
    std::process::exit(2)
}

fn run(command: &str, seed: u64, count: usize, rest: &[&str]) -> std::io::Result<()> {
    match (command, rest) {
        ("count", []) => {
            tally(seed, count).print();
            Ok(())
        }
        ("calls", []) => {
            for (label, count) in tally_of_calls(seed, count) {
                println!("{count:8}  {label}");
            }
            Ok(())
        }
        ("lines", []) => lines(seed, count),
        ("tasks", []) => tasks(seed, count),
        ("files", [directory]) => files(seed, count, Path::new(directory)),
        _ => help(),
    }
}

/// Each framed input with the expected line, without its newline.
fn judged(seed: u64, count: usize) -> impl Iterator<Item = (Vec<u8>, String)> {
    let mut inputs = Inputs::new(seed);
    let mut work = vec![0; second::judging::WORK_NUMBERS];
    (0..count).map(move |_| {
        let framed = inputs.next_input().framed;
        let line = verdict_line(&judge_input(&framed, &mut work));
        (framed, line)
    })
}

fn lines(seed: u64, count: usize) -> std::io::Result<()> {
    let mut out = BufWriter::new(std::io::stdout().lock());
    for (input, line) in judged(seed, count) {
        writeln!(out, "{}\t{line}", hex(&input))?;
    }
    out.flush()
}

fn files(seed: u64, count: usize, directory: &Path) -> std::io::Result<()> {
    std::fs::create_dir_all(directory)?;
    for (number, (input, line)) in judged(seed, count).enumerate() {
        std::fs::write(directory.join(format!("{number}.in")), input)?;
        std::fs::write(directory.join(format!("{number}.expected")), line + "\n")?;
    }
    Ok(())
}

/// The operation, its arguments and the room in hex and decimal, a tab, then
/// `filled` with the whole output in hex, or the refusal.
fn tasks(seed: u64, count: usize) -> std::io::Result<()> {
    let mut out = BufWriter::new(std::io::stdout().lock());
    let mut tasks = Tasks::new(seed);
    for _ in 0..count {
        let task = tasks.next_task();
        writeln!(out, "{}\t{}", spelled(&task), outcome(&task.perform()))?;
    }
    out.flush()
}

fn spelled(task: &Task) -> String {
    match task {
        Task::ReadBook { book, room } => format!("read-book {} {room}", hex(book)),
        Task::ReadCertificate { book, certificate, room } => {
            format!("read-certificate {} {} {room}", hex(book), hex(certificate))
        }
        Task::WriteBook { fields, room } => format!("write-book {} {room}", hex(&wide(fields))),
        Task::WriteCertificate { book, fields, room } => {
            format!("write-certificate {} {} {room}", hex(book), hex(&wide(fields)))
        }
    }
}

fn outcome(outcome: &Outcome) -> String {
    let (answer, out) = match outcome {
        Outcome::List(answer, out) => (answer, wide(out)),
        Outcome::Bytes(answer, out) => (answer, out.clone()),
    };
    match answer {
        Answer::Filled(count) => format!("filled {count} {}", hex(&out)),
        Answer::Refused(refusal) => refusal_line(refusal),
    }
}

fn refusal_line(refusal: &Refusal) -> String {
    verdict_line(&Verdict::Refused(*refusal))
}
