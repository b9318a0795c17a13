//! What the proved judge takes in instructions, relative to the swift one, and the goals
//! for that.
//!
//! Callgrind counts them: this program is run again under it, once for each judge and
//! input. Clearing the work table takes the same of both and is left out; it is counted,
//! too.

use crate::{note_of_assertions, work};
use std::hint::black_box;
use std::io::ErrorKind;
use std::process::{Command, ExitCode};
use text::vectors::Vector;

/// The most that the proved judge may take for each that the swift one takes.
const GOALS: [(&str, f64); 4] =
    [("small", 1.2), ("lines_255", 1.2), ("most_nodes", 0.8), ("refused_in_its_last_bit", 0.5)];

/// Prints the table. If the goals are `held`, a ratio beyond its goal is a failure.
pub fn ratios(vectors: &[Vector], held: bool) -> ExitCode {
    match table(vectors) {
        Ok(beyond) if beyond.is_empty() => ExitCode::SUCCESS,
        Ok(beyond) => {
            println!("Beyond their goals: {}.", beyond.join(", "));
            if held {
                ExitCode::FAILURE
            } else {
                ExitCode::SUCCESS
            }
        }
        Err(fault) => {
            eprintln!("bench ratios: {fault}");
            ExitCode::from(2)
        }
    }
}

/// The names of the inputs whose ratios are beyond their goals.
fn table(vectors: &[Vector]) -> Result<Vec<&'static str>, String> {
    let (_, clearing) = counted("work_clearing", &["once", "clearing"])?;
    note_of_assertions();
    println!("| input | proved | swift | proved : swift | goal |");
    println!("|---|---|---|---|---|");
    let mut beyond = Vec::new();
    for (name, goal) in GOALS {
        let input = vectors.iter().find(|input| input.name == name).expect("it is an input");
        let of = |judge, function| {
            judged(judge, function, input)?.checked_sub(clearing).ok_or(format!(
                "{judge}, {name}: fewer than the {clearing} instructions of the clearing"
            ))
        };
        let proved = of("proved", "gearcinder_judgement")?;
        let swift = of("swift", "swift_judgement")?;
        let ratio = proved as f64 / swift as f64;
        println!("| {name} | {proved} | {swift} | {ratio:.2} | {goal:.1} |");
        if ratio > goal {
            beyond.push(name);
        }
    }
    println!("\nEach count is less the {clearing} for clearing the work table.");
    Ok(beyond)
}

/// The instructions of one judgement, which must be right.
fn judged(judge: &str, function: &str, input: &Vector) -> Result<u64, String> {
    let (answer, count) = counted(function, &["once", judge, &input.name])?;
    match answer.trim_end() == input.answer {
        true => Ok(count),
        false => Err(format!("{judge}, {}: {answer}instead of {}", input.name, input.answer)),
    }
}

/// Runs this program: what it prints, and the instructions in this function.
fn counted(function: &str, arguments: &[&str]) -> Result<(String, u64), String> {
    let program = std::env::current_exe().map_err(|error| format!("this program: {error}"))?;
    let run = Command::new("valgrind")
        .args(["--tool=callgrind", "--callgrind-out-file=/dev/null"])
        .arg(format!("--toggle-collect={function}"))
        .arg(program)
        .args(arguments)
        .output();
    let output = run.map_err(|error| match error.kind() {
        ErrorKind::NotFound => {
            "instructions are counted by valgrind, and there is none".to_string()
        }
        _ => format!("valgrind: {error}"),
    })?;
    let told = String::from_utf8_lossy(&output.stderr);
    match collected(&told) {
        Some(count) if output.status.success() && count > 0 => {
            Ok((String::from_utf8_lossy(&output.stdout).into_owned(), count))
        }
        _ => Err(format!("no count of {function} for {arguments:?}; valgrind says:\n{told}")),
    }
}

/// The number in callgrind's line `==PID== Collected : NUMBER`.
fn collected(told: &str) -> Option<u64> {
    told.lines().find_map(|line| line.split_once(" Collected : ")?.1.trim().parse().ok())
}

/// Clears a work table, as judging does.
pub fn clear() {
    work_clearing(&mut work());
}

// A name of its own, for a profiler.
#[inline(never)]
#[no_mangle]
fn work_clearing(work: &mut [u64]) {
    black_box(work).fill(0);
}

#[cfg(test)]
mod tests {
    use super::*;

    #[test]
    fn each_goal_has_its_input() {
        let vectors = crate::inputs();
        for (name, _) in GOALS {
            assert!(vectors.iter().any(|input| input.name == name), "{name}");
        }
    }

    #[test]
    fn a_count_is_found_in_what_callgrind_says() {
        let told = "==7== Events    : Ir\n==7== Collected : 80221\n==7== \n";
        assert_eq!(collected(told), Some(80_221));
        assert_eq!(collected("==7== Events    : Ir\n"), None);
    }
}
