//! The vectors of data/ and the inputs of the benchmark: among them the cases 6 to 12 of
//! the document's table.

use std::path::Path;
use swift::Judge;
use text::vectors::{parse_vectors, sum, Operation, Vector, FRESH_WORK};

/// The answer, and the sum of what is left in the work table; nothing if the vector is no
/// judgement.
fn outcome(judge: &mut Judge, vector: &Vector) -> Option<(String, u64)> {
    let mut work = vec![FRESH_WORK; vector.lent];
    let verdict = match vector.operation {
        Operation::Judge => judge.judge(vector.first.bytes(), vector.second.bytes(), &mut work),
        Operation::Input => judge.judge_input(vector.first.bytes(), &mut work),
        _ => return None,
    };
    Some((verdict.to_string(), sum(work)))
}

/// How many of the file's vectors are judgements; each has its answer.
fn judgements(judge: &mut Judge, text: &str) -> usize {
    let vectors = parse_vectors(text).unwrap();
    let judged = vectors.iter().filter_map(|vector| Some((vector, outcome(judge, vector)?)));
    judged
        .map(|(vector, (answer, left))| {
            assert_eq!(answer, vector.answer, "{}", vector.name);
            assert_eq!(left, vector.outcome().left, "{}", vector.name);
        })
        .count()
}

#[test]
fn every_judgement_gets_its_answer() {
    let mut judge = Judge::new();
    let data = Path::new(env!("CARGO_MANIFEST_DIR")).join("../../data");
    let mut count = judgements(&mut judge, include_str!("../../bench/inputs.txt"));
    for file in std::fs::read_dir(data).unwrap() {
        count += judgements(&mut judge, &std::fs::read_to_string(file.unwrap().path()).unwrap());
    }
    assert!(count > 150, "{count}");
}
