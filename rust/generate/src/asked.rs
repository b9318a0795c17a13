//! What calls met: the answer, the place, and how the call was made.

use crate::calls::{Asking, Calls, Made};
use crate::family::count_variables;
use second::covering::{is_call_at, LAST_INDEX};
use second::files::{parse_both, parse_call};
use second::judging::WORK_NUMBERS;
use second::{covers, Coverage, Refusal, Term};
use std::collections::BTreeMap;

const PLACES: [&str; 6] = ["book", "certificate", "line", "closing", "neither", "call"];

/// All labels of one answer.
pub fn labels(asking: &Asking, coverage: &Coverage) -> Vec<String> {
    match coverage {
        Coverage::Covered { index } => {
            let mut labels = covered(asking, *index);
            labels.push(format!("covered, made as {:?}", asking.made));
            labels
        }
        Coverage::Refused(Refusal { number: 17, .. }) => {
            vec![format!("17, made as {:?}", asking.made)]
        }
        Coverage::Refused(refusal) => {
            vec![format!("{:2} {}", refusal.number, PLACES[usize::from(refusal.w)])]
        }
    }
}

/// What is worth knowing of a call that is covered.
fn covered(asking: &Asking, index: u64) -> Vec<String> {
    let (book, certificate) =
        parse_both(&asking.book, &asking.certificate).expect("the certificate is accepted");
    let call = parse_call(&book, &asking.call).expect("the call is a term");
    let closing = &certificate.closing;
    let pattern = &certificate.lines[usize::from(closing.line)].left;
    let mut counts = BTreeMap::new();
    count_variables(pattern, &mut counts);
    let steady = pattern.is_constant_in_the_index();
    let at_0 = pattern.reindexed(0, 0);
    let labels = [
        ("without an index, alpha 0", steady && index == 0),
        ("without an index, alpha above 0", steady && index > 0),
        ("at alpha", !steady && index == closing.alpha),
        ("later than alpha", index > closing.alpha),
        ("at 0, where powers vanish", index == 0 && at_0.normal() != at_0),
        ("at 4095", !steady && index == LAST_INDEX),
        (
            "before alpha too",
            !steady && (0..closing.alpha.min(20)).any(|n| is_call_at(pattern, n, &call)),
        ),
        ("at a power", matches!(pattern, Term::Pow { .. })),
        ("a variable in several places", counts.values().any(|count| *count > 1)),
        ("256 nodes", call.nodes() == 256),
    ];
    let met = labels.into_iter().filter(|(_, met)| *met);
    met.map(|(label, _)| format!("covered: {label}")).collect()
}

/// What calls have to meet.
pub fn wanted() -> Vec<String> {
    let mut wanted: Vec<String> = [
        "without an index, alpha 0",
        "without an index, alpha above 0",
        "at alpha",
        "later than alpha",
        "at 0, where powers vanish",
        "at 4095",
        "before alpha too",
        "at a power",
        "a variable in several places",
        "256 nodes",
    ]
    .map(|label| format!("covered: {label}"))
    .to_vec();
    let all = [Made::Within, Made::Joining, Made::Full, Made::Below, Made::Nudged];
    wanted.extend(all.map(|made| format!("covered, made as {made:?}")));
    let none = [
        Made::ExponentOff,
        Made::SymbolOff,
        Made::VariableOff,
        Made::Below,
        Made::Nudged,
        Made::Random,
        Made::Fields,
        Made::Bits,
    ];
    wanted.extend(none.map(|made| format!("17, made as {made:?}")));
    wanted.extend((3..=7).map(|number| format!("{number:2} call")));
    let judged = [
        " 3 book",
        " 4 book",
        " 3 certificate",
        " 4 certificate",
        " 9 line",
        "10 line",
        "11 line",
        "12 line",
        "16 line",
        "14 closing",
        "15 closing",
    ];
    wanted.extend(judged.map(str::to_string));
    wanted
}

/// Asks so many, by the second implementation, and counts what is met.
pub fn tally_of_calls(seed: u64, count: usize) -> BTreeMap<String, usize> {
    let mut calls = Calls::new(seed);
    let mut met = BTreeMap::new();
    let mut work = vec![0; WORK_NUMBERS];
    for _ in 0..count {
        let asking = calls.next_call();
        let coverage = covers(&asking.book, &asking.certificate, &asking.call, &mut work);
        for label in labels(&asking, &coverage) {
            *met.entry(label).or_default() += 1;
        }
    }
    met
}
