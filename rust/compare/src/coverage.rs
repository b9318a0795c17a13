//! What the inputs met, and what they have to meet.

use crate::files::name_of;
use generate::asked::{labels, wanted};
use generate::calls::Asking;
use generate::edged;
use generate::edges::Edged;
use generate::parted;
use generate::tally::part_in_words;
use generate::writing::Task;
use second::{Answer, Refusal, Verdict};
use std::collections::BTreeMap;

const PLACES: [&str; 5] = ["book", "certificate", "line", "closing", "neither"];

/// Counts by operation, answer, place and part.
#[derive(Default)]
pub struct Coverage {
    pub met: BTreeMap<String, usize>,
}

impl Coverage {
    fn count(&mut self, label: String) {
        *self.met.entry(label).or_default() += 1;
    }

    pub fn judged(&mut self, book: &[u8], certificate: &[u8], verdict: &Verdict) {
        for label in parted::labels(book, certificate, verdict) {
            self.count(format!("judge: {label}"));
        }
        match verdict {
            Verdict::Accepted { .. } => self.count("judge: accepted".to_string()),
            Verdict::Refused(refusal) if refusal.number < 9 => {
                self.count(without_part("judge", refusal));
            }
            Verdict::Refused(refusal) => {
                let words = part_in_words(book, certificate, refusal);
                let (part, side) = words.split_once(", ").unwrap_or((&words, ""));
                let place = PLACES[usize::from(refusal.w)];
                self.count(format!("judge: {:2} {place}, {part}", refusal.number));
                if !side.is_empty() {
                    self.count(format!("judge: 16, {side}"));
                }
            }
        }
    }

    pub fn performed(&mut self, task: &Task, answer: &Answer) {
        match answer {
            Answer::Filled(_) => self.count(format!("{}: filled", name_of(task))),
            Answer::Refused(refusal) => self.count(without_part(name_of(task), refusal)),
        }
    }

    pub fn asked(&mut self, asking: &Asking, coverage: &second::Coverage) {
        for label in labels(asking, coverage) {
            self.count(format!("covers: {label}"));
        }
    }

    pub fn edged(&mut self, edged: &Edged, verdict: &Verdict) {
        for label in edged::labels(edged, verdict) {
            self.count(format!("edge: {label}"));
        }
    }

    pub fn run(&mut self, program: &str, verdict: &Verdict) {
        match verdict {
            Verdict::Accepted { .. } => self.count(format!("{program}: accepted")),
            Verdict::Refused(refusal) if refusal.number < 9 => {
                self.count(without_part(program, refusal));
            }
            Verdict::Refused(refusal) => self.count(format!("{program}: {:2}", refusal.number)),
        }
    }

    /// Prints every count, and answers which of the wanted were not met.
    pub fn report(&self, wanted: &[String]) -> Vec<String> {
        for (label, count) in &self.met {
            println!("{count:8}  {label}");
        }
        let missing: Vec<String> =
            wanted.iter().filter(|label| !self.met.contains_key(*label)).cloned().collect();
        for label in &missing {
            println!("{:8}  {label}", 0);
        }
        missing
    }
}

fn without_part(operation: &str, refusal: &Refusal) -> String {
    format!("{operation}: {:2} {}", refusal.number, PLACES[usize::from(refusal.w)])
}

/// Every refusal number, place and part that judging can give, and how sides can part or
/// be equal.
pub fn wanted_of_judging() -> Vec<String> {
    let mut wanted = vec!["accepted".to_string(), " 1 neither".to_string()];
    for number in 2..=7 {
        wanted.push(format!("{number:2} book"));
        wanted.push(format!("{number:2} certificate"));
    }
    let parts = |number: u8, place: &str, parts: &[&str]| -> Vec<String> {
        parts.iter().map(|part| format!("{number:2} {place}, {part}")).collect()
    };
    wanted.extend(parts(9, "line", &["unfold part 0", "descent part 0", "descent part 2"]));
    wanted.extend(parts(10, "line", &["descent part 3"]));
    wanted.extend(parts(12, "line", &["unfold part 15", "descent part 1"]));
    wanted.extend(parts(13, "line", &["descent part 4"]));
    wanted.extend(parts(14, "closing", &["closing part 0"]));
    wanted.extend(parts(15, "closing", &["closing part 1"]));
    wanted.extend(parts(16, "line", &["unfold part 0", "unfold part 15"]));
    let descents = ["descent part 0", "descent part 1", "descent part 2", "descent part 3"];
    wanted.extend(parts(16, "line", &descents));
    wanted.extend(parts(16, "closing", &["closing part 1"]));
    for number in [10, 11, 16] {
        for j in 1..=8 {
            if j < 8 {
                wanted.push(format!("{number:2} line, unfold part j<i (j={j})"));
                wanted.push(format!("{number:2} line, unfold part j=i<m (j={j})"));
            }
            if number != 11 {
                wanted.push(format!("{number:2} line, unfold part j=i=m (j={j})"));
            }
        }
    }
    for side in ["first side", "second side", "both sides", "second side, right empty"] {
        wanted.push(format!("16, {side}"));
    }
    wanted.extend(parted::wanted());
    wanted.into_iter().map(|label| format!("judge: {label}")).collect()
}

/// What calls have to meet, and a short work table.
pub fn wanted_of_calls() -> Vec<String> {
    let own = wanted().into_iter().chain([" 1 neither".to_string()]);
    own.map(|label| format!("covers: {label}")).collect()
}

/// What pairs at the edges of reading have to meet.
pub fn wanted_of_edges() -> Vec<String> {
    edged::wanted().into_iter().map(|label| format!("edge: {label}")).collect()
}

/// Every refusal number and place that reading and writing can give.
pub fn wanted_of_files() -> Vec<String> {
    let mut wanted = Vec::new();
    for (operation, certificate) in [
        ("read-book", false),
        ("read-certificate", true),
        ("write-book", false),
        ("write-certificate", true),
    ] {
        wanted.push(format!("{operation}: filled"));
        for number in 2..=8 {
            if number < 8 || !certificate {
                wanted.push(format!("{operation}: {number:2} book"));
            }
            if certificate {
                wanted.push(format!("{operation}: {number:2} certificate"));
            }
        }
    }
    wanted
}

/// The refusals that only the program gives, and a few others, however it is fed.
pub fn wanted_of_the_program() -> Vec<String> {
    let labels = ["accepted", " 2 neither", " 3 neither", " 3 certificate", " 9", "16"];
    let of = |program: &str| labels.map(|label| format!("{program}: {label}"));
    [of("program"), of("program, in pieces")].concat()
}
