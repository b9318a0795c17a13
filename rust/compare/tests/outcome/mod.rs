//! A vector, run on the proved side.

use compare::proved::{Proved, Side};
use text::vectors::{
    in_words, sum, Operation, Outcome, Vector, FRESH_BYTE, FRESH_FIELD, FRESH_WORK,
};

/// What the proved side makes of a vector; it has no operation for a whole input.
pub fn outcome(vector: &Vector) -> Option<Outcome> {
    let (first, second, third) = (&vector.first, &vector.second, &vector.third);
    let mut work = vec![FRESH_WORK; vector.lent];
    let mut list = vec![FRESH_FIELD; vector.lent];
    let mut bytes = vec![FRESH_BYTE; vector.lent];
    let (answer, left) = match vector.operation {
        Operation::Input => return None,
        Operation::Judge => {
            let verdict = Proved.judge(first.bytes(), second.bytes(), &mut work);
            (second::verdict_line(&verdict), sum(work))
        }
        Operation::Covers => {
            let coverage = Proved.covers(first.bytes(), second.bytes(), third.bytes(), &mut work);
            (second::coverage_line(&coverage), sum(work))
        }
        Operation::ReadBook => (in_words(Proved.read_book(first.bytes(), &mut list)), sum(list)),
        Operation::ReadCertificate => {
            let answer = Proved.read_certificate(first.bytes(), second.bytes(), &mut list);
            (in_words(answer), sum(list))
        }
        Operation::WriteBook => (in_words(Proved.write_book(first.list(), &mut bytes)), sum(bytes)),
        Operation::WriteCertificate => {
            let answer = Proved.write_certificate(first.bytes(), second.list(), &mut bytes);
            (in_words(answer), sum(bytes))
        }
    };
    Some(Outcome { answer, left })
}
