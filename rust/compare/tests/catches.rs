//! The comparison notices wrong sides and wrong programs.

use compare::calls::ask_both;
use compare::files::perform_both;
use compare::judging::{judge_all, judge_both, Judging};
use compare::program::{run_both, Feeding};
use compare::proved::{Proved, Side};
use compare::swiftly::Swift;
use generate::calls::{Asking, Made};
use generate::random::Random;
use generate::writing::Task;
use second::{Answer, Coverage, Verdict};

const BOOK: [u8; 6] = [0x01, 0x00, 0x11, 0x40, 0x10, 0x00];
const CERTIFICATE: [u8; 12] = [0x01, 0x20, 0x14, 0, 0, 0x40, 0, 0, 0, 0, 0, 0];

/// The proved side with one thing wrong.
enum Wrong {
    Alpha,
    Index,
    WorkLeft,
    WorkTouched,
    OutputTouched,
}

impl Side for Wrong {
    fn judge(&self, book: &[u8], certificate: &[u8], work: &mut [u64]) -> Verdict {
        let verdict = Proved.judge(book, certificate, work);
        match (self, verdict, work.last_mut()) {
            (Wrong::Alpha, Verdict::Accepted { line, k, .. }, _) => {
                return Verdict::Accepted { line, k, alpha: 1 }
            }
            (Wrong::WorkLeft, Verdict::Accepted { .. }, Some(last)) => *last = 1,
            (Wrong::WorkTouched, Verdict::Refused(_), Some(last)) => *last ^= 1,
            _ => (),
        }
        verdict
    }

    fn covers(&self, book: &[u8], certificate: &[u8], call: &[u8], work: &mut [u64]) -> Coverage {
        let coverage = Proved.covers(book, certificate, call, work);
        match (self, coverage, work.last_mut()) {
            (Wrong::Index, Coverage::Covered { index }, _) => {
                return Coverage::Covered { index: index + 1 }
            }
            (Wrong::WorkLeft, Coverage::Covered { .. }, Some(last)) => *last = 1,
            (Wrong::WorkTouched, Coverage::Refused(_), Some(last)) => *last ^= 1,
            _ => (),
        }
        coverage
    }

    fn read_book(&self, book: &[u8], out: &mut [u16]) -> Answer {
        let answer = Proved.read_book(book, out);
        if let (Wrong::OutputTouched, Some(last)) = (self, out.last_mut()) {
            *last ^= 1;
        }
        answer
    }

    fn read_certificate(&self, book: &[u8], certificate: &[u8], out: &mut [u16]) -> Answer {
        Proved.read_certificate(book, certificate, out)
    }

    fn write_book(&self, fields: &[u16], out: &mut [u8]) -> Answer {
        Proved.write_book(fields, out)
    }

    fn write_certificate(&self, book: &[u8], fields: &[u16], out: &mut [u8]) -> Answer {
        Proved.write_certificate(book, fields, out)
    }
}

/// How many of some judgings of this pair show a difference.
fn differences(side: &impl Side) -> usize {
    let mut random = Random::new(1);
    (0..500).filter(|_| judge_both(side, &BOOK, &CERTIFICATE, &mut random).is_err()).count()
}

/// The same for a judge that stands behind a right one.
fn differences_behind(judge: &mut Judging) -> usize {
    let mut random = Random::new(1);
    let right: &mut Judging = &mut |book, certificate, work| Proved.judge(book, certificate, work);
    let judges: &mut [(&str, &mut Judging)] = &mut [("right", right), ("tried", judge)];
    (0..500).filter(|_| judge_all(judges, &BOOK, &CERTIFICATE, &mut random).is_err()).count()
}

#[test]
fn nothing_is_found_in_the_proved_side() {
    assert_eq!(differences(&Proved), 0);
}

#[test]
fn nothing_is_found_in_the_swift_judge() {
    let mut swift = Swift::default();
    assert_eq!(
        differences_behind(&mut |book, certificate, work| swift.judge(book, certificate, work)),
        0
    );
}

/// It is given another certificate than the others are.
#[test]
fn a_swift_judge_that_is_wrong_is_found() {
    let mut swift = Swift::default();
    let other = [&CERTIFICATE[..], &[0]].concat();
    assert!(differences_behind(&mut |book, _, work| swift.judge(book, &other, work)) > 400);
}

#[test]
fn a_wrong_verdict_is_found() {
    assert!(differences(&Wrong::Alpha) > 400);
}

#[test]
fn a_number_left_in_the_work_table_is_found() {
    assert!(differences(&Wrong::WorkLeft) > 400);
}

#[test]
fn a_short_work_table_that_was_touched_is_found() {
    let found = differences(&Wrong::WorkTouched);
    assert!(found > 0 && found < 100, "{found}");
}

/// How many of some askings for this call show a difference.
fn differences_of_calls(side: &impl Side, call: &[u8]) -> usize {
    let (book, certificate, call) = (BOOK.to_vec(), CERTIFICATE.to_vec(), call.to_vec());
    let asking = Asking { made: Made::Within, book, certificate, call };
    let mut random = Random::new(1);
    (0..500).filter(|_| ask_both(side, &asking, &mut random).is_err()).count()
}

#[test]
fn wrong_answers_to_calls_are_found() {
    let covered = [0x40, 0x00];
    assert_eq!(differences_of_calls(&Proved, &covered), 0);
    assert_eq!(differences_of_calls(&Proved, &[]), 0);
    assert!(differences_of_calls(&Wrong::Index, &covered) > 400);
    assert!(differences_of_calls(&Wrong::WorkLeft, &covered) > 400);
    assert!(differences_of_calls(&Wrong::WorkTouched, &[]) > 400);
    let found = differences_of_calls(&Wrong::WorkTouched, &covered);
    assert!(found > 0 && found < 100, "{found}");
}

#[test]
fn an_output_that_was_touched_is_found() {
    let mut random = Random::new(1);
    for room in [1, 7, 9] {
        let task = Task::ReadBook { book: BOOK.to_vec(), room };
        assert!(perform_both(&Wrong::OutputTouched, &task, &mut random).is_err());
        assert!(perform_both(&Proved, &task, &mut random).is_ok());
    }
}

#[test]
fn a_program_that_reads_only_once_is_found() {
    // Test programs lie in deps/, beside examples/.
    let program = std::env::current_exe().unwrap().parent().unwrap().join("../examples/one_read");
    let input = [&[0, 6], &BOOK[..], &CERTIFICATE].concat();
    assert_eq!(run_both(&program, &input, Feeding::Whole).err(), None);
    for size in 1..=input.len() {
        let found = run_both(&program, &input, Feeding::Pieces(size)).is_err();
        assert_eq!(found, size < input.len(), "pieces of {size}");
    }
}
