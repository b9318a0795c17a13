//! Files and lists, there and back, and the tasks of reading and writing.

use generate::faults::accepted;
use generate::random::Random;
use generate::writing::{Outcome, Task, Tasks, FRESH_BYTE, FRESH_FIELD};
use second::spell::{book_fields, certificate_fields, pack_book, pack_certificate, values};
use second::Answer;
use std::collections::BTreeSet;

#[test]
fn accepted_files_go_there_and_back() {
    let mut random = Random::new(19);
    for _ in 0..500 {
        let (_, case) = accepted(&mut random);
        let (book, certificate) = (pack_book(&case.book), pack_certificate(&case.certificate));
        let mut list = vec![0; 100_000];
        let Answer::Filled(count) = second::read_book(&book, &mut list) else { panic!() };
        assert_eq!(list[..count], values(&book_fields(&case.book)));
        let mut bytes = vec![0; book.len()];
        let answer = second::write_book(&list[..count], &mut bytes);
        assert_eq!((answer, &bytes), (Answer::Filled(book.len()), &book));

        let answer = second::read_certificate(&book, &certificate, &mut list);
        let Answer::Filled(count) = answer else { panic!() };
        assert_eq!(list[..count], values(&certificate_fields(&case.certificate)));
        let mut bytes = vec![0; certificate.len()];
        let answer = second::write_certificate(&book, &list[..count], &mut bytes);
        assert_eq!((answer, &bytes), (Answer::Filled(certificate.len()), &certificate));
    }
}

#[test]
fn tasks_meet_all_refusals_and_keep_the_output() {
    let mut tasks = Tasks::new(23);
    let mut met = BTreeSet::new();
    for _ in 0..5_000 {
        let task = tasks.next_task();
        let writing = matches!(task, Task::WriteBook { .. } | Task::WriteCertificate { .. });
        let answer = match task.perform() {
            Outcome::List(answer, out) => {
                kept(answer, &out, FRESH_FIELD);
                answer
            }
            Outcome::Bytes(answer, out) => {
                kept(answer, &out, FRESH_BYTE);
                answer
            }
        };
        if let Answer::Refused(refusal) = answer {
            met.insert((writing, refusal.number, refusal.w));
        }
    }
    for writing in [false, true] {
        for number in 2..=8 {
            for w in [0, 1] {
                assert!(met.contains(&(writing, number, w)), "{writing} {number} {w}");
            }
        }
    }
}

/// "a refusal ... changes none", and what lies behind the places filled is kept.
fn kept<T: PartialEq + Copy>(answer: Answer, out: &[T], fresh: T) {
    let filled = match answer {
        Answer::Filled(count) => count,
        Answer::Refused(_) => 0,
    };
    assert!(out[filled..].iter().all(|place| *place == fresh));
}
