//! The five numbers of an answer, between guards.

use crate::lent::{noise, Lent, Word};
use crate::Compared;
use gearcinder::raw::{self, Numbers};
use generate::calls::Asking;
use generate::random::Random;
use second::judging::WORK_NUMBERS;
use second::{Answer, Coverage, Refusal, Verdict};

/// Asks for a call, with room for everything.
pub fn coverage_in_numbers(asking: &Asking, random: &mut Random) -> Compared<()> {
    let Asking { book, certificate, call, .. } = asking;
    let work: Vec<u64> = noise(WORK_NUMBERS, random);
    one_call(
        &work,
        random,
        |work| coverage_numbers(second::covers(book, certificate, call, work)),
        |work, answer| raw::covers(book, certificate, call, work, answer),
    )
}

/// Calls the other five functions on these files and their fields, with room for everything.
pub fn answers_in_numbers(book: &[u8], certificate: &[u8], random: &mut Random) -> Compared<()> {
    // No field is narrower than a bit.
    let room = 8 * (book.len() + certificate.len());
    let (mut book_list, mut certificate_list) = (vec![0; room], vec![0; room]);
    keep_filled(second::read_book(book, &mut book_list), &mut book_list);
    let answer = second::read_certificate(book, certificate, &mut certificate_list);
    keep_filled(answer, &mut certificate_list);

    let work: Vec<u64> = noise(WORK_NUMBERS, random);
    let list: Vec<u16> = noise(room, random);
    let bytes: Vec<u8> = noise(room, random);
    one_call(
        &work,
        random,
        |work| verdict_numbers(second::judge(book, certificate, work)),
        |work, answer| raw::judge(book, certificate, work, answer),
    )?;
    one_call(
        &list,
        random,
        |out| answer_numbers(second::read_book(book, out)),
        |out, answer| raw::read_book(book, out, answer),
    )?;
    one_call(
        &list,
        random,
        |out| answer_numbers(second::read_certificate(book, certificate, out)),
        |out, answer| raw::read_certificate(book, certificate, out, answer),
    )?;
    one_call(
        &bytes,
        random,
        |out| answer_numbers(second::write_book(&book_list, out)),
        |out, answer| raw::write_book(&book_list, out, answer),
    )?;
    one_call(
        &bytes,
        random,
        |out| answer_numbers(second::write_certificate(book, &certificate_list, out)),
        |out, answer| raw::write_certificate(book, &certificate_list, out, answer),
    )
}

/// Cuts a list down to its fields; to none, if they were refused.
fn keep_filled(answer: Answer, list: &mut Vec<u16>) {
    match answer {
        Answer::Filled(count) => list.truncate(count),
        Answer::Refused(_) => list.clear(),
    }
}

/// One call: its answer and what it leaves in lent memory.
fn one_call<T: Word>(
    before: &[T],
    random: &mut Random,
    expected: impl FnOnce(&mut [T]) -> Numbers,
    call: impl FnOnce(&mut [T], &mut Numbers),
) -> Compared<()> {
    let mut expected_memory = before.to_vec();
    let expected_answer = expected(&mut expected_memory);
    let mut memory = Lent::new(before, random);
    let mut answer = Lent::new(&noise::<u64>(5, random), random);
    call(memory.lend(), answer.lend().try_into().expect("five numbers"));
    match memory.holds(&expected_memory) && answer.holds(&expected_answer) {
        true => Ok(()),
        false => {
            Err(format!("{:?} instead of {expected_answer:?}, or memory differs", answer.content()))
        }
    }
}

fn refusal_numbers(refusal: Refusal) -> Numbers {
    [1, u64::from(refusal.number), u64::from(refusal.w), refusal.a, refusal.b]
}

fn answer_numbers(answer: Answer) -> Numbers {
    match answer {
        Answer::Filled(count) => [0, count as u64, 0, 0, 0],
        Answer::Refused(refusal) => refusal_numbers(refusal),
    }
}

fn coverage_numbers(coverage: Coverage) -> Numbers {
    match coverage {
        Coverage::Covered { index } => [0, index, 0, 0, 0],
        Coverage::Refused(refusal) => refusal_numbers(refusal),
    }
}

fn verdict_numbers(verdict: Verdict) -> Numbers {
    match verdict {
        Verdict::Accepted { line, k, alpha } => [0, line, k, alpha, 0],
        Verdict::Refused(refusal) => refusal_numbers(refusal),
    }
}
