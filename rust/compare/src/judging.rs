//! All judges on one input.

use crate::lent::{noise, Lent};
use crate::proved::{Proved, Side};
use crate::swiftly::Swift;
use crate::Compared;
use generate::hex::hex;
use generate::inputs::{Input, Kind};
use generate::random::Random;
use second::judging::WORK_NUMBERS;
use second::Verdict;

/// The book and the certificate of an input; of a damaged frame what it holds, if it
/// holds two files.
pub fn files_of(input: &Input) -> (&[u8], &[u8]) {
    let whole = (input.book.as_slice(), input.certificate.as_slice());
    if input.kind != Kind::Frame {
        return whole;
    }
    match input.framed.as_slice() {
        [high, low, rest @ ..] => {
            rest.split_at_checked(usize::from(*high) << 8 | usize::from(*low)).unwrap_or(whole)
        }
        _ => whole,
    }
}

/// Mostly just long enough; now and then longer or too short.
pub fn work_length(random: &mut Random) -> usize {
    match random.below(64) {
        0 => *random.pick(&[0, 1, 5, 64, 4_096, WORK_NUMBERS - 1]),
        1 => random.below(WORK_NUMBERS),
        2..=5 => WORK_NUMBERS + random.below(200),
        _ => WORK_NUMBERS,
    }
}

/// A judge that is compared with the second.
pub type Judging<'a> = dyn FnMut(&[u8], &[u8], &mut [u64]) -> Verdict + 'a;

/// Judges by the second and by each of these judges, over a work table full of noise. The
/// answer is the second's.
pub fn judge_all(
    judges: &mut [(&str, &mut Judging)],
    book: &[u8],
    certificate: &[u8],
    random: &mut Random,
) -> Compared<Verdict> {
    let before: Vec<u64> = noise(work_length(random), random);
    let mut work = before.clone();
    let verdict = second::judge(book, certificate, &mut work);
    for (name, judge) in judges {
        one_judge(judge, book, certificate, &before, (verdict, &work), random).map_err(|fault| {
            let (book, certificate, length) = (hex(book), hex(certificate), before.len());
            format!("judge, {length} work numbers\nbook {book}\ncertificate {certificate}\n{name}: {fault}")
        })?;
    }
    Ok(verdict)
}

/// The same with one side beside the second.
pub fn judge_both(
    side: &impl Side,
    book: &[u8],
    certificate: &[u8],
    random: &mut Random,
) -> Compared<Verdict> {
    let judge: &mut Judging = &mut |book, certificate, work| side.judge(book, certificate, work);
    judge_all(&mut [("side", judge)], book, certificate, random)
}

/// The same with the proved judge and the swift one beside the second.
pub fn judge_by_three(
    swift: &mut Swift,
    book: &[u8],
    certificate: &[u8],
    random: &mut Random,
) -> Compared<Verdict> {
    let judges: &mut [(&str, &mut Judging)] = &mut [
        ("proved", &mut |book, certificate, work| Proved.judge(book, certificate, work)),
        ("swift", &mut |book, certificate, work| swift.judge(book, certificate, work)),
    ];
    judge_all(judges, book, certificate, random)
}

/// Judges once, and compares the verdict and all lent memory.
fn one_judge(
    judge: &mut Judging,
    book: &[u8],
    certificate: &[u8],
    before: &[u64],
    (expected, expected_work): (Verdict, &[u64]),
    random: &mut Random,
) -> Compared<()> {
    let lent_book = Lent::new(book, random);
    let lent_certificate = Lent::new(certificate, random);
    let mut lent_work = Lent::new(before, random);
    let found = judge(lent_book.content(), lent_certificate.content(), lent_work.lend());
    if found != expected {
        Err(format!("found {found:?}\nexpected {expected:?}"))
    } else if !lent_work.holds(expected_work) {
        Err("the work table or its guards differ".to_string())
    } else if !lent_book.holds(book) || !lent_certificate.holds(certificate) {
        Err("a file or its guards changed".to_string())
    } else {
        Ok(())
    }
}
