//! The twelve cases of the document's table and its one whole case.

mod common;
use common::*;
use second::judging::check;
use second::*;

fn accepted(verdict: Verdict, line: u64, k: u64, alpha: u64) {
    assert_eq!(verdict, Verdict::Accepted { line, k, alpha });
}

/// A judge's check of the first `count` lines alone: the closing names line 0,
/// whose right is empty, so a refusal 14 shows that all lines are good.
fn lines_are_good(count: usize) {
    let mut certificate = certificate_w();
    certificate.lines.truncate(count);
    certificate.closing = closing(0, 0, 0, &[]);
    assert_eq!(judge_trees(&book_w(), &certificate), refused(14, 3, 0, 0));
}

#[test]
fn case_1() {
    assert_eq!(s(1, 0, s(1, 1, v(X))).normal(), s(2, 1, v(X)));
}

#[test]
fn case_2() {
    assert_eq!(s(1, 0, v(X)).reindexed(0, 0).normal(), v(X));
}

#[test]
fn case_3() {
    let term = s(0, 1, p(R, 1, 0, s(0, 1, v(X))));
    assert_eq!(term.reindexed(0, 0).normal(), s(0, 2, v(X)));
    // "case 3's two terms agree there and nowhere else"
    assert_ne!(term.reindexed(0, 1).normal(), s(0, 2, v(X)));
    assert_ne!(term.normal(), s(0, 2, v(X)));
}

#[test]
fn case_4() {
    let swap = vec![(X, v(Y)), (Y, v(X))];
    assert_eq!(f(GT, &[v(X), v(Y)]).filled(&swap), f(GT, &[v(Y), v(X)]));
}

#[test]
fn case_5() {
    assert_eq!(s(2, 1, v(X)).reindexed(3, 2), s(6, 5, v(X)));
}

#[test]
fn case_6() {
    lines_are_good(2);
}

#[test]
fn case_7() {
    lines_are_good(4);
}

#[test]
fn case_8() {
    lines_are_good(5);
}

#[test]
fn case_9() {
    assert_eq!(check(&book_w(), &certificate_w()), Ok(()));
    accepted(judge_trees(&book_w(), &certificate_w()), 4, 1, 1);
}

#[test]
fn case_10() {
    let mut certificate = certificate_w();
    certificate.closing.alpha = 0;
    assert_eq!(judge_trees(&book_w(), &certificate), refused(15, 3, 4, 1));
}

#[test]
fn case_11() {
    assert_eq!(judge_bytes(&[0, 0], &[0]), refused(3, 1, 8, 0));
}

#[test]
fn case_12() {
    assert_eq!(judge_bytes(&[0, 0], &[0, 0]), refused(4, 1, 8, 0));
}

const WHOLE_BOOK: [u8; 6] = [0x01, 0x00, 0x11, 0x40, 0x10, 0x00];
const WHOLE_CERTIFICATE: [u8; 12] =
    [0x01, 0x20, 0x14, 0x00, 0x00, 0x40, 0x00, 0x00, 0x00, 0x00, 0x00, 0x00];

fn whole_input() -> Vec<u8> {
    [&[0, 6][..], &WHOLE_BOOK, &WHOLE_CERTIFICATE].concat()
}

#[test]
fn one_whole_case() {
    let mut work = work();
    let verdict = judge_input(&whole_input(), &mut work);
    assert_eq!(verdict_line(&verdict), "accept 0 0 0");
    assert!(work.iter().all(|number| *number == 0));
    accepted(judge_bytes(&WHOLE_BOOK, &WHOLE_CERTIFICATE), 0, 0, 0);
}

#[test]
fn one_whole_case_as_trees() {
    let a = || f(0, &[]);
    let book = Book { arities: vec![0], rules: vec![rule(a(), &[a()])] };
    let certificate = Certificate {
        lines: vec![unfold(a(), Some(a()), 0, 1, &[], &[], None)],
        closing: closing(0, 0, 0, &[]),
    };
    assert_eq!(parse_book(&WHOLE_BOOK), Ok(book));
    assert_eq!(parse_certificate(&WHOLE_BOOK, &WHOLE_CERTIFICATE), Ok(certificate));
}

#[test]
fn one_whole_case_there_and_back() {
    let mut fields = [0u16; 64];
    let Answer::Filled(count) = read_book(&WHOLE_BOOK, &mut fields) else { panic!() };
    let mut bytes = [9u8; 16];
    assert_eq!(write_book(&fields[..count], &mut bytes), Answer::Filled(6));
    assert_eq!(bytes[..6], WHOLE_BOOK);
    assert_eq!(bytes[6..], [9; 10], "the rest is kept");

    let answer = read_certificate(&WHOLE_BOOK, &WHOLE_CERTIFICATE, &mut fields);
    let Answer::Filled(count) = answer else { panic!() };
    assert_eq!(write_certificate(&WHOLE_BOOK, &fields[..count], &mut bytes), Answer::Filled(12));
    assert_eq!(bytes[..12], WHOLE_CERTIFICATE);
    assert_eq!(bytes[12..], [9; 4], "the rest is kept");
}
