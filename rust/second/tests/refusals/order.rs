//! The order of refusals, and the largest counts.

use crate::common::*;
use second::spell::{pack_book, pack_certificate};
use second::*;

#[test]
fn order_of_files() {
    // The whole book stands before the certificate; the certificate's form
    // before any judging.
    assert_eq!(judge_bytes(&[0], &[]), refused(3, 0, 8, 0));
    assert_eq!(judge_bytes(&[0, 0], &[]), refused(3, 1, 0, 0));
    assert_eq!(judge_bytes(&[], &[0]), refused(3, 0, 0, 0));
    let w = pack_book(&book_w());
    let mut bad = certificate_w();
    bad.lines[0].left = zero();
    assert_eq!(judge_trees(&book_w(), &bad), refused(9, 2, 0, 0));
    let mut bytes = pack_certificate(&bad);
    bytes.push(0);
    let Verdict::Refused(refusal) = judge_bytes(&w, &bytes) else { panic!() };
    assert_eq!((refusal.number, refusal.w), (7, 1));
}

#[test]
fn numbers_that_need_255() {
    // 255 symbols, 255 rules, 255 lines.
    let c = || f(254, &[]);
    let book = Book { arities: vec![0; 255], rules: vec![rule(c(), &[c()]); 255] };
    let lines = (0..255).map(|n| unfold(c(), Some(c()), n as u8, 1, &[], &[], None)).collect();
    let certificate = Certificate { lines, closing: closing(254, 4_095, 0, &[]) };
    let verdict = judge_trees(&book, &certificate);
    assert_eq!(verdict, Verdict::Accepted { line: 254, k: 4_095, alpha: 0 });
}
