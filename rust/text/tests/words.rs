//! The judge's answers in words: each refusal of docs/RULES.md, and each part.

use second::answer::{BOOK, CALL, CERTIFICATE, CLOSING, LINE, NEITHER};
use second::{Certificate, Closing, Coverage, Line, Proof, Refusal, Term, Use, Verdict};
use std::path::Path;
use text::vectors::{parse_vectors, Operation, Vector};
use text::words::{coverage_words, verdict_words};

fn used() -> Use {
    Use { line: 0, i: 1, j: 0, filling: Vec::new() }
}

fn unfold(stop: u8, last: Option<Use>) -> Proof {
    Proof::Unfold { rule: 0, stop, filling: Vec::new(), before: Vec::new(), last }
}

/// A certificate whose only line has this proof.
fn certificate(proof: Proof) -> Certificate {
    let line = Line { left: Term::Var(0), right: None, proof };
    let closing = Closing { line: 0, k: 0, alpha: 0, filling: Vec::new() };
    Certificate { lines: vec![line], closing }
}

fn words(number: u8, w: u8, a: u64, b: u64, proof: Proof) -> String {
    let refusal = Refusal::new(number, w, a, b);
    verdict_words(&Verdict::Refused(refusal), Some(&certificate(proof)))
}

#[test]
fn an_acceptance() {
    let verdict = Verdict::Accepted { line: 4, k: 1, alpha: 1 };
    let expected = "accepted: line 4, k = 1, alpha = 1: each call of its left, at index 1 or \
                    later, has derivations of every length, by some choice of rules";
    assert_eq!(verdict_words(&verdict, None), expected);
}

#[test]
fn refusals_of_files() {
    let cases = [
        (1, NEITHER, "in neither file: the work table has fewer than 8,192 numbers"),
        (2, BOOK, "in the book: it has over 16,384 bytes"),
        (2, CERTIFICATE, "in the certificate: it has over 32,768 bytes"),
        (2, NEITHER, "in neither file: the input has over 49,154 bytes"),
        (3, BOOK, "in the book, at bit 5: the file ends before the field that begins there does"),
        (3, NEITHER, "in neither file: the input ends before the book does"),
        (
            4,
            CERTIFICATE,
            "in the certificate, at bit 5: the field that begins there has a value that is not \
             allowed",
        ),
        (
            5,
            BOOK,
            "in the book, at bit 5: a term is not normal: a power below its like, or one with \
             a = b = 0",
        ),
        (6, CERTIFICATE, "in the certificate, at bit 5: a 257th node of a term would begin there"),
        (7, BOOK, "in the book, at bit 5: something is left over behind the last field"),
        (8, CERTIFICATE, "in the certificate: the output has no room for it"),
    ];
    for (number, w, expected) in cases {
        let found = words(number, w, 5, 0, unfold(0, None));
        assert_eq!(found, format!("refused with {number} {expected}"));
    }
}

#[test]
fn refusals_of_unfolds() {
    let cases = [
        (9, 0, unfold(0, None), "the rule's head, filled, is not left"),
        (10, 3, unfold(3, None), "the rule's call 3, filled, is not left of its use"),
        (
            11,
            1,
            unfold(2, None),
            "right of the line used for this call is a term, not the empty mark",
        ),
        (
            11,
            2,
            unfold(2, Some(used())),
            "right of the line used for this call is the empty mark, with calls behind it",
        ),
        (12, 15, unfold(0, None), "right is not the empty mark"),
        (12, 15, unfold(2, None), "right is not the rule's call 2, filled"),
        (12, 15, unfold(2, Some(used())), "right is not right of the use for call 2"),
        (16, 0, unfold(0, None), "the rule's head, filled, or left has over 1,024 nodes"),
        (
            16,
            8,
            unfold(8, None),
            "the rule's call 8, filled, or left of its use has over 1,024 nodes",
        ),
        (16, 15, unfold(0, None), "right or the empty mark has over 1,024 nodes"),
    ];
    for (number, part, proof, expected) in cases {
        let place = format!("in line 0, an unfold, part {part}");
        let found = words(number, LINE, 0, part, proof);
        assert_eq!(found, format!("refused with {number} {place}: {expected}"));
    }
}

#[test]
fn refusals_of_descents() {
    let cases = [
        (9, 0, "left of the base is not left by (0, 0)"),
        (12, 1, "right of the base is not right by (0, 0)"),
        (9, 2, "the rule's head, filled, is not left by (1, 1)"),
        (10, 3, "the rule's call, filled, is not left"),
        (13, 4, "right has an index: a power whose a is not 0"),
        (16, 0, "left of the base or left by (0, 0) has over 1,024 nodes"),
        (16, 1, "right of the base or right by (0, 0) has over 1,024 nodes"),
        (16, 2, "the rule's head, filled, or left by (1, 1) has over 1,024 nodes"),
        (16, 3, "the rule's call, filled, or left has over 1,024 nodes"),
    ];
    for (number, part, expected) in cases {
        let proof = Proof::Descent { base: used(), rule: 0, filling: Vec::new() };
        let place = format!("in line 0, a descent, part {part}");
        let found = words(number, LINE, 0, part, proof);
        assert_eq!(found, format!("refused with {number} {place}: {expected}"));
    }
}

#[test]
fn refusals_of_the_closing() {
    let back = "right by (1, alpha) is not left by (1, alpha + k), filled";
    let wide = "right by (1, alpha) or left by (1, alpha + k), filled has over 1,024 nodes";
    let cases = [(14, 0, "right is the empty mark"), (15, 1, back), (16, 1, wide)];
    for (number, part, expected) in cases {
        let found = words(number, CLOSING, 4, part, unfold(0, None));
        let place = format!("in the closing, line 4, part {part}");
        assert_eq!(found, format!("refused with {number} {place}: {expected}"));
    }
}

#[test]
fn calls() {
    let certificate = certificate(unfold(0, None));
    let words = |coverage: Coverage| coverage_words(&coverage, Some(&certificate));
    let refused = |number: u8, w: u8| Coverage::Refused(Refusal::new(number, w, 5, 0));
    let expected = "covered at index 3: left of line 0, at this index and filled, is the call; \
                    so it has derivations of every length, by some choice of rules";
    assert_eq!(words(Coverage::Covered { index: 3 }), expected);
    let expected = "not covered: left of line 0 is not the call at any index from 0 on, however \
                    it is filled";
    assert_eq!(words(Coverage::Refused(Refusal::placeless(17, NEITHER))), expected);
    let cases = [
        (3, CALL, "in the call, at bit 5: the file ends before the field that begins there does"),
        (
            4,
            CALL,
            "in the call, at bit 5: the field that begins there has a value that is not allowed",
        ),
        (
            5,
            CALL,
            "in the call, at bit 5: a term is not normal: a power below its like, or one with a \
             = b = 0",
        ),
        (6, CALL, "in the call, at bit 5: a 257th node of a term would begin there"),
        (7, CALL, "in the call, at bit 5: something is left over behind the last field"),
        (7, BOOK, "in the book, at bit 5: something is left over behind the last field"),
    ];
    for (number, w, expected) in cases {
        assert_eq!(words(refused(number, w)), format!("refused with {number} {expected}"));
    }
    let line = Coverage::Refused(Refusal::new(9, LINE, 0, 0));
    let expected = "refused with 9 in line 0, an unfold, part 0: the rule's head, filled, is not \
                    left";
    assert_eq!(words(line), expected);
}

fn vectors() -> Vec<Vector> {
    let top = Path::new(env!("CARGO_MANIFEST_DIR")).join("../../data");
    let read =
        |name: &str| parse_vectors(&std::fs::read_to_string(top.join(name)).unwrap()).unwrap();
    ["judging.txt", "table.txt", "reading.txt", "limits.txt"].into_iter().flat_map(read).collect()
}

/// No refusal of a vector is left without words of its own.
#[test]
fn every_vector_that_is_judged() {
    let mut judged = 0;
    for vector in vectors().iter().filter(|vector| vector.operation == Operation::Judge) {
        let (book, certificate) = (vector.first.bytes(), vector.second.bytes());
        let verdict = second::judge(book, certificate, &mut vec![0; vector.lent]);
        let read = second::files::parse_both(book, certificate).ok();
        let words = verdict_words(&verdict, read.as_ref().map(|(_, certificate)| certificate));
        for vague in ["one side", "or the reverse", "no such number"] {
            assert!(!words.contains(vague), "{}: {words}", vector.name);
        }
        judged += 1;
    }
    assert!(judged > 50, "{judged}");
}
