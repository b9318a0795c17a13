//! Short names for building books and certificates in tests.
#![allow(dead_code)]

pub use second::making::{fun as f, rule, use_of, var as v};
use second::spell::{
    book_fields, certificate_fields, pack, pack_book, pack_certificate, values, Field,
};
use second::*;

pub const GT: u8 = 0;
pub const S: u8 = 1;
pub const ZERO: u8 = 2;
pub const ADD: u8 = 3;
pub const WHILE: u8 = 4;
pub const R: u8 = 5;

pub const X: u8 = 0;
pub const Y: u8 = 1;
pub const Z: u8 = 2;

pub fn p(symbol: u8, a: u64, b: u64, arg: Term) -> Term {
    Term::pow(symbol, a, b, arg)
}

/// s^{a,b}(arg)
pub fn s(a: u64, b: u64, arg: Term) -> Term {
    p(S, a, b, arg)
}

pub fn zero() -> Term {
    f(ZERO, &[])
}

pub fn unfold(
    left: Term,
    right: Option<Term>,
    rule: u8,
    stop: u8,
    filling: &[(u8, Term)],
    before: &[Use],
    last: Option<Use>,
) -> Line {
    let (filling, before) = (filling.to_vec(), before.to_vec());
    Line { left, right, proof: Proof::Unfold { rule, stop, filling, before, last } }
}

pub fn descent(
    left: Term,
    right: Option<Term>,
    base: Use,
    rule: u8,
    filling: &[(u8, Term)],
) -> Line {
    Line { left, right, proof: Proof::Descent { base, rule, filling: filling.to_vec() } }
}

pub fn closing(line: u8, k: u64, alpha: u64, filling: &[(u8, Term)]) -> Closing {
    Closing { line, k, alpha, filling: filling.to_vec() }
}

/// Book W of the document.
pub fn book_w() -> Book {
    let x = || v(X);
    let y = || v(Y);
    let z = || v(Z);
    Book {
        arities: vec![2, 1, 0, 3, 2, 1],
        rules: vec![
            rule(f(GT, &[s(0, 1, x()), zero()]), &[]),
            rule(f(GT, &[s(0, 1, x()), s(0, 1, y())]), &[f(GT, &[x(), y()])]),
            rule(f(ADD, &[x(), zero(), x()]), &[]),
            rule(f(ADD, &[x(), s(0, 1, y()), s(0, 1, z())]), &[f(ADD, &[x(), y(), z()])]),
            rule(
                f(WHILE, &[x(), y()]),
                &[f(GT, &[x(), y()]), f(ADD, &[x(), y(), z()]), f(WHILE, &[z(), s(0, 1, y())])],
            ),
        ],
    }
}

/// Cases 6 to 9 of the document in one certificate.
pub fn certificate_w() -> Certificate {
    let x = || v(X);
    let up = s(1, 1, x());
    Certificate {
        lines: vec![
            unfold(f(GT, &[s(0, 1, x()), zero()]), None, 0, 0, &[], &[], None),
            descent(
                f(GT, &[up.clone(), s(1, 0, zero())]),
                None,
                use_of(0, 0, 0, &[]),
                1,
                &[(X, up.clone()), (Y, s(1, 0, zero()))],
            ),
            unfold(f(ADD, &[x(), zero(), x()]), None, 2, 0, &[], &[], None),
            descent(
                f(ADD, &[x(), s(1, 0, zero()), s(1, 0, x())]),
                None,
                use_of(2, 0, 0, &[]),
                3,
                &[(Y, s(1, 0, zero())), (Z, s(1, 0, x()))],
            ),
            unfold(
                f(WHILE, &[up.clone(), s(1, 0, zero())]),
                Some(f(WHILE, &[s(2, 1, x()), s(1, 1, zero())])),
                4,
                3,
                &[(X, up.clone()), (Y, s(1, 0, zero())), (Z, s(2, 1, x()))],
                &[use_of(1, 1, 0, &[]), use_of(3, 1, 0, &[(X, up)])],
                None,
            ),
        ],
        closing: closing(4, 1, 1, &[(X, s(1, 0, x()))]),
    }
}

pub fn work() -> Vec<u64> {
    vec![7; 8_192]
}

/// Judges trees by way of the packed files.
pub fn judge_trees(book: &Book, certificate: &Certificate) -> Verdict {
    judge_bytes(&pack_book(book), &pack_certificate(certificate))
}

pub fn judge_bytes(book: &[u8], certificate: &[u8]) -> Verdict {
    let mut work = work();
    let verdict = judge(book, certificate, &mut work);
    assert!(work.iter().all(|number| *number == 0));
    verdict
}

pub fn refused(number: u8, w: u8, a: u64, b: u64) -> Verdict {
    Verdict::Refused(Refusal { number, w, a, b })
}

pub fn no(number: u8, w: u8, a: u64) -> Answer {
    Answer::Refused(Refusal { number, w, a, b: 0 })
}

/// Packs (value, width) pairs.
pub fn bits(fields: &[(u16, u32)]) -> Vec<u8> {
    pack(&raw(fields))
}

pub fn raw(fields: &[(u16, u32)]) -> Vec<Field> {
    fields.iter().map(|(value, width)| Field { value: *value, width: *width }).collect()
}

/// An operation with an ample output; a refusal changes none of it.
fn with_room<T: Copy + PartialEq>(
    room: usize,
    fresh: T,
    call: impl Fn(&mut [T]) -> Answer,
) -> Answer {
    let mut out = vec![fresh; room];
    let answer = call(&mut out);
    if let Answer::Refused(_) = answer {
        assert!(out.iter().all(|place| *place == fresh));
    }
    answer
}

pub fn read_b(book: &[u8]) -> Answer {
    with_room(200_000, 9, |out| read_book(book, out))
}

pub fn read_c(book: &[u8], certificate: &[u8]) -> Answer {
    with_room(200_000, 9, |out| read_certificate(book, certificate, out))
}

pub fn write_b(fields: &[u16]) -> Answer {
    with_room(40_000, 9, |out| write_book(fields, out))
}

pub fn write_c(book: &[u8], fields: &[u16]) -> Answer {
    with_room(40_000, 9, |out| write_certificate(book, fields, out))
}

pub fn book_list(book: &Book) -> Vec<u16> {
    values(&book_fields(book))
}

pub fn certificate_list(certificate: &Certificate) -> Vec<u16> {
    values(&certificate_fields(certificate))
}
