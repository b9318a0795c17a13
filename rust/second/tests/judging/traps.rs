//! The traps, the largest numbers and the deepest terms.

use crate::common::*;
use crate::{book, c, certificate, end, pair};
use second::*;

#[test]
fn case_3_as_a_certificate() {
    // A line about r^{1,0} compares for every index, not at 0 only.
    let book = book(&[rule(pair(s(0, 2, v(X)), c()), &[])]);
    let left = pair(s(0, 1, p(2, 1, 0, s(0, 1, v(X)))), c());
    let bad = certificate(&[unfold(left, None, 0, 0, &[], &[], None)], end());
    assert_eq!(judge_trees(&book, &bad), refused(9, 2, 0, 0));
}

#[test]
fn the_filling_is_not_reindexed() {
    // p(x,c) :- p(s(x),c): line 0 is p(s^{1,0}(x),c) → p(s^{1,1}(x),c); used by
    // (0,2) with x = s^{1,0}(c) it speaks of s^{0,2}(s^{1,0}(c)) = s^{1,2}(c).
    let book = book(&[rule(pair(v(X), c()), &[pair(s(0, 1, v(X)), c())])]);
    let at = |a: u64, b: u64, end: Term| pair(s(a, b, end), c());
    let first =
        unfold(at(1, 0, v(X)), Some(at(1, 1, v(X))), 0, 1, &[(X, s(1, 0, v(X)))], &[], None);
    let second = |left: Term, right: Term, filled: Term| {
        let one = use_of(0, 0, 2, &[(X, s(1, 0, c()))]);
        unfold(left, Some(right), 0, 1, &[(X, filled)], &[], Some(one))
    };
    let good = second(at(1, 1, c()), at(1, 3, c()), s(1, 1, c()));
    let whole = certificate(&[first.clone(), good], closing(1, 2, 0, &[]));
    assert_eq!(judge_trees(&book, &whole), Verdict::Accepted { line: 1, k: 2, alpha: 0 });
    let reindexed = second(at(0, 1, c()), at(0, 3, c()), s(0, 1, c()));
    let whole = certificate(&[first, reindexed], closing(1, 2, 0, &[]));
    assert_eq!(judge_trees(&book, &whole), refused(10, 2, 1, 1));
}

#[test]
fn nothing_wraps() {
    let most = 4_095;
    let term = s(most, most, v(X));
    let far = term.reindexed(most, most).filled(&vec![(X, term.clone())]).normal();
    assert_eq!(far, s(most * most + most, most * most + 2 * most, v(X)));
    // As a certificate: p(x,c). c :- p(x,c).
    let book = book(&[rule(pair(v(X), c()), &[]), rule(c(), &[pair(v(X), c())])]);
    let fact = unfold(pair(term.clone(), c()), None, 0, 0, &[(X, term.clone())], &[], None);
    let used = |filling: Term, i: u64, j: u64, one: Term| {
        let one = use_of(0, i, j, &[(X, one)]);
        let line = unfold(c(), None, 1, 1, &[(X, filling)], &[], Some(one));
        judge_trees(&book, &certificate(&[fact.clone(), line], end()))
    };
    // 4,095² does not fit 12 bits, so a file's term cannot equal it, even if it
    // agrees in its low 12, 16, 24 or 32 bits.
    let low = (most * most) & 4_095;
    assert_eq!(used(s(low, low, c()), most, most, c()), refused(10, 2, 1, 1));
    assert_eq!(used(s(most, most, c()), 1, 0, c()), refused(14, 3, 0, 0));
}

#[test]
fn deep_terms_do_not_overflow_the_stack() {
    // 256 nested powers filled by 256 more, in a thread with a small stack.
    let run = || {
        let tower = |end: Term, count: u32| {
            (0..count).fold(end, |below, n| p(1 + (n % 2) as u8, 1, 1, below))
        };
        let book = book(&[rule(tower_of_rule(), &[]), rule(c(), &[tower_of_rule(), c()])]);
        let left = tower(v(X), 255);
        let line = unfold(left.clone(), None, 0, 0, &[(X, left.clone())], &[], None);
        let verdict = judge_trees(&book, &certificate(&[line], end()));
        assert_eq!(verdict, refused(9, 2, 0, 0));
        let good = unfold(tower_of_rule(), None, 0, 0, &[], &[], None);
        let deep = (0..255).fold(v(Y), |below, n| p(2 - (n % 2) as u8, 1, 1, below));
        let uses = [use_of(0, 1, 1, &[(X, deep.clone())])];
        let line = unfold(c(), Some(c()), 1, 2, &[(X, deep)], &uses, None);
        let verdict = judge_trees(&book, &certificate(&[good, line], closing(1, 0, 0, &[])));
        assert_eq!(verdict, Verdict::Accepted { line: 1, k: 0, alpha: 0 });
    };
    std::thread::Builder::new().stack_size(1 << 20).spawn(run).unwrap().join().unwrap();
}

fn tower_of_rule() -> Term {
    (0..255).fold(v(X), |below, n| p(1 + (n % 2) as u8, 0, 1, below))
}
