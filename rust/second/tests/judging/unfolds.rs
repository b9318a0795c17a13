//! Unfolds: 9 to 12.

use crate::common::*;
use crate::{book, c, certificate, end, pair};
use second::*;

/// p(x,y) :- c, p(y,x), c.   c.
fn swap_book() -> Book {
    book(&[
        rule(pair(v(X), v(Y)), &[c(), pair(v(Y), v(X)), c()]),
        rule(c(), &[]),
        rule(c(), &[c()]),
    ])
}

fn fact_c() -> Line {
    unfold(c(), None, 1, 0, &[], &[], None)
}

fn swap_line() -> Line {
    let right = Some(pair(v(Y), v(X)));
    unfold(pair(v(X), v(Y)), right, 0, 2, &[], &[use_of(0, 0, 0, &[])], None)
}

#[test]
fn swapped_loop_is_accepted() {
    let good = certificate(&[fact_c(), swap_line()], closing(1, 0, 0, &[(X, v(Y)), (Y, v(X))]));
    assert_eq!(judge_trees(&swap_book(), &good), Verdict::Accepted { line: 1, k: 0, alpha: 0 });
    let mut bad = good;
    bad.closing.filling.pop();
    assert_eq!(judge_trees(&swap_book(), &bad), refused(15, 3, 1, 1));
}

#[test]
fn refusal_9_of_an_unfold() {
    let mut line = swap_line();
    line.left = pair(v(X), v(X));
    let bad = certificate(&[fact_c(), line], end());
    assert_eq!(judge_trees(&swap_book(), &bad), refused(9, 2, 1, 0));
}

#[test]
fn refusal_10_of_an_unfold_at_each_j() {
    let used = |first: Use, last: Use| {
        let line =
            unfold(pair(v(X), v(Y)), Some(pair(v(X), v(Y))), 0, 2, &[], &[first], Some(last));
        certificate(&[fact_c(), swap_line(), line], closing(2, 0, 0, &[]))
    };
    let swap = [(X, v(Y)), (Y, v(X))];
    let good = used(use_of(0, 0, 0, &[]), use_of(1, 3, 4, &swap));
    assert_eq!(judge_trees(&swap_book(), &good), Verdict::Accepted { line: 2, k: 0, alpha: 0 });
    let bad = used(use_of(0, 0, 0, &[]), use_of(1, 3, 4, &swap[..1]));
    assert_eq!(judge_trees(&swap_book(), &bad), refused(10, 2, 2, 2));
    // Line 1 used for the call c has a right: 11 stands before 10.
    let bad = used(use_of(1, 0, 0, &[]), use_of(1, 3, 4, &swap));
    assert_eq!(judge_trees(&swap_book(), &bad), refused(11, 2, 2, 1));
    // For j = i < m the used right must not be empty.
    let bad = used(use_of(0, 0, 0, &[]), use_of(0, 0, 0, &[]));
    assert_eq!(judge_trees(&swap_book(), &bad), refused(11, 2, 2, 2));
}

#[test]
fn refusal_10_before_the_stop() {
    let book = book(&[rule(c(), &[pair(v(X), c()), c()]), rule(pair(c(), c()), &[])]);
    let fact = unfold(pair(c(), c()), None, 1, 0, &[], &[], None);
    let line = |filling: &[(u8, Term)]| {
        unfold(c(), Some(c()), 0, 2, filling, &[use_of(0, 9, 9, &[])], None)
    };
    let good = certificate(&[fact.clone(), line(&[(X, c())])], closing(1, 5, 6, &[]));
    assert_eq!(judge_trees(&book, &good), Verdict::Accepted { line: 1, k: 5, alpha: 6 });
    let bad = certificate(&[fact, line(&[])], closing(1, 5, 6, &[]));
    assert_eq!(judge_trees(&book, &bad), refused(10, 2, 1, 1));
}

#[test]
fn at_the_last_call_a_used_right_may_be_either() {
    let book = swap_book();
    // c :- c with the fact c used at j = i = m: the right is then empty.
    let through = unfold(c(), None, 2, 1, &[], &[], Some(use_of(0, 0, 0, &[])));
    let good = certificate(&[fact_c(), through.clone()], closing(1, 0, 0, &[]));
    assert_eq!(judge_trees(&book, &good), refused(14, 3, 1, 0));
    let mut bad = through;
    bad.right = Some(c());
    let bad = certificate(&[fact_c(), bad], end());
    assert_eq!(judge_trees(&book, &bad), refused(12, 2, 1, 15));
    // c :- c with a line that has a right.
    let step = unfold(c(), Some(c()), 2, 1, &[], &[], None);
    let twice = unfold(c(), Some(c()), 2, 1, &[], &[], Some(use_of(0, 0, 0, &[])));
    let good = certificate(&[step, twice], closing(1, 0, 0, &[]));
    assert_eq!(judge_trees(&book, &good), Verdict::Accepted { line: 1, k: 0, alpha: 0 });
}

#[test]
fn refusal_12_of_an_unfold() {
    let book = swap_book();
    let bad = |change: fn(&mut Line)| {
        let mut line = swap_line();
        change(&mut line);
        judge_trees(&book, &certificate(&[fact_c(), line], end()))
    };
    assert_eq!(bad(|line| line.right = None), refused(12, 2, 1, 15));
    assert_eq!(bad(|line| line.right = Some(v(X))), refused(12, 2, 1, 15));
    let mut fact = fact_c();
    fact.right = Some(c());
    assert_eq!(judge_trees(&book, &certificate(&[fact], end())), refused(12, 2, 0, 15));
}
