//! 16: sides of more than 1,024 nodes, at each part.

use crate::common::*;
use crate::{big, book, c, certificate, end, tower};
use second::*;

/// Fillings x, y that make big(x, ..., x, y) have `nodes` nodes.
fn sizes(nodes: u32) -> [(u8, Term); 2] {
    let last = nodes - 1 - 7 * 128;
    [(X, tower(128, X)), (Y, tower(last, Y))]
}

#[test]
fn refusal_16_at_part_0() {
    let book = book(&[rule(big(v(X), v(Y)), &[])]);
    let judge = |nodes: u32| {
        let line = unfold(big(v(X), v(Y)), None, 0, 0, &sizes(nodes), &[], None);
        judge_trees(&book, &certificate(&[line], end()))
    };
    assert_eq!(judge(1_024), refused(9, 2, 0, 0));
    assert_eq!(judge(1_025), refused(16, 2, 0, 0));
}

/// c :- big(x,...,y), c.   big(x,...,y).   c.
fn big_call_book() -> Book {
    book(&[
        rule(c(), &[big(v(X), v(Y)), c()]),
        rule(big(v(X), v(Y)), &[]),
        rule(c(), &[]),
        rule(big(v(X), v(Y)), &[c()]),
    ])
}

#[test]
fn refusal_16_at_part_j_on_either_side() {
    let fact = unfold(big(v(X), v(Y)), None, 1, 0, &[], &[], None);
    let judge = |first: u32, second: u32| {
        let uses = [use_of(0, 1, 0, &sizes(second))];
        let line = unfold(c(), Some(c()), 0, 2, &sizes(first), &uses, None);
        judge_trees(&big_call_book(), &certificate(&[fact.clone(), line], closing(1, 0, 0, &[])))
    };
    // Exactly 1,024 nodes on both sides are compared and found equal.
    assert_eq!(judge(1_024, 1_024), Verdict::Accepted { line: 1, k: 0, alpha: 0 });
    assert_eq!(judge(1_025, 1_025), refused(16, 2, 1, 1));
    assert_eq!(judge(1_024, 1_025), refused(16, 2, 1, 1));
    assert_eq!(judge(1_025, 1_024), refused(16, 2, 1, 1));
    assert_eq!(judge(1_024, 1_023), refused(10, 2, 1, 1));
}

#[test]
fn eleven_stands_before_sixteen() {
    let with_right = unfold(big(v(X), v(Y)), Some(c()), 3, 1, &[], &[], None);
    let uses = [use_of(0, 1, 0, &sizes(1_025))];
    let line = unfold(c(), Some(c()), 0, 2, &sizes(1_025), &uses, None);
    let bad = certificate(&[with_right, line], end());
    assert_eq!(judge_trees(&big_call_book(), &bad), refused(11, 2, 1, 1));
}

#[test]
fn refusal_16_at_part_15() {
    // The line stops at a big call; its right is a term or the empty mark.
    let judge = |nodes: u32, right: Option<Term>| {
        let line = unfold(c(), right, 0, 1, &sizes(nodes), &[], None);
        judge_trees(&big_call_book(), &certificate(&[line], end()))
    };
    assert_eq!(judge(1_024, Some(c())), refused(12, 2, 0, 15));
    assert_eq!(judge(1_025, Some(c())), refused(16, 2, 0, 15));
    assert_eq!(judge(1_024, None), refused(12, 2, 0, 15));
    assert_eq!(judge(1_025, None), refused(16, 2, 0, 15));
}

#[test]
fn refusal_16_in_a_used_right() {
    // c :- c used through a line whose right is big with variables not in left.
    let book = book(&[rule(c(), &[big(v(X), v(Y))]), rule(c(), &[c()])]);
    let first = unfold(c(), Some(big(v(X), v(Y))), 0, 1, &[], &[], None);
    let judge = |nodes: u32, right: Option<Term>| {
        let one = use_of(0, 0, 0, &sizes(nodes));
        let second = unfold(c(), right, 1, 1, &[], &[], Some(one));
        judge_trees(&book, &certificate(&[first.clone(), second], end()))
    };
    assert_eq!(judge(1_024, None), refused(12, 2, 1, 15));
    assert_eq!(judge(1_025, None), refused(16, 2, 1, 15));
}

#[test]
fn refusal_16_in_each_part_of_a_descent() {
    // Part 0 and part 1: the base's instance. Part 2 and 3: the rule filled.
    let book = book(&[
        rule(big(v(X), v(Y)), &[]),
        rule(c(), &[big(v(X), v(Y))]),
        rule(big(v(X), v(Y)), &[c()]),
        rule(c(), &[c()]),
    ]);
    let fact = unfold(big(v(X), v(Y)), None, 0, 0, &[], &[], None);
    let to_big = unfold(c(), Some(big(v(X), v(Y))), 1, 1, &[], &[], None);
    let to_c = unfold(c(), Some(c()), 3, 1, &[], &[], None);
    let judge = |base: Use, rule: u8, filling: &[(u8, Term)], right: Option<Term>| {
        let line = descent(c(), right, base, rule, filling);
        let lines = [fact.clone(), to_big.clone(), to_c.clone(), line];
        judge_trees(&book, &certificate(&lines, end()))
    };
    let good = || use_of(2, 0, 0, &[]);
    for (nodes, numbers) in [(1_024, [9, 12, 9, 10]), (1_025, [16; 4])] {
        let base = use_of(0, 0, 0, &sizes(nodes));
        assert_eq!(judge(base, 3, &[], None), refused(numbers[0], 2, 3, 0));
        let base = use_of(1, 0, 0, &sizes(nodes));
        assert_eq!(judge(base, 3, &[], None), refused(numbers[1], 2, 3, 1));
        let head = judge(good(), 2, &sizes(nodes), Some(c()));
        assert_eq!(head, refused(numbers[2], 2, 3, 2));
        let call = judge(good(), 1, &sizes(nodes), Some(c()));
        assert_eq!(call, refused(numbers[3], 2, 3, 3));
    }
}

#[test]
fn refusal_16_of_the_closing() {
    let book = book(&[rule(big(v(X), v(Y)), &[c()])]);
    let line = unfold(big(v(X), v(Y)), Some(c()), 0, 1, &[], &[], None);
    let judge = |nodes: u32| {
        let closing = closing(0, 3, 4, &sizes(nodes));
        judge_trees(&book, &certificate(std::slice::from_ref(&line), closing))
    };
    assert_eq!(judge(1_024), refused(15, 3, 0, 1));
    assert_eq!(judge(1_025), refused(16, 3, 0, 1));
}

#[test]
fn only_the_normal_form_is_counted() {
    // By (0,0) the powers r^{1,0} vanish and the s meet: 30 powers become one.
    let tall = (0..30).fold(
        v(X),
        |below, n| {
            if n % 2 == 0 {
                p(1, 0, 1, below)
            } else {
                p(2, 1, 0, below)
            }
        },
    );
    assert_eq!(tall.reindexed(0, 0).normal(), s(0, 15, v(X)));
    let book = book(&[rule(c(), &[big(v(X), v(Y))]), rule(big(v(X), v(Y)), &[])]);
    let fact = unfold(big(tall.clone(), v(Y)), None, 1, 0, &[(X, tall)], &[], None);
    let end_of_tower = tower(120, X);
    let filling = [(X, s(0, 15, end_of_tower.clone())), (Y, c())];
    let used = |i: u64| {
        let one = use_of(0, i, 0, &[(X, end_of_tower.clone()), (Y, c())]);
        let line = unfold(c(), None, 0, 1, &filling, &[], Some(one));
        judge_trees(&book, &certificate(&[fact.clone(), line], end()))
    };
    // 7 · 150 + 2 nodes before, 7 · 121 + 2 after: both lines are good.
    assert_eq!(used(0), refused(14, 3, 0, 0));
    assert_eq!(used(1), refused(16, 2, 1, 1));
}

#[test]
fn a_filled_side_may_shrink_below_the_limit() {
    // x is filled by a power of the same symbol as the one above it: the
    // neighbours are added up, so each argument has one node less.
    let book = book(&[rule(big(s(0, 1, v(X)), v(Y)), &[]), rule(c(), &[big(v(X), v(Y)), c()])]);
    let s_tower =
        |nodes: u32| (2..=nodes).fold(v(X), |t, n| p(1 + ((nodes - n) % 2) as u8, 0, 1, t));
    // Seven arguments s(x), x filled by s^{0,1}(...) of 128 nodes: 128 each.
    let judge = |symbol_first: bool, last: u32| {
        let x = if symbol_first { s_tower(128) } else { p(2, 0, 1, s_tower(127)) };
        let filling = [(X, x), (Y, tower(last, Y))];
        let line = unfold(c(), None, 0, 0, &filling, &[], None);
        judge_trees(&book, &certificate(&[line], end()))
    };
    assert_eq!(judge(true, 127), refused(9, 2, 0, 0));
    assert_eq!(judge(true, 128), refused(16, 2, 0, 0));
    assert_eq!(judge(false, 120), refused(9, 2, 0, 0));
    assert_eq!(judge(false, 121), refused(16, 2, 0, 0));
}
