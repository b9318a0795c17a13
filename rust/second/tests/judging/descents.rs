//! Descents: 9, 10, 12 and 13.

use crate::common::*;
use crate::{book, c, certificate, pair};
use second::*;

/// p(s(x),z) :- p(x,y).   p(c,z) :- p(z,z).   p(c,c).
fn descent_book() -> Book {
    book(&[
        rule(pair(s(0, 1, v(X)), v(Z)), &[pair(v(X), v(Y))]),
        rule(pair(c(), v(Z)), &[pair(v(Z), v(Z))]),
        rule(pair(c(), c()), &[]),
    ])
}

/// p(s^{1,0}(c), z) → p(z,z) over p(c,z) → p(z,z).
fn descent_lines() -> [Line; 2] {
    let base = unfold(pair(c(), v(Z)), Some(pair(v(Z), v(Z))), 1, 1, &[], &[], None);
    let descends = descent(
        pair(s(1, 0, c()), v(Z)),
        Some(pair(v(Z), v(Z))),
        use_of(0, 0, 0, &[]),
        0,
        &[(X, s(1, 0, c())), (Y, v(Z))],
    );
    [base, descends]
}

fn judge_descent(change: impl Fn(&mut Line, &mut Use, &mut Filling)) -> Verdict {
    let [base, mut descends] = descent_lines();
    let Proof::Descent { base: mut one, rule, mut filling } = descends.proof.clone() else {
        panic!()
    };
    change(&mut descends, &mut one, &mut filling);
    descends.proof = Proof::Descent { base: one, rule, filling };
    judge_trees(&descent_book(), &certificate(&[base, descends], closing(1, 0, 0, &[])))
}

#[test]
fn refusals_of_a_descent() {
    // Nothing changed: the lines are good; the closing is not.
    assert_eq!(judge_descent(|_, _, _| ()), refused(15, 3, 1, 1));
    // Part 0: the base's left.
    assert_eq!(judge_descent(|_, one, _| one.filling = vec![(Z, c())]), refused(9, 2, 1, 0));
    // The base has no powers, so its index pair does not matter.
    assert_eq!(judge_descent(|_, one, _| one.i = 4_095), refused(15, 3, 1, 1));
    // Part 1: the base's right.
    assert_eq!(judge_descent(|line, _, _| line.right = None), refused(12, 2, 1, 1));
    assert_eq!(judge_descent(|line, _, _| line.right = Some(v(Z))), refused(12, 2, 1, 1));
    // Part 2: the head.
    assert_eq!(judge_descent(|_, _, filling| filling[0].1 = c()), refused(9, 2, 1, 2));
    // Part 3: the call; y is not in the head.
    assert_eq!(judge_descent(|_, _, filling| filling[1].1 = c()), refused(10, 2, 1, 3));
    // Part 4: the right changes with the index, but not at 0.
    let growing = Some(pair(v(Z), s(1, 0, v(Z))));
    assert_eq!(judge_descent(|line, _, _| line.right = growing.clone()), refused(13, 2, 1, 4));
    // 10 at part 3 stands before 13 at part 4.
    assert_eq!(
        judge_descent(|line, _, filling| {
            line.right = growing.clone();
            filling[1].1 = c();
        }),
        refused(10, 2, 1, 3)
    );
}

#[test]
fn an_empty_base_right_must_stay_empty() {
    let book = descent_book();
    let base = unfold(pair(c(), c()), None, 2, 0, &[], &[], None);
    let line = |right: Option<Term>| {
        descent(
            pair(s(1, 0, c()), c()),
            right,
            use_of(0, 2, 3, &[]),
            0,
            &[(X, s(1, 0, c())), (Y, c()), (Z, c())],
        )
    };
    let good = certificate(&[base.clone(), line(None)], closing(1, 0, 0, &[]));
    assert_eq!(judge_trees(&book, &good), refused(14, 3, 1, 0));
    let bad = certificate(&[base, line(Some(c()))], closing(1, 0, 0, &[]));
    assert_eq!(judge_trees(&book, &bad), refused(12, 2, 1, 1));
}
