//! Normal forms and instances, held to the plain terms that they mean.

use generate::random::Random;
use second::derive::plain_at;
use second::replay::PlainFilling;
use second::Term;

/// "Two terms mean the same at every index exactly when their normal forms are
/// equal. Agreement at 1 and at 2 is enough".
#[test]
fn normal_forms_agree_with_plain_terms() {
    let mut random = Random::new(37);
    let none = PlainFilling::new();
    let plain = |term: &Term, n: u64| plain_at(term, n, &none, 100_000).unwrap();
    let (mut same, mut different) = (0, 0);
    for _ in 0..20_000 {
        let one = raw_term(&mut random, 7);
        let other = match random.below(2) {
            0 => one.normal(),
            _ => raw_term(&mut random, 3),
        };
        let equal = one.normal() == other.normal();
        let agree = (1..=2).all(|n| plain(&one, n) == plain(&other, n));
        assert_eq!(equal, agree, "{one:?} {other:?}");
        same += usize::from(equal);
        different += usize::from(!equal);
    }
    assert!(same > 1_000 && different > 1_000);
}

/// An instance at n is the term at i·n + j, filled by the filling at n.
#[test]
fn instances_agree_with_plain_terms() {
    let mut random = Random::new(41);
    let none = PlainFilling::new();
    for _ in 0..10_000 {
        let term = raw_term(&mut random, 6);
        let filling: Vec<(u8, Term)> =
            (0..3).filter(|_| random.chance(2, 3)).map(|name| (name, Term::Var(0))).collect();
        let filling: Vec<(u8, Term)> =
            filling.into_iter().map(|(name, _)| (name, raw_term(&mut random, 4))).collect();
        let (i, j, n) = (random.between(0, 3), random.between(0, 3), random.between(0, 3));
        let instance = plain_at(&term.instance(i, j, &filling).normal(), n, &none, 1_000_000);
        let filling_at_n: PlainFilling = filling
            .iter()
            .map(|(name, term)| (*name, plain_at(term, n, &none, 1_000_000).unwrap()))
            .collect();
        assert_eq!(instance, plain_at(&term, i * n + j, &filling_at_n, 1_000_000));
    }
}

/// A term over s/1, r/1, 0/0 and f/2, normal or not.
fn raw_term(random: &mut Random, depth: usize) -> Term {
    if depth == 0 {
        return Term::Var(random.below(3) as u8);
    }
    match random.below(8) {
        0 => Term::Var(random.below(3) as u8),
        1 => Term::Fun(2, Vec::new()),
        2 => Term::Fun(3, vec![raw_term(random, depth - 1), raw_term(random, depth - 1)]),
        _ => {
            let (symbol, a, b) =
                (random.below(2) as u8, random.between(0, 2), random.between(0, 2));
            Term::pow(symbol, a, b, raw_term(random, depth - 1))
        }
    }
}
