//! Is a call in the accepted family? Small cases by hand, and all small ones
//! beside plain terms.

mod common;

use common::*;
use second::covering::{is_call_at, smallest_index, LAST_INDEX};
use second::derive::plain_at;
use second::files::parse_call;
use second::replay::{has_filling, Plain, PlainFilling};
use second::spell::{call_fields, pack, pack_book, pack_call, pack_certificate, Field};
use second::*;

/// An answer over book W and its certificate, whose pattern is
/// while(s^{1,1}(x), s^{1,0}(0)), from 1 on.
fn over_w(call: &[u8]) -> Coverage {
    let mut work = vec![7; 8_192];
    let files = (pack_book(&book_w()), pack_certificate(&certificate_w()));
    let coverage = covers(&files.0, &files.1, call, &mut work);
    assert!(work.iter().all(|number| *number == 0));
    coverage
}

fn loop_at(one: Term, other: Term) -> Term {
    f(WHILE, &[one, other])
}

fn refused(number: u8, w: u8, a: u64) -> Coverage {
    Coverage::Refused(Refusal::new(number, w, a, 0))
}

#[test]
fn calls_of_the_paper() {
    let of = |times: u64, other: u64| loop_at(s(0, times, zero()), s(0, other, zero()));
    for index in [1, 2, 7, 4_093] {
        assert_eq!(over_w(&pack_call(&of(index + 1, index))), Coverage::Covered { index });
        assert_eq!(over_w(&pack_call(&of(index + 2, index))), Coverage::Covered { index });
        assert_eq!(over_w(&pack_call(&of(index, index))), refused(17, 4, 0));
    }
    // s^{1,1}(x) has 4,096 symbols at index 4,095.
    assert_eq!(over_w(&pack_call(&of(4_095, 4_095))), refused(17, 4, 0));
    // At 0 it would be covered, but the family starts at 1.
    assert_eq!(over_w(&pack_call(&loop_at(s(0, 1, v(X)), zero()))), refused(17, 4, 0));
    assert_eq!(over_w(&pack_call(&v(X))), refused(17, 4, 0));
}

#[test]
fn a_call_is_read_as_a_file() {
    let good = loop_at(s(0, 2, v(X)), s(0, 1, zero()));
    let whole = pack_call(&good);
    assert_eq!(parse_call(&book_w(), &whole), Ok(good.clone()));
    let changed = |place: usize, value: u16| {
        let mut fields = call_fields(&good);
        fields[place].value = value;
        over_w(&pack(&fields))
    };
    assert_eq!(changed(0, 3), refused(4, 5, 0));
    assert_eq!(changed(1, 6), refused(4, 5, 2));
    assert_eq!(changed(1, u16::from(S)), refused(4, 5, 2));
    assert_eq!(changed(3, u16::from(ZERO)), refused(4, 5, 12));
    assert_eq!(changed(4, 1), refused(4, 5, 20));
    assert_eq!(changed(5, 0), refused(5, 5, 32));
    let twice = loop_at(s(0, 1, s(0, 1, v(X))), zero());
    assert_eq!(over_w(&pack_call(&twice)), refused(5, 5, 46));
    assert_eq!(over_w(&[]), refused(3, 5, 0));
    assert_eq!(over_w(&whole[..whole.len() - 1]), refused(3, 5, 88));
    let after = call_fields(&good).iter().map(|field| u64::from(field.width)).sum();
    assert_eq!(over_w(&[&whole[..], &[0]].concat()), refused(7, 5, after));
    assert_eq!(over_w(&[&whole[..], &[0; 60_000]].concat()), refused(7, 5, after));
    let mut padded = call_fields(&good);
    padded.push(Field { value: 1, width: 8 - (after % 8) as u32 });
    assert_eq!(over_w(&pack(&padded)), refused(7, 5, after));
}

#[test]
fn one_node_more_than_256() {
    let tower = |nodes: usize| (1..nodes).fold(v(X), |t, n| p([S, R][n % 2], 0, 1, t));
    assert_eq!(over_w(&pack_call(&tower(256))), refused(17, 4, 0));
    assert_eq!(over_w(&pack_call(&tower(257))), refused(6, 5, 256 * 34));
}

#[test]
fn the_judge_comes_first() {
    let book = pack_book(&book_w());
    let mut certificate = pack_certificate(&certificate_w());
    let mut work = vec![7; 8_191];
    assert_eq!(covers(&[], &[], &[], &mut work), refused(1, 4, 0));
    assert!(work.iter().all(|number| *number == 7));
    certificate.pop();
    let mut work = vec![7; 9_000];
    let coverage = covers(&book, &certificate, &[], &mut work);
    let verdict = judge(&book, &certificate, &mut vec![0; 8_192]);
    assert_eq!(coverage_line(&coverage), verdict_line(&verdict));
    assert!(work.iter().all(|number| *number == 0));
}

/// f(x, x), f(s^{1,0}(x), x) and others, from α = 0 on.
#[test]
fn variables_stand_for_one_term() {
    let pair = |one: Term, other: Term| f(GT, &[one, other]);
    let at = |pattern: &Term, call: Term| smallest_index(pattern, 0, &call);
    let same = pair(v(X), v(X));
    assert_eq!(at(&same, pair(s(0, 2, v(Y)), s(0, 2, v(Y)))), Some(0));
    assert_eq!(at(&same, pair(s(0, 2, v(Y)), s(0, 2, v(X)))), None);
    // The call's variables are its own.
    assert_eq!(at(&pair(v(X), v(Y)), pair(v(Y), v(X))), Some(0));
    assert_eq!(at(&pair(v(X), s(0, 1, v(X))), pair(v(Y), s(0, 1, v(X)))), None);
    // What x stands for lies inside a power.
    let later = pair(s(1, 0, v(X)), v(X));
    assert_eq!(at(&later, pair(s(0, 9, zero()), s(0, 4, zero()))), Some(5));
    assert_eq!(at(&later, pair(s(0, 4, zero()), s(0, 9, zero()))), None);
}

/// r^{1,0} vanishes at 0, and what stood around it joins.
#[test]
fn index_0_has_a_shape_of_its_own() {
    let pattern = s(0, 1, p(R, 1, 0, s(0, 2, zero())));
    assert_eq!(smallest_index(&pattern, 0, &s(0, 3, zero())), Some(0));
    assert_eq!(smallest_index(&pattern, 1, &s(0, 3, zero())), None);
    let at_2 = s(0, 1, p(R, 0, 2, s(0, 2, zero())));
    assert_eq!(smallest_index(&pattern, 0, &at_2), Some(2));
    assert_eq!(smallest_index(&pattern, 3, &at_2), None);
}

#[test]
fn without_an_index_alpha_is_the_answer() {
    for alpha in [0, 5, 4_095] {
        assert_eq!(smallest_index(&s(0, 1, v(X)), alpha, &s(0, 3, v(X))), Some(alpha));
        assert_eq!(smallest_index(&s(0, 4, v(X)), alpha, &s(0, 3, v(X))), None);
    }
}

/// 4,095 is reached, and no index above it covers a call of a file.
#[test]
fn the_bound_is_reached_and_not_passed() {
    for (pattern, call) in [
        (s(1, 0, zero()), s(0, 4_095, zero())),
        (s(1, 0, v(X)), s(0, 4_095, v(Y))),
        (f(GT, &[s(1, 0, v(X)), v(X)]), f(GT, &[s(0, 4_095, v(Y)), v(Y)])),
    ] {
        assert_eq!(smallest_index(&pattern, LAST_INDEX, &call), Some(LAST_INDEX));
        assert!((LAST_INDEX + 1..9_000).all(|index| !is_call_at(&pattern, index, &call)));
    }
}

// ---- all small patterns and calls, by plain terms

/// All terms so deep over gt/2, s/1, r/1, 0/0, x and y with these powers.
fn terms(depth: usize, powers: &[(u64, u64)]) -> Vec<Term> {
    let mut found = vec![zero(), v(X), v(Y)];
    if depth == 0 {
        return found;
    }
    let below = terms(depth - 1, powers);
    for (a, b) in powers {
        for symbol in [S, R] {
            found.extend(below.iter().map(|t| p(symbol, *a, *b, t.clone())));
        }
    }
    if depth == 1 {
        found.extend(
            below.iter().flat_map(|t| below.iter().map(|u| f(GT, &[t.clone(), u.clone()]))),
        );
    }
    found.retain(|t| t.normal() == *t);
    found
}

/// At every index the same answer, also far beyond the call's largest exponent,
/// where none covers it.
#[test]
fn all_small_cases_agree_with_plain_terms() {
    let none = PlainFilling::new();
    let plain = |term: &Term, index: u64| plain_at(term, index, &none, 1_000).unwrap();
    let patterns = terms(2, &[(0, 1), (1, 0), (2, 1)]);
    let calls: Vec<(Term, Plain)> =
        terms(2, &[(0, 1), (0, 3)]).into_iter().map(|t| (t.clone(), plain(&t, 0))).collect();
    let arities = book_w().arities;
    let largest = 3;
    let mut met = [0; 10];
    for pattern in &patterns {
        let steady = pattern.is_constant_in_the_index();
        for (index, count) in met.iter_mut().enumerate() {
            let at_index = plain(pattern, index as u64);
            for (call, spelled) in &calls {
                let expected = has_filling(&at_index, spelled, &arities);
                let found = is_call_at(pattern, index as u64, call);
                assert_eq!(found, expected, "{pattern:?} at {index}, {call:?}");
                *count += usize::from(found && !steady);
            }
        }
    }
    assert!(met[..=largest].iter().all(|count| *count > 50), "{met:?}");
    assert!(met[largest + 1..].iter().all(|count| *count == 0), "{met:?}");
}
