//! Calls: what they meet, and that plain terms say the same.

use generate::asked::{tally_of_calls, wanted};
use generate::calls::{Calls, Made};
use second::covering::is_call_at;
use second::derive::plain_at;
use second::files::{parse_both, parse_call};
use second::judging::check;
use second::replay::{has_filling, PlainFilling};

#[test]
fn all_answers_are_met() {
    let met = tally_of_calls(3, 4_000);
    for label in wanted() {
        assert!(met.contains_key(&label), "{label}");
    }
    // What was made to be covered is.
    for made in [Made::Within, Made::Joining] {
        assert!(!met.contains_key(&format!("17, made as {made:?}")), "{made:?}");
    }
}

#[test]
fn the_same_seed_gives_the_same_calls() {
    let (mut one, mut other) = (Calls::new(7), Calls::new(7));
    for _ in 0..100 {
        let (one, other) = (one.next_call(), other.next_call());
        assert_eq!((one.made, one.call), (other.made, other.call));
        assert_eq!((one.book, one.certificate), (other.book, other.certificate));
    }
}

/// At the first indices from α on the pattern is the call exactly if the plain terms that
/// both mean match.
#[test]
fn matching_agrees_with_plain_terms() {
    let none = PlainFilling::new();
    let (mut same, mut different) = (0, 0);
    let mut calls = Calls::new(29);
    for _ in 0..2_000 {
        let asking = calls.next_call();
        let Ok((book, certificate)) = parse_both(&asking.book, &asking.certificate) else {
            continue;
        };
        let Ok(call) = parse_call(&book, &asking.call) else { continue };
        let Ok(plain) = plain_at(&call, 0, &none, 500) else { continue };
        if check(&book, &certificate).is_err() {
            continue;
        }
        let closing = &certificate.closing;
        let pattern = &certificate.lines[usize::from(closing.line)].left;
        for index in closing.alpha..closing.alpha + 6 {
            // A pattern that is too large for this is larger than the call.
            let at_index = plain_at(pattern, index, &none, 500);
            let expected = at_index.is_ok_and(|p| has_filling(&p, &plain, &book.arities));
            assert_eq!(is_call_at(pattern, index, &call), expected, "{pattern:?} {index} {call:?}");
            same += usize::from(expected);
            different += usize::from(!expected);
        }
    }
    assert!(same > 500 && different > 500, "{same} {different}");
}
