//! The pairs at the edges of reading: they are what they were made for.

use generate::edged::{labels, wanted};
use generate::edges::{Edge, Edges};
use second::judging::WORK_NUMBERS;
use second::{judge, Refusal, Verdict};
use std::collections::BTreeSet;

#[test]
fn the_same_seed_gives_the_same_pairs() {
    let (mut one, mut other) = (Edges::new(7), Edges::new(7));
    for _ in 0..5 {
        for (one, other) in one.next_batch().iter().zip(&other.next_batch()) {
            assert_eq!((&one.book, &one.certificate), (&other.book, &other.certificate));
        }
    }
}

/// Which refusal it must be, of the book (0) or the certificate (1); nothing if it is
/// accepted.
fn expected(edge: Edge) -> Option<(u8, Option<u8>)> {
    match edge {
        Edge::Whole | Edge::Last(..) => None,
        Edge::Cut => Some((3, None)),
        Edge::NoRules(_) | Edge::NoSymbol(_) => Some((4, Some(1))),
        Edge::NothingBehind(_) => Some((3, Some(0))),
        Edge::TooManyArguments(_) => Some((4, Some(0))),
        Edge::Ones(_) | Edge::Flipped => Some((0, None)),
    }
}

#[test]
fn each_pair_is_answered_as_it_was_made() {
    let mut edges = Edges::new(1);
    let mut work = vec![0; WORK_NUMBERS];
    let mut met = BTreeSet::new();
    for _ in 0..300 {
        for edged in edges.next_batch() {
            let verdict = judge(&edged.book, &edged.certificate, &mut work);
            met.extend(labels(&edged, &verdict));
            match (expected(edged.edge), verdict) {
                (None, Verdict::Accepted { .. }) | (Some((0, _)), _) => (),
                (Some((number, w)), Verdict::Refused(Refusal { number: found, w: place, .. }))
                    if number == found && w.is_none_or(|w| w == place) => {}
                (_, verdict) => panic!("{edged:02x?}: {verdict:?}"),
            }
        }
    }
    let missing: Vec<String> = wanted().into_iter().filter(|label| !met.contains(label)).collect();
    assert!(missing.is_empty(), "{missing:?}");
}
