//! The inputs: what they hold, and that all refusals are met.

use generate::faults::{accepted, failing, GOALS};
use generate::inputs::{Inputs, Kind};
use generate::random::Random;
use generate::tally::tally;
use second::judging::check;
use second::spell::{pack_book, pack_certificate};
use second::Verdict;
use std::collections::BTreeSet;

#[test]
fn the_same_seed_gives_the_same_inputs() {
    let (mut one, mut other) = (Inputs::new(7), Inputs::new(7));
    for _ in 0..100 {
        assert_eq!(one.next_input().framed, other.next_input().framed);
    }
}

#[test]
fn accepted_shapes_are_accepted() {
    let mut random = Random::new(11);
    for _ in 0..3_000 {
        let (shape, case) = accepted(&mut random);
        let refusal = check(&case.book, &case.certificate);
        assert_eq!(refusal, Ok(()), "{shape}: {case:?}");
    }
}

#[test]
fn framed_inputs_hold_their_files() {
    let mut inputs = Inputs::new(5);
    let mut work = vec![0; 8_192];
    for _ in 0..500 {
        let input = inputs.next_input();
        let whole = second::judge_input(&input.framed, &mut work);
        let parts = second::judge(&input.book, &input.certificate, &mut work);
        if !matches!(input.kind, Kind::Frame | Kind::Long) {
            assert_eq!(whole, parts);
        }
        if let Kind::Accepted(_) = input.kind {
            assert!(matches!(whole, Verdict::Accepted { .. }));
        }
    }
}

#[test]
fn every_goal_is_met() {
    for goal in GOALS {
        let mut random = Random::new(13);
        for _ in 0..10 {
            let case = failing(goal, &mut random);
            let book = pack_book(&case.book);
            let certificate = pack_certificate(&case.certificate);
            let parsed = second::files::parse_both(&book, &certificate);
            assert_eq!(parsed, Ok((case.book, case.certificate)), "{goal:?}: well-formed");
        }
    }
}

#[test]
fn all_numbers_and_parts_are_met() {
    let tally = tally(3, 6_000);
    assert_eq!(tally.missed, 0);
    let numbers: BTreeSet<(u8, u8)> =
        tally.refused.keys().map(|(number, w, _)| (*number, *w)).collect();
    let mut wanted = BTreeSet::from([(2, 0), (2, 1), (2, 4), (3, 4), (14, 3), (15, 3), (16, 3)]);
    wanted.extend((3..=7).flat_map(|number| [(number, 0), (number, 1)]));
    wanted.extend([9, 10, 11, 12, 13, 16].map(|number| (number, 2)));
    assert_eq!(numbers, wanted);
    let parts: BTreeSet<&str> = tally.refused.keys().map(|(_, _, part)| part.as_str()).collect();
    for part in [
        "descent part 0",
        "descent part 1",
        "descent part 2",
        "descent part 3",
        "descent part 4",
        "unfold part 0",
        "unfold part j<i (j=1)",
        "unfold part j=i<m (j=1)",
        "unfold part j=i=m (j=1)",
        "unfold part 15",
        "closing part 0",
        "closing part 1",
        "descent part 0, first side",
        "descent part 1, first side",
        "descent part 2, first side",
        "descent part 3, first side",
        "unfold part 0, first side",
        "unfold part j<i (j=1), first side",
        "unfold part j<i (j=1), second side",
        "unfold part 15, second side",
        "unfold part 15, second side, right empty",
        "closing part 1, second side",
    ] {
        assert!(parts.contains(part), "{part}");
    }
}
