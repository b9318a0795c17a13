//! Derivations played from accepted certificates and checked step by step.

mod common;
use common::*;
use second::derive::*;
use second::replay::*;

const LIMITS: Limits = Limits { steps: 500, nodes: 4_000, all_nodes: 4_000_000 };

fn number(n: usize) -> Plain {
    let mut plain = vec![Token::Sym(S); n];
    plain.push(Token::Sym(ZERO));
    plain
}

#[test]
fn the_paper_s_loop_runs() {
    let (book, certificate) = (book_w(), certificate_w());
    for n in 1..4 {
        for size in 0..3 {
            let filling = PlainFilling::from([(X, number(size))]);
            let played = derive(&book, &certificate, n, &filling, LIMITS).unwrap();
            assert_eq!(played.start[0], Token::Sym(WHILE));
            assert!(played.steps.len() > 20);
            assert!(played.rounds.len() > 3);
            let query = replay(&book, &played).unwrap();
            assert!(query.iter().all(|call| is_ground(call) && is_term(call, &book.arities)));
        }
    }
    let start = derive(&book, &certificate, 0, &PlainFilling::new(), LIMITS);
    assert_eq!(start.unwrap_err(), CannotStart::IndexBelowAlpha);
}

#[test]
fn steps_of_the_paper_s_example_2() {
    // while(s²(0), s(0)): gt twice (one descent step, one fact), then add.
    let filling = PlainFilling::from([(X, number(0))]);
    let played = derive(&book_w(), &certificate_w(), 1, &filling, LIMITS).unwrap();
    let rules: Vec<usize> = played.steps.iter().map(|step| step.rule).collect();
    assert_eq!(rules[..6], [4, 1, 0, 3, 2, 4]);
    assert_eq!(rules[6..13], [1, 1, 0, 3, 3, 2, 4]);
    assert_eq!(played.rounds[1].index, 2);
}

#[test]
fn a_changed_step_is_caught() {
    let book = book_w();
    let filling = PlainFilling::from([(X, number(0))]);
    let played = derive(&book, &certificate_w(), 1, &filling, LIMITS).unwrap();
    for place in 0..12 {
        let mut changed = played.clone();
        changed.steps[place].rule = (changed.steps[place].rule + 1) % 5;
        assert!(replay(&book, &changed).is_err());
        let mut changed = played.clone();
        if changed.steps[place].filling.is_empty() {
            continue;
        }
        let name = *changed.steps[place].filling.keys().next().unwrap();
        changed.steps[place].filling.insert(name, number(40));
        assert_eq!(
            replay(&book, &changed).unwrap_err(),
            ReplayFault::AtStep(place, StepFault::HeadDiffers)
        );
    }
}

#[test]
fn the_checker_alone() {
    let book = book_w();
    let call = [&[Token::Sym(GT)][..], &number(1), &number(0)].concat();
    let mut query = Query::from([call.clone()]);
    let step = |rule, x: Plain| Step { rule, filling: PlainFilling::from([(X, x)]) };
    assert_eq!(check_step(&book, &mut query, &step(9, number(0))), Err(StepFault::NoSuchRule));
    assert_eq!(check_step(&book, &mut query, &step(0, number(1))), Err(StepFault::HeadDiffers));
    assert_eq!(check_step(&book, &mut query, &step(0, vec![])), Err(StepFault::NotATerm));
    let two = [number(0), number(0)].concat();
    assert_eq!(check_step(&book, &mut query, &step(0, two)), Err(StepFault::NotATerm));
    assert_eq!(query, Query::from([call]));
    assert_eq!(check_step(&book, &mut query, &step(0, number(0))), Ok(()));
    assert_eq!(check_step(&book, &mut query, &step(0, number(0))), Err(StepFault::EmptyQuery));
}

#[test]
fn limits_are_kept() {
    let filling = PlainFilling::from([(X, number(0))]);
    let tight = Limits { steps: 3, ..LIMITS };
    let played = derive(&book_w(), &certificate_w(), 1, &filling, tight).unwrap();
    assert_eq!((played.steps.len(), played.ended), (3, Ended::StepLimit));
    let small = Limits { nodes: 20, steps: 100_000, ..LIMITS };
    let played = derive(&book_w(), &certificate_w(), 1, &filling, small).unwrap();
    assert_eq!(played.ended, Ended::TooLarge);
    replay(&book_w(), &played).unwrap();
    let far = derive(&book_w(), &certificate_w(), u64::MAX, &filling, LIMITS);
    assert_eq!(far.unwrap_err(), CannotStart::TooLarge);
}
