//! What is accepted runs: whole certificates, and each of their lines.

use generate::faults::accepted;
use generate::inputs::{Inputs, Kind};
use generate::random::Random;
use second::derive::{derive, derive_line, replay, CannotStart, Limits};
use second::replay::{check_step, is_ground, PlainFilling, Query, Token};
use second::Verdict;

/// 0/0 or any constant under no or two unary symbols, if there are such.
fn ground_term(arities: &[u8], random: &mut Random) -> Option<Vec<Token>> {
    let of_arity = |wanted: u8| -> Vec<u8> {
        (0..arities.len()).filter(|n| arities[*n] == wanted).map(|n| n as u8).collect()
    };
    let (constants, unary) = (of_arity(0), of_arity(1));
    let mut plain = Vec::new();
    for _ in 0..random.below(3) {
        if !unary.is_empty() {
            plain.push(Token::Sym(*random.pick(&unary)));
        }
    }
    if constants.is_empty() {
        return None;
    }
    plain.push(Token::Sym(*random.pick(&constants)));
    Some(plain)
}

#[test]
fn accepted_certificates_run() {
    let limits = Limits { steps: 300, nodes: 30_000, all_nodes: 300_000 };
    let mut random = Random::new(17);
    let mut steps = 0;
    let mut rounds = 0;
    for _ in 0..400 {
        let (shape, case) = accepted(&mut random);
        let (book, certificate) = (&case.book, &case.certificate);
        let alpha = certificate.closing.alpha;
        let mut filling = PlainFilling::new();
        for name in 0..64 {
            if let Some(plain) = ground_term(&book.arities, &mut random) {
                filling.insert(name, plain);
            }
        }
        for n in [alpha, alpha + 1, alpha + random.between(0, 9)] {
            match derive(book, certificate, n, &filling, limits) {
                Err(CannotStart::TooLarge) => continue,
                Err(other) => panic!("{other:?}"),
                Ok(played) => {
                    let query = replay(book, &played);
                    let query = query.unwrap_or_else(|fault| panic!("{shape} at {n}: {fault:?}"));
                    if filling.len() == 64 {
                        assert!(query.iter().all(|call| is_ground(call)));
                    }
                    steps += played.steps.len();
                    rounds += played.rounds.len();
                }
            }
        }
    }
    assert!(steps > 50_000 && rounds > 5_000, "{steps} steps, {rounds} rounds");
}

/// What is still accepted after damage must run as well.
#[test]
fn accepted_after_damage_runs() {
    let limits = Limits { steps: 200, nodes: 20_000, all_nodes: 200_000 };
    let mut inputs = Inputs::new(43);
    let mut work = vec![0; 8_192];
    let mut ran = 0;
    for _ in 0..4_000 {
        let input = inputs.next_input();
        let verdict = second::judge_input(&input.framed, &mut work);
        if !matches!(verdict, Verdict::Accepted { .. })
            || matches!(input.kind, Kind::Accepted(_) | Kind::Frame)
        {
            continue;
        }
        let (book, certificate) =
            second::files::parse_both(&input.book, &input.certificate).unwrap();
        for n in 0..3 {
            let n = certificate.closing.alpha + n;
            if let Ok(played) = derive(&book, &certificate, n, &PlainFilling::new(), limits) {
                replay(&book, &played).unwrap();
                ran += 1;
            }
        }
    }
    assert!(ran > 100, "{ran}");
}

#[test]
fn every_line_of_an_accepted_certificate_holds() {
    let limits = Limits { steps: 2_000, nodes: 20_000, all_nodes: 300_000 };
    let mut random = Random::new(31);
    let (mut calls, mut empty) = (0, 0);
    for _ in 0..300 {
        let (shape, case) = accepted(&mut random);
        for number in 0..case.certificate.lines.len().min(40) {
            for n in 0..3 {
                let played = derive_line(
                    &case.book,
                    &case.certificate,
                    number,
                    n,
                    &PlainFilling::new(),
                    limits,
                );
                let Ok(played) = played else { continue };
                assert!(!played.steps.is_empty());
                let mut query = Query::from([played.start]);
                for step in &played.steps {
                    let fine = check_step(&case.book, &mut query, step);
                    assert_eq!(fine, Ok(()), "{shape} line {number} at {n}");
                }
                match played.reached {
                    None => assert!(query.is_empty()),
                    reached => assert_eq!(query.front(), reached.as_ref()),
                }
                calls += usize::from(!query.is_empty());
                empty += usize::from(query.is_empty());
            }
        }
    }
    assert!(calls > 1_000 && empty > 1_000, "{calls} {empty}");
}
