//! Follows accepted certificates: plays the derivation that is promised, and checks
//! each step by plain matching.

use crate::Compared;
use generate::hex::hex;
use generate::random::Random;
use second::derive::{derive, replay, CannotStart, Limits};
use second::files::parse_both;
use second::replay::{Plain, PlainFilling, Token};

const LIMITS: Limits = Limits { steps: 80, nodes: 20_000, all_nodes: 40_000 };

/// How much was played.
#[derive(Default)]
pub struct Followed {
    pub derivations: usize,
    pub steps: usize,
    pub rounds: usize,
    /// Derivations whose first call is already too large to be written out.
    pub too_large: usize,
}

impl Followed {
    /// Plays an accepted certificate from three indices, each with a filling of its
    /// own: none, terms without variables, and any terms.
    pub fn follow(&mut self, book: &[u8], certificate: &[u8], random: &mut Random) -> Compared<()> {
        let words =
            |fault: &str| format!("{fault}\nbook {}\ncertificate {}", hex(book), hex(certificate));
        let (book, certificate) =
            parse_both(book, certificate).map_err(|_| words("accepted, but not well-formed"))?;
        let alpha = certificate.closing.alpha;
        let indices = [alpha, alpha + 1, alpha + random.between(0, 9)];
        let fillings = [
            PlainFilling::new(),
            any_filling(&book.arities, false, random),
            any_filling(&book.arities, true, random),
        ];
        for (index, filling) in indices.into_iter().zip(fillings) {
            match derive(&book, &certificate, index, &filling, LIMITS) {
                Err(CannotStart::TooLarge) => self.too_large += 1,
                Err(CannotStart::IndexBelowAlpha) => unreachable!("no index is below alpha"),
                Ok(played) => {
                    replay(&book, &played)
                        .map_err(|fault| words(&format!("stuck at index {index}: {fault:?}")))?;
                    self.derivations += 1;
                    self.steps += played.steps.len();
                    self.rounds += played.rounds.len();
                }
            }
        }
        Ok(())
    }
}

/// A term for every variable: up to three unary symbols over a constant or, if they
/// may stand there, a variable.
fn any_filling(arities: &[u8], with_variables: bool, random: &mut Random) -> PlainFilling {
    let of_arity = |wanted: u8| -> Vec<Token> {
        let all = arities.iter().enumerate();
        all.filter(|(_, arity)| **arity == wanted).map(|(n, _)| Token::Sym(n as u8)).collect()
    };
    let (constants, unary) = (of_arity(0), of_arity(1));
    let mut filling = PlainFilling::new();
    for name in 0..64 {
        let mut plain = Plain::new();
        if !unary.is_empty() {
            plain.extend((0..random.below(4)).map(|_| *random.pick(&unary)));
        }
        match constants.is_empty() || with_variables && random.chance(1, 2) {
            true => plain.push(Token::Var(random.between(0, 63) as u8)),
            false => plain.push(*random.pick(&constants)),
        }
        filling.insert(name, plain);
    }
    filling
}
