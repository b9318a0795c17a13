//! Plain terms and an independent checker of single derivation steps. Nothing
//! here knows powers with a > 0, indices, reindexing or normal forms.

use crate::model::Book;
use crate::term::Term;
use std::collections::{BTreeMap, VecDeque};

/// One node of a plain term.
#[derive(Clone, Copy, Debug, PartialEq, Eq)]
pub enum Token {
    Var(u8),
    Sym(u8),
}

/// A plain term, its nodes written from the root down and from left to right.
/// Arities make this spelling unambiguous, so plain terms are equal exactly
/// when their spellings are.
pub type Plain = Vec<Token>;

pub type PlainFilling = BTreeMap<u8, Plain>;

/// The calls still pending, the first one in front.
pub type Query = VecDeque<Plain>;

/// A rule, by number, with a filling of its variables.
#[derive(Clone, Debug, PartialEq, Eq)]
pub struct Step {
    pub rule: usize,
    pub filling: PlainFilling,
}

#[derive(Clone, Copy, Debug, PartialEq, Eq)]
pub enum StepFault {
    NoSuchRule,
    EmptyQuery,
    /// A filling holds something that is not one whole term.
    NotATerm,
    /// The head of the rule filled is not the first call.
    HeadDiffers,
}

/// Checks that the head of the rule filled is exactly the first call, and then
/// replaces that call by the filled body. A fault changes nothing.
pub fn check_step(book: &Book, query: &mut Query, step: &Step) -> Result<(), StepFault> {
    let rule = book.rules.get(step.rule).ok_or(StepFault::NoSuchRule)?;
    let first = query.front().ok_or(StepFault::EmptyQuery)?;
    if !step.filling.values().all(|plain| is_term(plain, &book.arities)) {
        return Err(StepFault::NotATerm);
    }
    if !matches_exactly(&unrolled(&rule.head), &step.filling, first) {
        return Err(StepFault::HeadDiffers);
    }
    query.pop_front();
    for call in rule.calls.iter().rev() {
        query.push_front(plainly_filled(&unrolled(call), &step.filling));
    }
    Ok(())
}

/// Is this the spelling of exactly one term?
pub fn is_term(plain: &[Token], arities: &[u8]) -> bool {
    let mut missing = 1usize;
    for token in plain {
        if missing == 0 {
            return false;
        }
        missing -= 1;
        if let Token::Sym(symbol) = token {
            match arities.get(usize::from(*symbol)) {
                Some(arity) => missing += usize::from(*arity),
                None => return false,
            }
        }
    }
    missing == 0
}

/// How many tokens the first term of a spelling has, if it is whole.
fn first_term(tokens: &[Token], arities: &[u8]) -> Option<usize> {
    let mut missing = 1usize;
    for (place, token) in tokens.iter().enumerate() {
        missing -= 1;
        if let Token::Sym(symbol) = token {
            missing += usize::from(*arities.get(usize::from(*symbol))?);
        }
        if missing == 0 {
            return Some(place + 1);
        }
    }
    None
}

/// Does some filling turn the pattern into exactly this call? A variable takes the whole
/// term that begins where it stands, and must find the same again.
pub fn has_filling(pattern: &[Token], call: &[Token], arities: &[u8]) -> bool {
    let mut filling = PlainFilling::new();
    let mut rest = call;
    for token in pattern {
        if let (Token::Var(name), Some(length)) = (token, first_term(rest, arities)) {
            filling.entry(*name).or_insert_with(|| rest[..length].to_vec());
        }
        match rest.strip_prefix(filled_token(token, &filling)) {
            Some(after) => rest = after,
            None => return false,
        }
    }
    rest.is_empty()
}

pub fn is_ground(plain: &[Token]) -> bool {
    plain.iter().all(|token| matches!(token, Token::Sym(_)))
}

/// Walks the pattern and the call side by side.
fn matches_exactly(pattern: &[Token], filling: &PlainFilling, call: &[Token]) -> bool {
    let mut rest = call;
    for token in pattern {
        let expected = filled_token(token, filling);
        match rest.strip_prefix(expected) {
            Some(after) => rest = after,
            None => return false,
        }
    }
    rest.is_empty()
}

fn plainly_filled(pattern: &[Token], filling: &PlainFilling) -> Plain {
    pattern.iter().flat_map(|token| filled_token(token, filling)).copied().collect()
}

fn filled_token<'a>(token: &'a Token, filling: &'a PlainFilling) -> &'a [Token] {
    match token {
        Token::Var(name) => filling.get(name).map_or(std::slice::from_ref(token), Vec::as_slice),
        Token::Sym(_) => std::slice::from_ref(token),
    }
}

/// A term of a rule, whose powers have a = 0, without powers.
fn unrolled(term: &Term) -> Plain {
    let mut plain = Plain::new();
    unroll_into(term, &mut plain);
    plain
}

fn unroll_into(term: &Term, plain: &mut Plain) {
    match term {
        Term::Var(name) => plain.push(Token::Var(*name)),
        Term::Fun(symbol, arguments) => {
            plain.push(Token::Sym(*symbol));
            arguments.iter().for_each(|argument| unroll_into(argument, plain));
        }
        Term::Pow { symbol, a, b, arg } => {
            assert_eq!(*a, 0, "powers of rules have a = 0");
            (0..*b).for_each(|_| plain.push(Token::Sym(*symbol)));
            unroll_into(arg, plain);
        }
    }
}
