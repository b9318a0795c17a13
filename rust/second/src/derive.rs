//! Plays the derivation that an accepted certificate promises.

use crate::model::{Book, Certificate, Filling, Line, Proof, Rule, Use};
use crate::replay::{check_step, Plain, PlainFilling, Query, Step, StepFault, Token};
use crate::term::Term;
use std::collections::BTreeSet;

/// Guards against blow-up.
#[derive(Clone, Copy, Debug)]
pub struct Limits {
    /// The number of steps wanted.
    pub steps: usize,
    /// The most nodes of any plain term.
    pub nodes: usize,
    /// The most nodes of all fillings together.
    pub all_nodes: usize,
}

#[derive(Clone, Copy, Debug, PartialEq, Eq)]
pub enum Ended {
    /// All steps wanted were made.
    StepLimit,
    /// A term or an index grew too large.
    TooLarge,
}

/// A new round of the closing begins: before step `step` the first call is the
/// closing's left at `index`, filled.
#[derive(Clone, Debug)]
pub struct Round {
    pub step: usize,
    pub index: u64,
    pub call: Plain,
}

#[derive(Clone, Debug)]
pub struct Derivation {
    pub start: Plain,
    pub steps: Vec<Step>,
    pub rounds: Vec<Round>,
    pub ended: Ended,
}

#[derive(Clone, Copy, Debug, PartialEq, Eq)]
pub enum CannotStart {
    /// "The accepted family is that line's left at all indices from α on."
    IndexBelowAlpha,
    TooLarge,
}

#[derive(Clone, Copy, Debug, PartialEq, Eq)]
pub enum ReplayFault {
    AtStep(usize, StepFault),
    /// The first call at the beginning of a round is not the promised one.
    AtRound(usize),
}

/// Plays the closing's line at index `n`, its variables replaced by `filling`,
/// and goes on until a limit is met. The certificate must be an accepted one.
pub fn derive(
    book: &Book,
    certificate: &Certificate,
    n: u64,
    filling: &PlainFilling,
    limits: Limits,
) -> Result<Derivation, CannotStart> {
    let closing = &certificate.closing;
    let since_alpha = n.checked_sub(closing.alpha).ok_or(CannotStart::IndexBelowAlpha)?;
    let line = &certificate.lines[usize::from(closing.line)];
    let start =
        plain_at(&line.left, n, filling, limits.nodes).map_err(|_| CannotStart::TooLarge)?;
    let mut player = Player::new(book, &certificate.lines, limits);
    let ended = player.go_on(certificate, since_alpha, filling.clone());
    Ok(Derivation { start, steps: player.steps, rounds: player.rounds, ended })
}

/// One line played to its end.
#[derive(Clone, Debug)]
pub struct LinePlayed {
    pub start: Plain,
    pub steps: Vec<Step>,
    /// The first call reached, or nothing for the empty mark.
    pub reached: Option<Plain>,
}

/// Plays one line at one index and filling: "the left call derives in one or
/// more steps a query that begins with the right call or, for the empty mark,
/// the empty query".
pub fn derive_line(
    book: &Book,
    certificate: &Certificate,
    number: usize,
    n: u64,
    filling: &PlainFilling,
    limits: Limits,
) -> Result<LinePlayed, Ended> {
    let line = &certificate.lines[number];
    let start = plain_at(&line.left, n, filling, limits.nodes)?;
    let reached = match &line.right {
        None => None,
        Some(right) => Some(plain_at(right, n, filling, limits.nodes)?),
    };
    let mut player = Player::new(book, &certificate.lines, limits);
    player.play(number, n, filling)?;
    Ok(LinePlayed { start, steps: player.steps, reached })
}

/// Checks every step and every beginning of a round; hands back the last query.
pub fn replay(book: &Book, derivation: &Derivation) -> Result<Query, ReplayFault> {
    let mut query = Query::from([derivation.start.clone()]);
    let mut rounds = derivation.rounds.iter().peekable();
    for (number, step) in derivation.steps.iter().enumerate() {
        if let Some(round) = rounds.next_if(|round| round.step == number) {
            if query.front() != Some(&round.call) {
                return Err(ReplayFault::AtRound(number));
            }
        }
        check_step(book, &mut query, step).map_err(|fault| ReplayFault::AtStep(number, fault))?;
    }
    Ok(query)
}

struct Player<'a> {
    book: &'a Book,
    lines: &'a [Line],
    limits: Limits,
    steps: Vec<Step>,
    rounds: Vec<Round>,
    spent: usize,
}

impl<'a> Player<'a> {
    fn new(book: &'a Book, lines: &'a [Line], limits: Limits) -> Player<'a> {
        Player { book, lines, limits, steps: Vec::new(), rounds: Vec::new(), spent: 0 }
    }

    /// The closing goes on for ever: right at n is left at n + k, filled. The
    /// closing's filling stands at the index counted from α, as it is not
    /// reindexed.
    fn go_on(
        &mut self,
        certificate: &Certificate,
        mut since_alpha: u64,
        mut filling: PlainFilling,
    ) -> Ended {
        let closing = &certificate.closing;
        loop {
            let round = self
                .begin_round(certificate, since_alpha, &filling)
                .and_then(|index| self.play(usize::from(closing.line), index, &filling))
                .and_then(|()| self.composed(&closing.filling, since_alpha, &filling));
            match round {
                Ok(next) => filling = next,
                Err(ended) => return ended,
            }
            match since_alpha.checked_add(closing.k) {
                Some(next) => since_alpha = next,
                None => return Ended::TooLarge,
            }
        }
    }

    fn begin_round(
        &mut self,
        certificate: &Certificate,
        since_alpha: u64,
        filling: &PlainFilling,
    ) -> Result<u64, Ended> {
        let closing = &certificate.closing;
        let index = since_alpha.checked_add(closing.alpha).ok_or(Ended::TooLarge)?;
        let left = &self.lines[usize::from(closing.line)].left;
        let call = plain_at(left, index, filling, self.limits.nodes)?;
        self.spend(call.len())?;
        self.rounds.push(Round { step: self.steps.len(), index, call });
        Ok(index)
    }

    /// Plays one line at one index and filling.
    fn play(&mut self, number: usize, n: u64, outer: &PlainFilling) -> Result<(), Ended> {
        let lines = self.lines;
        match &lines[number].proof {
            // The rule, then the uses in order.
            Proof::Unfold { rule, filling, before, last, .. } => {
                self.step(usize::from(*rule), filling, n, outer)?;
                before.iter().chain(last).try_for_each(|one| self.play_use(one, n, outer))
            }
            // The rule n times, then the base at index 0.
            Proof::Descent { base, rule, filling } => {
                for index in (0..n).rev() {
                    self.step(usize::from(*rule), filling, index, outer)?;
                }
                self.play_use(base, 0, outer)
            }
        }
    }

    fn play_use(&mut self, one: &Use, n: u64, outer: &PlainFilling) -> Result<(), Ended> {
        let index = one.i.checked_mul(n).and_then(|i| i.checked_add(one.j));
        let inner = self.composed(&one.filling, n, outer)?;
        self.play(usize::from(one.line), index.ok_or(Ended::TooLarge)?, &inner)
    }

    fn step(
        &mut self,
        rule: usize,
        filling: &Filling,
        n: u64,
        outer: &PlainFilling,
    ) -> Result<(), Ended> {
        if self.steps.len() == self.limits.steps {
            return Err(Ended::StepLimit);
        }
        let mut composed = self.composed(filling, n, outer)?;
        let names = variables_of(&self.book.rules[rule]);
        composed.retain(|name, _| names.contains(name));
        self.steps.push(Step { rule, filling: composed });
        Ok(())
    }

    /// First `filling` at index n, then `outer`.
    fn composed(
        &mut self,
        filling: &Filling,
        n: u64,
        outer: &PlainFilling,
    ) -> Result<PlainFilling, Ended> {
        let mut composed = outer.clone();
        for (name, term) in filling {
            composed.insert(*name, plain_at(term, n, outer, self.limits.nodes)?);
        }
        self.spend(composed.values().map(Vec::len).sum())?;
        Ok(composed)
    }

    fn spend(&mut self, nodes: usize) -> Result<(), Ended> {
        self.spent = self.spent.saturating_add(nodes);
        if self.spent > self.limits.all_nodes {
            Err(Ended::TooLarge)
        } else {
            Ok(())
        }
    }
}

fn variables_of(rule: &Rule) -> BTreeSet<u8> {
    let mut names = BTreeSet::new();
    rule.head.collect_variables(&mut names);
    rule.calls.iter().for_each(|call| call.collect_variables(&mut names));
    names
}

/// The plain term that a term means at index n, with its variables replaced.
pub fn plain_at(term: &Term, n: u64, filling: &PlainFilling, most: usize) -> Result<Plain, Ended> {
    let mut plain = Plain::new();
    spell_at(term, n, filling, most, &mut plain)?;
    Ok(plain)
}

fn spell_at(
    term: &Term,
    n: u64,
    filling: &PlainFilling,
    most: usize,
    plain: &mut Plain,
) -> Result<(), Ended> {
    let room = most.saturating_sub(plain.len()) as u64;
    match term {
        Term::Var(name) => {
            let own = [Token::Var(*name)];
            let tokens = filling.get(name).map_or(&own[..], Vec::as_slice);
            if tokens.len() as u64 > room {
                return Err(Ended::TooLarge);
            }
            plain.extend_from_slice(tokens);
            Ok(())
        }
        Term::Fun(symbol, arguments) => {
            if room == 0 {
                return Err(Ended::TooLarge);
            }
            plain.push(Token::Sym(*symbol));
            arguments.iter().try_for_each(|t| spell_at(t, n, filling, most, plain))
        }
        // "At index n it means s applied a·n + b times to t".
        Term::Pow { symbol, a, b, arg } => {
            let times = a.checked_mul(n).and_then(|times| times.checked_add(*b));
            let times = times.filter(|times| *times <= room).ok_or(Ended::TooLarge)?;
            plain.extend((0..times).map(|_| Token::Sym(*symbol)));
            spell_at(arg, n, filling, most, plain)
        }
    }
}
