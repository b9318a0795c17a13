//! The checks of lines and of the closing, in the document's order.

use crate::build::{Side, AS_IT_IS};
use crate::filling::Filling;
use crate::node::{is_level, pair};
use crate::store::{Closing, Entries, Kind, Line, Rule, Span, Store, Use};

/// A check that is not met: its number and its part.
#[derive(Clone, Copy)]
pub struct Unmet {
    pub number: u8,
    pub part: u32,
}

type Checked = Result<(), Unmet>;

/// The part in which an unfold's right is compared.
const RIGHT_PART: u32 = 15;

/// Where sides are built and fillings indexed.
pub struct Table {
    first: Side,
    second: Side,
    /// The filling of the line, and that of a use or of the closing.
    own: Filling,
    used: Filling,
    none: Filling,
}

/// A term to be reindexed by a pair, and the filling that it then gets.
#[derive(Clone, Copy)]
enum Subject {
    Plain(Span, u64),
    /// A rule's head or call, filled by the line's own filling.
    Own(Span),
    /// Filled by the filling of the use or of the closing.
    Used(Span, u64),
}

fn demand(good: bool, number: u8, part: u32) -> Checked {
    match good {
        true => Ok(()),
        false => Err(Unmet { number, part }),
    }
}

impl Table {
    pub fn new() -> Table {
        let [own, used, none] = [(); 3].map(|()| Filling::new());
        Table { first: Side::new(), second: Side::new(), own, used, none }
    }

    pub fn line(&mut self, store: &Store, line: &Line) -> Checked {
        let proof = &line.proof;
        self.own.set(store.entries(proof.filling));
        let uses = &store.uses[proof.first_use as usize..][..proof.uses as usize];
        let rule = store.rules[usize::from(proof.rule)];
        match proof.kind {
            Kind::Unfold { stop } => self.unfold(store, line, rule, stop, uses),
            Kind::Descent => self.descent(store, line, rule, &uses[0]),
        }
    }

    fn unfold(
        &mut self,
        store: &Store,
        line: &Line,
        rule: Rule,
        stop: u32,
        uses: &[Use],
    ) -> Checked {
        let head = Subject::Own(store.call(rule, 0));
        self.compare(store, head, Subject::Plain(line.left, AS_IT_IS), 9, 0)?;
        for (j, one) in (1..).zip(uses) {
            let left = self.used_left(store, rule, stop, j, one)?;
            self.compare(store, Subject::Own(store.call(rule, j)), left, 10, j)?;
        }
        let reached = match uses.last() {
            _ if rule.calls == 0 => Subject::Plain(Span::default(), AS_IT_IS),
            Some(one) if uses.len() as u32 == stop => {
                Subject::Used(store.lines[usize::from(one.line)].right, one.pair)
            }
            _ => Subject::Own(store.call(rule, stop)),
        };
        self.compare(store, Subject::Plain(line.right, AS_IT_IS), reached, 12, RIGHT_PART)
    }

    /// "For j < i the used line's right must be empty; for j = i < m it must not be; else
    /// 11." Then the instance of the used left.
    fn used_left(
        &mut self,
        store: &Store,
        rule: Rule,
        stop: u32,
        j: u32,
        one: &Use,
    ) -> Result<Subject, Unmet> {
        let used = &store.lines[usize::from(one.line)];
        let is_empty = used.right.length == 0;
        let good = if j < stop { is_empty } else { j == rule.calls || !is_empty };
        demand(good, 11, j)?;
        self.fill_used(store, one.filling);
        Ok(Subject::Used(used.left, one.pair))
    }

    fn descent(&mut self, store: &Store, line: &Line, rule: Rule, base: &Use) -> Checked {
        let used = &store.lines[usize::from(base.line)];
        self.fill_used(store, base.filling);
        let at_0 = pair(0, 0);
        let (left, right) =
            (Subject::Used(used.left, base.pair), Subject::Used(used.right, base.pair));
        self.compare(store, left, Subject::Plain(line.left, at_0), 9, 0)?;
        self.compare(store, right, Subject::Plain(line.right, at_0), 12, 1)?;
        let (head, call) = (Subject::Own(store.call(rule, 0)), Subject::Own(store.call(rule, 1)));
        self.compare(store, head, Subject::Plain(line.left, pair(1, 1)), 9, 2)?;
        self.compare(store, call, Subject::Plain(line.left, AS_IT_IS), 10, 3)?;
        let level = store.term(line.right).iter().all(|node| is_level(*node));
        demand(level, 13, 4)
    }

    pub fn closing(&mut self, store: &Store, closing: &Closing) -> Checked {
        let line = &store.lines[usize::from(closing.line)];
        demand(line.right.length != 0, 14, 0)?;
        self.fill_used(store, closing.filling);
        let (alpha, k) = (u64::from(closing.alpha), u64::from(closing.k));
        let right = Subject::Plain(line.right, pair(1, alpha));
        let left = Subject::Used(line.left, pair(1, alpha + k));
        self.compare(store, right, left, 15, 1)
    }

    fn fill_used(&mut self, store: &Store, filling: Entries) {
        self.used.set(store.entries(filling));
    }

    /// 16 at this part if a side is too large, `otherwise` if they differ. The empty mark
    /// has no nodes, and so it "equals only itself".
    fn compare(
        &mut self,
        store: &Store,
        first: Subject,
        second: Subject,
        otherwise: u8,
        part: u32,
    ) -> Checked {
        let fillings = (&self.own, &self.used, &self.none);
        let first = built(&mut self.first, store, first, fillings);
        let second = built(&mut self.second, store, second, fillings);
        match first.zip(second) {
            None => Err(Unmet { number: 16, part }),
            Some((first, second)) => demand(first == second, otherwise, part),
        }
    }
}

fn built<'a>(
    side: &'a mut Side,
    store: &'a Store,
    subject: Subject,
    (own, used, none): (&Filling, &Filling, &Filling),
) -> Option<&'a [u64]> {
    match subject {
        Subject::Plain(term, pair) => side.instance(store, term, pair, none),
        Subject::Own(term) => side.instance(store, term, AS_IT_IS, own),
        Subject::Used(term, pair) => side.instance(store, term, pair, used),
    }
}
