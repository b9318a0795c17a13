//! The comparisons that a judgement makes, in their order, each with both of its sides.

use second::{Book, Certificate, Filling, Line, Proof, Term, Use, Verdict};

/// A pattern that is reindexed and then filled.
#[derive(Clone, Copy)]
pub struct Instance<'a> {
    pub pattern: &'a Term,
    pub i: u64,
    pub j: u64,
    pub filling: &'a [(u8, Term)],
}

impl Instance<'_> {
    pub fn term(&self) -> Term {
        self.pattern.instance(self.i, self.j, &self.filling.to_vec())
    }
}

/// One comparison; an empty side is nothing.
pub struct Comparison<'a> {
    /// `unfold`, `descent` or `closing`.
    pub of: &'static str,
    pub part: u64,
    pub first: Option<Instance<'a>>,
    pub second: Option<Instance<'a>>,
}

/// What a judgement compared.
pub struct Compared<'a> {
    /// The comparisons that held, by line, then those of the closing.
    pub held: Vec<Vec<Comparison<'a>>>,
    /// The one at which a refusal was given, if it was a comparison that was refused.
    pub refused: Option<Comparison<'a>>,
}

fn as_it_is(term: &Term) -> Instance<'_> {
    reindexed(term, 1, 0)
}

fn reindexed(pattern: &Term, i: u64, j: u64) -> Instance<'_> {
    Instance { pattern, i, j, filling: &[] }
}

fn filled<'a>(pattern: &'a Term, filling: &'a Filling) -> Instance<'a> {
    Instance { pattern, i: 1, j: 0, filling }
}

fn used<'a>(pattern: &'a Term, one: &'a Use) -> Instance<'a> {
    Instance { pattern, i: one.i, j: one.j, filling: &one.filling }
}

/// The comparisons of one line, if all of them are made.
fn of_line<'a>(book: &'a Book, lines: &'a [Line], line: &'a Line) -> Vec<Comparison<'a>> {
    let used_line = |one: &Use| &lines[usize::from(one.line)];
    let used_right = |one: &'a Use| used_line(one).right.as_ref().map(|right| used(right, one));
    match &line.proof {
        Proof::Unfold { rule, stop, filling, before, last } => {
            let rule = &book.rules[usize::from(*rule)];
            let compared = |part, first, second| Comparison { of: "unfold", part, first, second };
            let head = Some(filled(&rule.head, filling));
            let mut all = vec![compared(0, head, Some(as_it_is(&line.left)))];
            for ((part, one), call) in (1..).zip(before.iter().chain(last)).zip(&rule.calls) {
                let left = Some(used(&used_line(one).left, one));
                all.push(compared(part, Some(filled(call, filling)), left));
            }
            let reached = match last {
                _ if rule.calls.is_empty() => None,
                None => Some(filled(&rule.calls[usize::from(*stop) - 1], filling)),
                Some(one) => used_right(one),
            };
            all.push(compared(15, line.right.as_ref().map(as_it_is), reached));
            all
        }
        Proof::Descent { base, rule, filling } => {
            let rule = &book.rules[usize::from(*rule)];
            let right = line.right.as_ref().map(|right| reindexed(right, 0, 0));
            let sides = [
                (Some(used(&used_line(base).left, base)), Some(reindexed(&line.left, 0, 0))),
                (used_right(base), right),
                (Some(filled(&rule.head, filling)), Some(reindexed(&line.left, 1, 1))),
                (Some(filled(&rule.calls[0], filling)), Some(as_it_is(&line.left))),
            ];
            let numbered = (0..).zip(sides);
            numbered
                .map(|(part, (first, second))| Comparison { of: "descent", part, first, second })
                .collect()
        }
    }
}

fn of_closing(certificate: &Certificate) -> Vec<Comparison<'_>> {
    let closing = &certificate.closing;
    let line = &certificate.lines[usize::from(closing.line)];
    let (alpha, step) = (closing.alpha, closing.alpha + closing.k);
    let Some(right) = &line.right else { return Vec::new() };
    let second = Instance { pattern: &line.left, i: 1, j: step, filling: &closing.filling };
    let first = Some(reindexed(right, 1, alpha));
    vec![Comparison { of: "closing", part: 1, first, second: Some(second) }]
}

/// What was compared up to the verdict, which is that of these trees.
pub fn compared<'a>(
    book: &'a Book,
    certificate: &'a Certificate,
    verdict: &Verdict,
) -> Compared<'a> {
    let lines = &certificate.lines;
    let mut compared = Compared { held: Vec::new(), refused: None };
    for (number, line) in (0..).zip(lines) {
        let mut all = of_line(book, lines, line);
        match verdict {
            Verdict::Refused(refusal) if (refusal.w, refusal.a) == (2, number) => {
                let made = all.iter().take_while(|one| one.part < refusal.b).count();
                let mut rest = all.split_off(made).into_iter();
                if !matches!(refusal.number, 11 | 13) {
                    compared.refused = rest.next();
                }
                compared.held.push(all);
                return compared;
            }
            _ => compared.held.push(all),
        }
    }
    let closing = of_closing(certificate);
    match verdict {
        Verdict::Refused(_) => compared.refused = closing.into_iter().next(),
        Verdict::Accepted { .. } => compared.held.push(closing),
    }
    compared
}
