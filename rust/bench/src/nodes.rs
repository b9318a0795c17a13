//! How many nodes a judgement reads and builds.

use second::files::parse_both;
use second::{Book, Certificate, Filling, Line, Proof, Refusal, Term, Use};

/// The nodes of all terms in both files, also if the certificate's padding is bad.
pub fn nodes_read(book: &[u8], certificate: &[u8]) -> usize {
    let trees = parse_both(book, certificate)
        .or_else(|refusal| parse_both(book, &with_good_padding(certificate, refusal)));
    let (book, certificate) = trees.expect("all of the certificate is read");
    let rules = book.rules.iter().flat_map(|rule| rule.calls.iter().chain([&rule.head]));
    let lines = certificate.lines.iter().map(of_line).sum::<usize>();
    rules.map(Term::nodes).sum::<usize>() + lines + of_filling(&certificate.closing.filling)
}

/// For 7, A is the first bit after the last field.
fn with_good_padding(certificate: &[u8], refusal: Refusal) -> Vec<u8> {
    let mut bytes = certificate[..(refusal.a as usize).div_ceil(8)].to_vec();
    if let (Some(last), 1..) = (bytes.last_mut(), refusal.a % 8) {
        *last &= !(0xFF >> (refusal.a % 8));
    }
    bytes
}

fn of_line(line: &Line) -> usize {
    let claim = line.left.nodes() + line.right.as_ref().map_or(0, Term::nodes);
    let (filling, uses) = parts(&line.proof);
    claim + of_filling(filling) + uses.iter().map(|one| of_filling(&one.filling)).sum::<usize>()
}

fn parts(proof: &Proof) -> (&Filling, Vec<&Use>) {
    match proof {
        Proof::Unfold { filling, before, last, .. } => {
            (filling, before.iter().chain(last).collect())
        }
        Proof::Descent { base, filling, .. } => (filling, vec![base]),
    }
}

fn of_filling(filling: &Filling) -> usize {
    filling.iter().map(|(_, term)| term.nodes()).sum()
}

/// The sizes of all normal forms compared, if both files are well-formed. The inputs
/// here are accepted or refused at the end, so every comparison is made.
pub fn nodes_built(book: &[u8], certificate: &[u8]) -> usize {
    let Ok((book, certificate)) = parse_both(book, certificate) else { return 0 };
    let lines: usize =
        certificate.lines.iter().map(|line| built_for(&book, &certificate, line)).sum();
    let closing = &certificate.closing;
    let line = &certificate.lines[usize::from(closing.line)];
    let right = line.right.as_ref().map_or(0, |right| size(&right.reindexed(1, closing.alpha)));
    let left = line.left.instance(1, closing.alpha + closing.k, &closing.filling);
    lines + right + size(&left)
}

fn size(term: &Term) -> usize {
    term.normal().nodes()
}

fn built_for(book: &Book, certificate: &Certificate, line: &Line) -> usize {
    let used = |one: &Use| &certificate.lines[usize::from(one.line)];
    let left_of = |one: &Use| size(&used(one).left.instance(one.i, one.j, &one.filling));
    let right_of = |one: &Use| {
        let right = used(one).right.as_ref();
        right.map_or(0, |right| size(&right.instance(one.i, one.j, &one.filling)))
    };
    let right = line.right.as_ref().map_or(0, size);
    match &line.proof {
        Proof::Unfold { rule, stop, filling, before, last } => {
            let rule = &book.rules[usize::from(*rule)];
            let filled = |term: &Term| size(&term.filled(filling));
            let head = filled(&rule.head) + size(&line.left);
            let uses = before.iter().chain(last).zip(&rule.calls);
            let calls: usize = uses.map(|(one, call)| filled(call) + left_of(one)).sum();
            let reached = match last {
                Some(one) => right_of(one),
                None if *stop == 0 => 0,
                None => filled(&rule.calls[usize::from(*stop) - 1]),
            };
            head + calls + right + reached
        }
        Proof::Descent { base, rule, filling } => {
            let rule = &book.rules[usize::from(*rule)];
            let filled = |term: &Term| size(&term.filled(filling));
            let at_0 = |term: &Term| size(&term.reindexed(0, 0));
            let base = left_of(base) + at_0(&line.left) + right_of(base);
            let right = line.right.as_ref().map_or(0, at_0);
            let next = filled(&rule.head) + size(&line.left.reindexed(1, 1));
            base + right + next + filled(&rule.calls[0]) + size(&line.left)
        }
    }
}
