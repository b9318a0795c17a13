//! What is worth knowing of the comparisons of a judgement: where the sides part, how large
//! they are, and which powers of the second side meet.

use crate::comparisons::{compared, Comparison, Instance};
use crate::sides::join;
use second::files::parse_both;
use second::judging::SIDE_NODES;
use second::{Refusal, Term, Verdict};
use std::collections::BTreeSet;

/// A node of a term without what stands below it.
#[derive(Clone, Copy, PartialEq, Eq)]
enum Node {
    Var(u8),
    Fun(u8),
    Pow(u8, u64, u64),
}

fn nodes_of(term: &Term) -> Vec<Node> {
    fn add(term: &Term, nodes: &mut Vec<Node>) {
        match term {
            Term::Var(name) => nodes.push(Node::Var(*name)),
            Term::Fun(symbol, arguments) => {
                nodes.push(Node::Fun(*symbol));
                arguments.iter().for_each(|argument| add(argument, nodes));
            }
            Term::Pow { symbol, a, b, arg } => {
                nodes.push(Node::Pow(*symbol, *a, *b));
                add(arg, nodes);
            }
        }
    }
    let mut nodes = Vec::new();
    add(term, &mut nodes);
    nodes
}

/// Which powers of an instance meet.
#[derive(Default)]
struct Meeting {
    over_a_vanished_power: bool,
    with_the_filling: bool,
    root_vanishes: bool,
}

fn meeting(instance: &Instance) -> Meeting {
    let mut met = Meeting::default();
    meet(instance, instance.pattern, None, &mut met);
    if let Term::Pow { a, b, .. } = instance.pattern {
        met.root_vanishes = a * instance.i == 0 && a * instance.j + b == 0;
    }
    met
}

/// `above` is the symbol of the power above, and whether one has vanished since.
fn meet(instance: &Instance, term: &Term, above: Option<(u8, bool)>, met: &mut Meeting) {
    match term {
        Term::Var(name) => {
            let term = instance.filling.iter().find(|(variable, _)| variable == name);
            if let (Some((_, Term::Pow { symbol, .. })), Some((like, vanished))) = (term, above) {
                met.with_the_filling |= *symbol == like;
                met.over_a_vanished_power |= *symbol == like && vanished;
            }
        }
        Term::Fun(_, arguments) => {
            arguments.iter().for_each(|argument| meet(instance, argument, None, met));
        }
        Term::Pow { symbol, a, b, arg } => {
            let vanishes = a * instance.i == 0 && a * instance.j + b == 0;
            if vanishes {
                return meet(instance, arg, above.map(|(symbol, _)| (symbol, true)), met);
            }
            met.over_a_vanished_power |= above == Some((*symbol, true));
            meet(instance, arg, Some((*symbol, false)), met);
        }
    }
}

/// How many bits a term takes in a file.
fn bits_of(term: &Term) -> usize {
    match term {
        Term::Var(_) => 8,
        Term::Fun(_, arguments) => 10 + arguments.iter().map(bits_of).sum::<usize>(),
        Term::Pow { arg, .. } => 34 + bits_of(arg),
    }
}

/// All labels of a judgement of these files.
pub fn labels(book: &[u8], certificate: &[u8], verdict: &Verdict) -> BTreeSet<String> {
    let mut labels = BTreeSet::new();
    let number = match verdict {
        Verdict::Refused(Refusal { number, .. }) if *number < 9 => return labels,
        Verdict::Refused(Refusal { number, .. }) => *number,
        Verdict::Accepted { .. } => 0,
    };
    let (book, certificate) = parse_both(book, certificate).expect("the files are well-formed");
    let compared = compared(&book, &certificate, verdict);
    for held in &compared.held {
        held.iter().for_each(|one| holding(one, &mut labels));
        for two in held.windows(2) {
            behind_another_length(&two[0], &two[1], &mut labels);
        }
    }
    match compared.refused {
        Some(one) if number == 16 => large(&one, &mut labels),
        Some(one) => differing(&one, &mut labels),
        None => (),
    }
    labels
}

fn holding(one: &Comparison, labels: &mut BTreeSet<String>) {
    let Some(second) = &one.second else { return };
    let met = meeting(second);
    let known = [
        ("met over a vanished power", met.over_a_vanished_power),
        ("met its filling", met.with_the_filling),
        ("vanished at its root", met.root_vanishes),
    ];
    let known = known.into_iter().filter(|(_, known)| *known);
    labels.extend(known.map(|(label, _)| format!("equal, second side {label}")));
    let whole = second.term();
    if whole.nodes() >= SIDE_NODES && whole.normal().nodes() == SIDE_NODES {
        labels.insert("equal, both sides of 1,024".to_string());
    }
}

/// Two calls of a rule, of which the second is found behind the first.
fn behind_another_length(one: &Comparison, next: &Comparison, labels: &mut BTreeSet<String>) {
    if one.of != "unfold" || one.part == 0 || next.part == 15 {
        return;
    }
    let length = |side: &Option<Instance>| side.map_or(0, |side| bits_of(side.pattern));
    let (first, second) = (length(&one.first), length(&one.second));
    if first != second {
        let how = if first < second { "shorter" } else { "longer" };
        labels.insert(format!("equal, behind a call {how} than what it was compared with"));
    }
}

fn differing(one: &Comparison, labels: &mut BTreeSet<String>) {
    let of = one.of;
    let (first, second) = match (&one.first, &one.second) {
        (Some(first), Some(second)) => (first.term().normal(), second),
        (None, _) => {
            labels.insert(format!("differs, the empty mark beside a term, {of}"));
            return;
        }
        (_, None) => {
            labels.insert(format!("differs, a term beside the empty mark, {of}"));
            return;
        }
    };
    let met = meeting(second);
    let second = second.term().normal();
    let (firsts, seconds) = (nodes_of(&first), nodes_of(&second));
    let apart: Vec<usize> = (0..firsts.len().min(seconds.len()))
        .filter(|place| firsts[*place] != seconds[*place])
        .collect();
    let last_power = seconds.iter().rposition(|node| matches!(node, Node::Pow(..)));
    if let ([place], true) = (&apart[..], firsts.len() == seconds.len()) {
        let which = if Some(*place) == last_power { "the last power" } else { "another power" };
        match (firsts[*place], seconds[*place]) {
            (Node::Pow(s, a, b), Node::Pow(s2, a2, b2)) if s == s2 && (a == a2) != (b == b2) => {
                let number = if b == b2 { "a" } else { "b" };
                labels.insert(format!("differs, only in {number} of {which}"));
            }
            _ if place + 1 == seconds.len() => {
                labels.insert("differs, only in the last node".to_string());
            }
            _ => (),
        }
    }
    let known = [
        ("second side of 1,024", seconds.len() == SIDE_NODES),
        ("second side met over a vanished power", met.over_a_vanished_power),
        ("second side met its filling", met.with_the_filling),
        ("as if powers met over another", join(&second).as_ref() == Some(&first)),
    ];
    let known = known.into_iter().filter(|(_, known)| *known);
    labels.extend(known.map(|(label, _)| format!("differs, {label}")));
}

/// 16 for the second side, where the first is not too large.
fn large(one: &Comparison, labels: &mut BTreeSet<String>) {
    let (Some(first), Some(second)) = (&one.first, &one.second) else { return };
    let firsts = nodes_of(&first.term().normal());
    let seconds = nodes_of(&second.term().normal());
    if firsts.len() > SIDE_NODES {
        return;
    }
    let apart = firsts.iter().zip(&seconds).position(|(first, second)| first != second);
    let known = [
        ("of 1,025", seconds.len() == SIDE_NODES + 1),
        ("different within its first ten nodes", apart.is_some_and(|place| place < 10)),
        ("different only from node 1,023 on", apart == Some(SIDE_NODES - 1)),
    ];
    let known = known.into_iter().filter(|(_, known)| *known);
    let of = if one.of == "unfold" && one.part < 15 { "call" } else { one.of };
    labels.extend(known.map(|(label, _)| format!("16, second side {label}, {of}")));
}

/// What judgements have to meet.
pub fn wanted() -> Vec<String> {
    let equal = [
        "second side met over a vanished power",
        "second side met its filling",
        "second side vanished at its root",
        "both sides of 1,024",
        "behind a call shorter than what it was compared with",
        "behind a call longer than what it was compared with",
    ];
    let differs = [
        "the empty mark beside a term, unfold",
        "the empty mark beside a term, descent",
        "a term beside the empty mark, unfold",
        "a term beside the empty mark, descent",
        "only in a of the last power",
        "only in b of the last power",
        "only in a of another power",
        "only in b of another power",
        "only in the last node",
        "second side of 1,024",
        "second side met over a vanished power",
        "second side met its filling",
        "as if powers met over another",
    ];
    let large = [
        "of 1,025, call",
        "of 1,025, unfold",
        "of 1,025, closing",
        "different within its first ten nodes, call",
        "different within its first ten nodes, unfold",
        "different within its first ten nodes, closing",
        "different only from node 1,023 on, call",
    ];
    let equal = equal.map(|label| format!("equal, {label}"));
    let differs = differs.map(|label| format!("differs, {label}"));
    let large = large.map(|label| format!("16, second side {label}"));
    equal.into_iter().chain(differs).chain(large).collect()
}
