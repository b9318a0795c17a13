//! The judge's answers in words. All refusals of docs/RULES.md are in one table here.

use second::answer::{BOOK, CALL, CERTIFICATE, CLOSING, LINE, NEITHER};
use second::{Certificate, Coverage, Proof, Refusal, Verdict};

/// The answer in words. The certificate, if it could be read, tells what kind of line a
/// refusal speaks of.
pub fn verdict_words(verdict: &Verdict, certificate: Option<&Certificate>) -> String {
    match verdict {
        Verdict::Accepted { line, k, alpha } => format!(
            "accepted: line {line}, k = {k}, alpha = {alpha}: each call of its left, at index \
             {alpha} or later, has derivations of every length, by some choice of rules"
        ),
        Verdict::Refused(refusal) => refused_words(refusal, certificate),
    }
}

/// Whether a call is in the accepted family, in words; the certificate as above.
pub fn coverage_words(coverage: &Coverage, certificate: Option<&Certificate>) -> String {
    let (pattern, start) = match certificate.map(|certificate| &certificate.closing) {
        Some(closing) => (format!("left of line {}", closing.line), format!(" {}", closing.alpha)),
        None => ("the accepted pattern".to_string(), " alpha".to_string()),
    };
    match coverage {
        Coverage::Covered { index } => {
            format!(
                "covered at index {index}: {pattern}, at this index and filled, is the call; \
                 so it has derivations of every length, by some choice of rules"
            )
        }
        Coverage::Refused(Refusal { number: 17, .. }) => format!(
            "not covered: {pattern} is not the call at any index from{start} on, however it is \
             filled"
        ),
        Coverage::Refused(refusal) => refused_words(refusal, certificate),
    }
}

fn refused_words(refusal: &Refusal, certificate: Option<&Certificate>) -> String {
    let proof_of = |certificate: &Certificate| {
        let line = usize::try_from(refusal.a).ok()?;
        certificate.lines.get(line).map(|line| line.proof.clone())
    };
    let proof = certificate.filter(|_| refusal.w == LINE).and_then(proof_of);
    format!("refused with {} {}", refusal.number, refusal_words(refusal, proof.as_ref()))
}

/// Where it was refused, and why.
pub fn refusal_words(refusal: &Refusal, proof: Option<&Proof>) -> String {
    format!("{}: {}", place(refusal, proof), reason(refusal, proof))
}

fn place(refusal: &Refusal, proof: Option<&Proof>) -> String {
    let Refusal { number, w, a, b } = refusal;
    let kind = match proof {
        Some(Proof::Unfold { .. }) => ", an unfold",
        Some(Proof::Descent { .. }) => ", a descent",
        None => "",
    };
    match (*w, number) {
        (BOOK, 3..=7) => format!("in the book, at bit {a}"),
        (CERTIFICATE, 3..=7) => format!("in the certificate, at bit {a}"),
        (CALL, _) => format!("in the call, at bit {a}"),
        (BOOK, _) => "in the book".to_string(),
        (CERTIFICATE, _) => "in the certificate".to_string(),
        (LINE, _) => format!("in line {a}{kind}, part {b}"),
        (CLOSING, _) => format!("in the closing, line {a}, part {b}"),
        _ => "in neither file".to_string(),
    }
}

/// The table of refusals.
fn reason(refusal: &Refusal, proof: Option<&Proof>) -> String {
    let (first, second) = sides(refusal, proof);
    let words = match (refusal.number, refusal.w) {
        (1, _) => "the work table has fewer than 8,192 numbers",
        (2, BOOK) => "it has over 16,384 bytes",
        (2, CERTIFICATE) => "it has over 32,768 bytes",
        (2, _) => "the input has over 49,154 bytes",
        (3, NEITHER) => "the input ends before the book does",
        (3, _) => "the file ends before the field that begins there does",
        (4, _) => "the field that begins there has a value that is not allowed",
        (5, _) => "a term is not normal: a power below its like, or one with a = b = 0",
        (6, _) => "a 257th node of a term would begin there",
        (7, _) => "something is left over behind the last field",
        (8, _) => "the output has no room for it",
        (9 | 10 | 12 | 15, _) => return format!("{first} is not {second}"),
        (11, _) => used_right(refusal, proof),
        (13, _) => "right has an index: a power whose a is not 0",
        (14, _) => "right is the empty mark",
        (16, _) => return format!("{first} or {second} has over 1,024 nodes"),
        (17, _) => "the call is not in the accepted family",
        _ => "there is no such number",
    };
    words.to_string()
}

fn used_right(refusal: &Refusal, proof: Option<&Proof>) -> &'static str {
    match proof {
        Some(Proof::Unfold { stop, .. }) if refusal.b < u64::from(*stop) => {
            "right of the line used for this call is a term, not the empty mark"
        }
        Some(_) => "right of the line used for this call is the empty mark, with calls behind it",
        None => "right of the line used for this call is empty where it may not be, or the reverse",
    }
}

/// The two sides that a part compares.
fn sides(refusal: &Refusal, proof: Option<&Proof>) -> (String, String) {
    let fixed = |first: &str, second: &str| (first.to_string(), second.to_string());
    match (proof, refusal.b) {
        _ if refusal.w == CLOSING => fixed("right by (1, alpha)", "left by (1, alpha + k), filled"),
        (Some(Proof::Unfold { .. }), 0) => fixed("the rule's head, filled,", "left"),
        (Some(Proof::Unfold { stop, last, .. }), 15) => {
            ("right".to_string(), reached(*stop, last.is_some()))
        }
        (Some(Proof::Unfold { .. }), part) => {
            (format!("the rule's call {part}, filled,"), "left of its use".to_string())
        }
        (Some(Proof::Descent { .. }), 0) => fixed("left of the base", "left by (0, 0)"),
        (Some(Proof::Descent { .. }), 1) => fixed("right of the base", "right by (0, 0)"),
        (Some(Proof::Descent { .. }), 2) => fixed("the rule's head, filled,", "left by (1, 1)"),
        (Some(Proof::Descent { .. }), _) => fixed("the rule's call, filled,", "left"),
        (None, _) => fixed("one side", "the other"),
    }
}

/// What an unfold comes to.
fn reached(stop: u8, used: bool) -> String {
    match (stop, used) {
        (0, _) => "the empty mark".to_string(),
        (_, false) => format!("the rule's call {stop}, filled"),
        (_, true) => format!("right of the use for call {stop}"),
    }
}
