//! Well-formed pairs that fail at a chosen part. A fault is planted in an
//! accepted pair, and the pair is kept if it fails where it was meant to.

use crate::large::large_side;
use crate::nudge::{
    add_index, nudge, nudge_call_of_rule, nudge_closing, nudge_entry, nudge_right, nudge_use,
    use_a_line_with_right, use_an_empty_line,
};
use crate::random::Random;
use crate::scramble::scrambled;
use crate::shapes::{
    any_shape, descent_to_a_call, doubled, example_1, halved, nested, several_calls, Maker,
};
use crate::visit::parts_of;
use crate::world::Case;
use second::files::{BOOK_BYTES, CERTIFICATE_BYTES};
use second::judging::check;
use second::spell::{pack_book, pack_certificate};
use second::{Proof, Refusal};

/// What must go wrong: the number, the kind of line and the part.
#[derive(Clone, Copy, Debug, PartialEq, Eq)]
pub enum Goal {
    UnfoldHead,
    UnfoldCall,
    RightBeforeStop,
    NoRightAtStop,
    UnfoldRight,
    BaseLeft,
    BaseRight,
    DescentHead,
    DescentCall,
    RightWithIndex,
    ClosingEmpty,
    ClosingDiffers,
    LargeSide,
    /// A side of about 1,024 nodes, whatever comes of it.
    NearLargeSide,
    /// Several faults at once: the order of the checks decides.
    Several,
}

pub const GOALS: [Goal; 15] = [
    Goal::UnfoldHead,
    Goal::UnfoldCall,
    Goal::RightBeforeStop,
    Goal::NoRightAtStop,
    Goal::UnfoldRight,
    Goal::BaseLeft,
    Goal::BaseRight,
    Goal::DescentHead,
    Goal::DescentCall,
    Goal::RightWithIndex,
    Goal::ClosingEmpty,
    Goal::ClosingDiffers,
    Goal::LargeSide,
    Goal::NearLargeSide,
    Goal::Several,
];

/// An accepted pair of any shape.
pub fn accepted(random: &mut Random) -> (&'static str, Case) {
    loop {
        let (name, case) = any_shape(random);
        let case = scrambled(case, random);
        if fits_the_files(&case) {
            return (name, case);
        }
    }
}

pub fn fits_the_files(case: &Case) -> bool {
    pack_book(&case.book).len() <= BOOK_BYTES
        && pack_certificate(&case.certificate).len() <= CERTIFICATE_BYTES
}

/// A well-formed pair that fails as the goal says.
pub fn failing(goal: Goal, random: &mut Random) -> Case {
    loop {
        let case = match goal {
            Goal::LargeSide => large_side(random).map(|case| scrambled(case, random)),
            Goal::NearLargeSide => return large_side(random).expect("the lines hold"),
            Goal::Several => several(random),
            _ => planted_in_any(goal, random),
        };
        let Some(case) = case.filter(fits_the_files) else { continue };
        if check(&case.book, &case.certificate).is_err_and(|refusal| meets(goal, &case, refusal)) {
            return case;
        }
    }
}

/// Two to four faults, often in one line.
fn several(random: &mut Random) -> Option<Case> {
    let (_, mut case) = accepted(random);
    let mut number = random.below(case.certificate.lines.len());
    for _ in 0..random.between(2, 4) {
        let goal = *random.pick(&GOALS[..12]);
        case = planted(goal, case, number, random)?;
        if random.chance(1, 3) {
            number = random.below(case.certificate.lines.len());
        }
    }
    Some(case)
}

fn meets(goal: Goal, case: &Case, refusal: Refusal) -> bool {
    let Refusal { number, b: part, a: line, w } = refusal;
    let proof = (w == 2).then(|| &case.certificate.lines[line as usize].proof);
    let unfold = matches!(proof, Some(Proof::Unfold { .. }));
    let stop = match proof {
        Some(Proof::Unfold { stop, .. }) => u64::from(*stop),
        _ => 0,
    };
    match goal {
        Goal::UnfoldHead => unfold && number == 9,
        Goal::UnfoldCall => unfold && number == 10,
        Goal::RightBeforeStop => number == 11 && part < stop,
        Goal::NoRightAtStop => number == 11 && part == stop,
        Goal::UnfoldRight => unfold && number == 12,
        Goal::BaseLeft => !unfold && (number, part) == (9, 0),
        Goal::BaseRight => !unfold && (number, part) == (12, 1),
        Goal::DescentHead => !unfold && (number, part) == (9, 2),
        Goal::DescentCall => !unfold && (number, part) == (10, 3),
        Goal::RightWithIndex => number == 13,
        Goal::ClosingEmpty => number == 14,
        Goal::ClosingDiffers => number == 15,
        Goal::LargeSide => number == 16,
        Goal::NearLargeSide | Goal::Several => true,
    }
}

/// Plants one fault in an accepted pair.
fn planted_in_any(goal: Goal, random: &mut Random) -> Option<Case> {
    let likely = likely_shapes(goal);
    let case = if likely.is_empty() || random.chance(1, 4) {
        accepted(random).1
    } else {
        let case = random.pick(likely)(random)?;
        scrambled(case, random)
    };
    let last = case.certificate.lines.len() - 1;
    let number = if random.chance(1, 2) { last } else { random.below(last + 1) };
    planted(goal, case, number, random)
}

/// Shapes that have what the fault needs.
fn likely_shapes(goal: Goal) -> &'static [Maker] {
    match goal {
        Goal::UnfoldCall | Goal::RightBeforeStop | Goal::NoRightAtStop => {
            &[several_calls, several_calls, example_1, halved]
        }
        Goal::BaseLeft | Goal::BaseRight | Goal::DescentHead | Goal::DescentCall => {
            &[nested, doubled, halved, example_1, descent_to_a_call]
        }
        Goal::RightWithIndex => &[descent_to_a_call],
        _ => &[],
    }
}

/// Plants one fault, in this line if it is one of lines.
fn planted(goal: Goal, mut case: Case, number: usize, random: &mut Random) -> Option<Case> {
    let arities = case.book.arities.clone();
    let earlier = case.certificate.lines[..number].to_vec();
    let line = &mut case.certificate.lines[number];
    match goal {
        Goal::UnfoldHead => nudge(&mut line.left, &arities, random)?,
        Goal::UnfoldCall => nudge_use(line, &arities, random)?,
        Goal::RightBeforeStop => use_a_line_with_right(line, &earlier, random)?,
        Goal::NoRightAtStop => use_an_empty_line(line, &earlier, random)?,
        Goal::UnfoldRight | Goal::BaseRight => nudge_right(line, &arities, random)?,
        Goal::BaseLeft => match random.below(2) {
            0 => nudge(&mut line.left, &arities, random)?,
            _ => nudge_use(line, &arities, random)?,
        },
        Goal::DescentHead => nudge_entry(parts_of(&mut line.proof).0, &arities, random)?,
        Goal::DescentCall => nudge_call_of_rule(&mut case, number, random)?,
        Goal::RightWithIndex => add_index(line.right.as_mut()?, &arities, random)?,
        Goal::ClosingEmpty => case.certificate.closing.line = number as u8,
        Goal::ClosingDiffers => nudge_closing(&mut case.certificate.closing, &arities, random)?,
        Goal::LargeSide | Goal::NearLargeSide | Goal::Several => return None,
    }
    Some(case)
}
