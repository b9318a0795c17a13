//! Accepted pairs of many shapes. Each maker answers nothing if its random
//! choices don't lead to an accepted pair.

mod combined;
mod descents;
mod large;
mod loops;

pub use combined::{combination, random_line};
pub use descents::{descent_to_a_call, doubled, example_1, halved, nested};
pub use large::{full_side, full_side_of, large_terms, two_symbols};
pub use loops::{chain_of_uses, counter, plain_loop, several_calls, swap};

use crate::random::Random;
use crate::world::{fun, var, Case, World};
use second::{Rule, Term};

pub type Maker = fn(&mut Random) -> Option<Case>;

/// The names of the shapes with their makers.
pub const SHAPES: [(&str, Maker); 14] = [
    ("plain loop", plain_loop),
    ("counter", counter),
    ("doubled index", doubled),
    ("halved index", halved),
    ("nested descents", nested),
    ("descent to a call", descent_to_a_call),
    ("several calls", several_calls),
    ("swap", swap),
    ("example 1", example_1),
    ("two symbols", two_symbols),
    ("large terms", large_terms),
    ("full side", full_side),
    ("chain of uses", chain_of_uses),
    ("combination", combination),
];

/// Numbers and the names of variables used in all shapes.
const S: u8 = 0;
const ZERO: u8 = 1;
const X: u8 = 0;
const Y: u8 = 1;
const Z: u8 = 2;

fn x() -> Term {
    var(X)
}

fn y() -> Term {
    var(Y)
}

fn z() -> Term {
    var(Z)
}

fn s(a: u64, b: u64, below: Term) -> Term {
    Term::pow(S, a, b, below)
}

fn zero() -> Term {
    fun(ZERO, &[])
}

/// s/1 and 0/0, then the arities given, numbered from 2.
fn world(more: &[u8], rules: &[Rule]) -> World {
    World::new(&[&[1, 0], more].concat(), rules)
}

/// Any shape, combinations more often than others.
pub fn any_shape(random: &mut Random) -> (&'static str, Case) {
    loop {
        let number =
            if random.chance(1, 5) { SHAPES.len() - 1 } else { random.below(SHAPES.len()) };
        let (name, maker) = SHAPES[number];
        if let Some(case) = maker(random) {
            return (name, case);
        }
    }
}
