//! Terms, node by node.

use crate::bits::{Bits, Fault};
use crate::node;
use crate::store::{Span, Store, NAMES, NO_SHAPE, POWER, TERM_NODES, VARIABLE};

const VARIABLE_BITS: u32 = 2 + 6;
const SYMBOL_BITS: u32 = 2 + 8;
const POWER_BITS: u32 = 2 + 8 + 12 + 12;

/// Decodes a term. In the book "roots may not be variables (4 at the tag)" and "powers
/// have a = 0".
#[inline]
pub fn term<const IN_BOOK: bool>(bits: &mut Bits, store: &mut Store) -> Result<Span, Fault> {
    let start = store.filled;
    let room = store.nodes[usize::from(start)..].first_chunk_mut().expect("room for a term");
    let length = nodes::<IN_BOOK>(bits, &store.shapes, room)? as u16;
    store.filled = start + length;
    Ok(Span { start, length })
}

/// "a node is followed at once by its arguments": goes on while some are to come. Answers
/// how many nodes there are.
fn nodes<const IN_BOOK: bool>(
    bits: &mut Bits,
    shapes: &[u8; NAMES],
    room: &mut [u64; TERM_NODES],
) -> Result<usize, Fault> {
    let mut here = *bits;
    let mut to_come = 1;
    // The name of the node before this one: if it is a power, it stands directly above.
    let mut before = 0;
    let mut place = 0;
    while place < TERM_NODES {
        let no_variable = IN_BOOK && place == 0;
        let (window, shape) = match here.whole_window() {
            Some(window) => (window, shapes[node::name(window) as usize]),
            None => (0, NO_SHAPE),
        };
        let name = node::name(window);
        let exponents = node::exponents_in(window);
        let level = !IN_BOOK || exponents <= node::FILE_B;
        if shape == POWER && name != before && exponents != 0 && level {
            // As many arguments are to come as before.
            room[place] = node::power_in(window);
            place += 1;
            here.at += POWER_BITS;
            before = name;
            continue;
        }
        if shape == VARIABLE && !no_variable {
            room[place] = window >> 56;
            here.at += VARIABLE_BITS;
            to_come -= 1;
        } else if shape <= 8 && shape != POWER {
            room[place] = node::symbol_in(window);
            here.at += SYMBOL_BITS;
            to_come = to_come - 1 + u32::from(shape);
        } else {
            let found = careful::<IN_BOOK>(here, shapes, before, no_variable)?;
            room[place] = found.node;
            here.at += found.width;
            to_come = to_come - 1 + found.arity;
        }
        before = node::name(room[place]);
        place += 1;
        if to_come == 0 {
            *bits = here;
            return Ok(place);
        }
    }
    // "a 257th node would begin, found before its tag is read"
    Fault::new(6, here.at)
}

/// A node, its arity, and how many bits it takes.
struct Found {
    node: u64,
    arity: u32,
    width: u32,
}

/// The next node, field by field.
#[cold]
#[inline(never)]
fn careful<const IN_BOOK: bool>(
    mut bits: Bits,
    shapes: &[u8; NAMES],
    before: u64,
    no_variable: bool,
) -> Result<Found, Fault> {
    let window = bits.window();
    let name = node::name(window);
    let shape = shapes[name as usize];
    // "Tag 3 is refused."
    match bits.take_if(2, |tag| tag != 3 && !(no_variable && tag == 0))? {
        0 => {
            let node = u64::from(bits.take(6)?);
            Ok(Found { node, arity: 0, width: VARIABLE_BITS })
        }
        1 => {
            bits.take_if(8, |_| shape != NO_SHAPE)?;
            Ok(Found { node: node::symbol_in(window), arity: shape.into(), width: SYMBOL_BITS })
        }
        _ => {
            let at = bits.at;
            bits.take_if(8, |_| shape != NO_SHAPE)?;
            // 5 "at the symbol below its like, or at b if a = b = 0"
            if name == before {
                return Fault::new(5, at);
            }
            let a = bits.take_if(12, |a| !IN_BOOK || a == 0)?;
            let at = bits.at;
            match bits.take(12)? | a {
                0 => Fault::new(5, at),
                _ => Ok(Found { node: node::power_in(window), arity: 1, width: POWER_BITS }),
            }
        }
    }
}
