//! Sides in normal form, built from slices of nodes.

use crate::filling::Filling;
use crate::node::{self, VARIABLES};
use crate::store::{Span, Store, CHUNK, NODES};

/// "A side whose normal form has more than 1,024 nodes is refused with 16".
const SIDE_NODES: usize = 1_024;
/// Where a side that isn't too large has room for the rest of a chunk, too.
const ROOM: usize = SIDE_NODES + CHUNK;

/// The index pair that changes nothing.
pub const AS_IT_IS: u64 = node::pair(1, 0);

/// No node: it has the name of no power.
const NOTHING: u64 = 0;

/// Where a side is built.
pub struct Side {
    nodes: Box<[u64; ROOM]>,
}

impl Side {
    pub fn new() -> Side {
        Side { nodes: Box::new([0; ROOM]) }
    }

    /// The normal form of a term reindexed by a pair and filled; nothing if it is too
    /// large. A term that stays as it is isn't copied.
    pub fn instance<'a>(
        &'a mut self,
        store: &'a Store,
        term: Span,
        pair: u64,
        filling: &Filling,
    ) -> Option<&'a [u64]> {
        let pattern = store.term(term);
        let length = if pair != AS_IT_IS {
            build::<true>(&mut self.nodes, &store.nodes, pattern, pair, filling)
        } else if filling.is_empty() {
            return Some(pattern);
        } else {
            build::<false>(&mut self.nodes, &store.nodes, pattern, pair, filling)
        };
        self.nodes[..SIDE_NODES].get(..length?)
    }
}

/// Builds an instance node by node and answers how many there are; nothing if they don't
/// have room. "drop the zero powers and add up neighbours of the same symbol": a power's
/// neighbour below is always the next node.
fn build<const REINDEXED: bool>(
    room: &mut [u64; ROOM],
    nodes: &[u64; NODES],
    pattern: &[u64],
    pair: u64,
    filling: &Filling,
) -> Option<usize> {
    let mut out = Out { room, length: 0 };
    // The node of the pattern that was put last, if nothing was put for a variable since.
    let mut above = NOTHING;
    for node in pattern {
        let node = *node;
        if node < VARIABLES {
            out.put_term(nodes, filling.term(node), above)?;
            above = NOTHING;
        } else if REINDEXED && node::is_power(node) {
            above = out.put_power(node::reindexed(node, pair), above)?;
        } else {
            out.put(node)?;
            above = node;
        }
    }
    Some(out.length)
}

/// The nodes built so far.
struct Out<'a> {
    room: &'a mut [u64; ROOM],
    length: usize,
}

impl Out<'_> {
    #[inline(always)]
    fn put(&mut self, node: u64) -> Option<()> {
        *self.room.get_mut(self.length)? = node;
        self.length += 1;
        Some(())
    }

    /// Puts a power below the node that was put last, and answers which one that is then.
    #[inline(always)]
    fn put_power(&mut self, power: u64, above: u64) -> Option<u64> {
        let exponents = node::exponents(power);
        if exponents == 0 {
            return Some(above);
        }
        if node::name(power) == node::name(above) {
            self.room[self.length - 1] += exponents;
        } else {
            self.put(power)?;
        }
        Some(power)
    }

    /// Puts a whole term of a filling below the node that was put last. It is normal, so
    /// only its root can be like that node. Of a short term a whole chunk is copied, of
    /// which a part counts.
    #[inline(always)]
    fn put_term(&mut self, nodes: &[u64; NODES], term: Span, above: u64) -> Option<()> {
        let (start, length) = (usize::from(term.start), usize::from(term.length));
        let root = nodes[start];
        if node::is_power(above) && node::name(root) == node::name(above) {
            self.room[self.length - 1] += node::exponents(root);
            self.copy(&nodes[start + 1..start + length])
        } else if length <= CHUNK {
            let chunk = &nodes[start..start + CHUNK];
            self.room.get_mut(self.length..self.length + CHUNK)?.copy_from_slice(chunk);
            self.length += length;
            Some(())
        } else {
            self.copy(&nodes[start..start + length])
        }
    }

    fn copy(&mut self, term: &[u64]) -> Option<()> {
        self.room.get_mut(self.length..self.length + term.len())?.copy_from_slice(term);
        self.length += term.len();
        Some(())
    }
}

#[cfg(test)]
mod tests {
    use super::*;
    use crate::node::pair;
    use crate::store::Entry;

    fn symbol(symbol: u64) -> u64 {
        node::symbol_in((1 << 8 | symbol) << 54)
    }

    fn power(symbol: u64, a: u64, b: u64) -> u64 {
        node::symbol_in((2 << 8 | symbol) << 54) + pair(a, b)
    }

    const S: u64 = 1;
    const R: u64 = 2;
    const F: u64 = 3;
    const X: u64 = 0;
    const Y: u64 = 1;

    fn put(store: &mut Store, term: &[u64]) -> Span {
        let (start, length) = (store.filled, term.len() as u16);
        store.nodes[usize::from(start)..][..term.len()].copy_from_slice(term);
        store.filled += length;
        Span { start, length }
    }

    /// An instance, by an index pair and the terms of x and y.
    fn instance(term: &[u64], (i, j): (u64, u64), terms: &[&[u64]]) -> Option<Vec<u64>> {
        let (mut store, mut filling) = (Store::new(), Filling::new());
        let entries: Vec<Entry> = (0..)
            .zip(terms)
            .map(|(variable, term)| Entry { variable, term: put(&mut store, term) })
            .collect();
        filling.set(&entries);
        let term = put(&mut store, term);
        Side::new().instance(&store, term, pair(i, j), &filling).map(<[u64]>::to_vec)
    }

    /// The cases 1 to 5 of the document's table. In the first, the lower power comes by a
    /// filling, since terms in files are normal.
    #[test]
    fn the_cases_of_the_table() {
        let merged = instance(&[power(S, 1, 0), Y], (1, 0), &[&[X], &[power(S, 1, 1), X]]);
        assert_eq!(merged, Some(vec![power(S, 2, 1), X]));
        assert_eq!(instance(&[power(S, 1, 0), X], (0, 0), &[]), Some(vec![X]));
        let three = [power(S, 0, 1), power(R, 1, 0), power(S, 0, 1), X];
        assert_eq!(instance(&three, (0, 0), &[]), Some(vec![power(S, 0, 2), X]));
        let swapped = instance(&[symbol(F), X, Y], (1, 0), &[&[Y], &[X]]);
        assert_eq!(swapped, Some(vec![symbol(F), Y, X]));
        let reindexed = instance(&[power(S, 2, 1), X], (3, 2), &[]);
        assert_eq!(reindexed, Some(vec![power(S, 6, 5), X]));
    }

    /// "the filling's own terms are not reindexed"
    #[test]
    fn fillings_enter_as_they_are() {
        let found = instance(&[power(S, 1, 0), X], (2, 3), &[&[power(R, 1, 1), Y]]);
        assert_eq!(found, Some(vec![power(S, 2, 3), power(R, 1, 1), Y]));
        let dropped = instance(&[power(S, 1, 0), X], (0, 0), &[&[power(R, 1, 0), Y]]);
        assert_eq!(dropped, Some(vec![power(R, 1, 0), Y]));
    }

    #[test]
    fn the_largest_numbers_have_room() {
        const MOST: u64 = 4_095;
        let like = power(S, MOST, MOST);
        let found = instance(&[like, X], (MOST, MOST), &[&[like, Y]]);
        let largest = MOST * MOST + MOST;
        assert_eq!(found, Some(vec![power(S, largest, largest + MOST), Y]));
        let mut chain = [power(S, 0, MOST), power(R, 1, 0)].repeat(127);
        chain.extend([power(S, 0, MOST), X]);
        let found = instance(&chain, (0, 0), &[&[like, Y]]);
        assert_eq!(found, Some(vec![power(S, MOST, 129 * MOST), Y]));
    }

    #[test]
    fn a_side_has_1024_nodes_at_most() {
        let mut pattern = vec![symbol(F); 4];
        pattern.extend([X; 5]);
        let size = |length: usize| {
            let term: Vec<u64> = (0..length as u64).map(|n| power(n, 1, 1)).collect();
            instance(&pattern, (1, 0), &[&term]).map(|side| side.len())
        };
        assert_eq!(size(204), Some(1_024));
        assert_eq!(size(205), None);
        assert_eq!(size(256), None);
    }
}
