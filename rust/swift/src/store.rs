//! What is known of both files once they are decoded: flat arrays, used again at each
//! call.

use std::ops::Range;

/// "rule book over 16,384 bytes or certificate over 32,768"
pub const BOOK_BYTES: usize = 16_384;
pub const CERTIFICATE_BYTES: usize = 32_768;
/// "Terms in files are normal and have at most 256 nodes."
pub const TERM_NODES: usize = 256;
/// How many nodes are copied at once: see `build`.
pub const CHUNK: usize = 8;
/// The variables 0 to 63 stand before all other nodes, each as a term of its own.
pub const VARIABLES: usize = 64;
/// No node is shorter than 8 bits, so that 16 bits are enough for a node's place. There is
/// room for a whole term at each place, and so for a chunk.
pub const NODES: usize = 1 << 16 | TERM_NODES;
const _: () = assert!(VARIABLES + BOOK_BYTES + CERTIFICATE_BYTES + TERM_NODES < 1 << 16);
/// How many names there are: see `node`.
pub const NAMES: usize = 1 << 10;
/// The names with the tags 1 and 2, which the book decides on.
const BOOK_NAMES: Range<usize> = 1 << 8..3 << 8;
/// Shapes, beside the arities of symbols: the one argument of a power, a variable, and
/// what no node has.
pub const POWER: u8 = 1;
pub const VARIABLE: u8 = 9;
pub const NO_SHAPE: u8 = 0xFF;

/// Where a term's nodes stand. The empty mark has none.
#[derive(Clone, Copy, Default)]
pub struct Span {
    pub start: u16,
    pub length: u16,
}

/// A variable of a filling and its term.
#[derive(Clone, Copy)]
pub struct Entry {
    pub variable: u8,
    pub term: Span,
}

/// Some entries of `Store::entries`.
#[derive(Clone, Copy)]
pub struct Entries {
    pub first: u32,
    pub count: u32,
}

/// A rule: the place of its head in `Store::calls`; its calls follow.
#[derive(Clone, Copy)]
pub struct Rule {
    pub head: u32,
    pub calls: u32,
}

#[derive(Clone, Copy)]
pub struct Use {
    pub line: u8,
    /// The index pair, as `node::pair` puts it.
    pub pair: u64,
    pub filling: Entries,
}

#[derive(Clone, Copy)]
pub enum Kind {
    Unfold { stop: u32 },
    Descent,
}

#[derive(Clone, Copy)]
pub struct Line {
    pub left: Span,
    pub right: Span,
    pub proof: Proof,
}

/// The rest of a line: a rule with its filling, and uses.
#[derive(Clone, Copy)]
pub struct Proof {
    pub kind: Kind,
    pub rule: u8,
    pub filling: Entries,
    /// Some uses of `Store::uses`; a descent's base is one.
    pub first_use: u32,
    pub uses: u32,
}

#[derive(Clone, Copy)]
pub struct Closing {
    pub line: u8,
    pub k: u32,
    pub alpha: u32,
    pub filling: Entries,
}

pub struct Store {
    /// The shape of a node by its name, in which a variable's last two bits are the next
    /// node's first.
    pub shapes: [u8; NAMES],
    /// The nodes of all terms; `filled` of them are known.
    pub nodes: Box<[u64; NODES]>,
    pub filled: u16,
    pub rules: Vec<Rule>,
    pub calls: Vec<Span>,
    pub lines: Vec<Line>,
    pub uses: Vec<Use>,
    pub entries: Vec<Entry>,
}

impl Store {
    pub fn new() -> Store {
        let mut shapes = [NO_SHAPE; NAMES];
        shapes[..BOOK_NAMES.start].fill(VARIABLE);
        let nodes = vec![0; NODES].into_boxed_slice();
        let mut nodes: Box<[u64; NODES]> = nodes.try_into().expect("so many nodes");
        (0..).zip(&mut nodes[..VARIABLES]).for_each(|(variable, node)| *node = variable);
        Store {
            shapes,
            nodes,
            filled: VARIABLES as u16,
            rules: Vec::with_capacity(255),
            calls: Vec::with_capacity(255 * 9),
            lines: Vec::with_capacity(255),
            // A use has at least 39 bits, an entry of a filling at least 14.
            uses: Vec::with_capacity(CERTIFICATE_BYTES * 8 / 39),
            entries: Vec::with_capacity(CERTIFICATE_BYTES * 8 / 14),
        }
    }

    pub fn clear(&mut self) {
        self.shapes[BOOK_NAMES].fill(NO_SHAPE);
        self.filled = VARIABLES as u16;
        self.rules.clear();
        self.calls.clear();
        self.lines.clear();
        self.uses.clear();
        self.entries.clear();
    }

    /// "Tag 1: symbol, 8 bits, arity not 1. Tag 2: power, symbol 8 bits of arity 1".
    #[inline(always)]
    pub fn set_arity(&mut self, symbol: u32, arity: u8) {
        let tag = if arity == POWER { 2 } else { 1 };
        self.shapes[(tag << 8 | symbol & 0xFF) as usize] = arity;
    }

    pub fn term(&self, span: Span) -> &[u64] {
        &self.nodes[usize::from(span.start)..][..usize::from(span.length)]
    }

    pub fn entries(&self, entries: Entries) -> &[Entry] {
        &self.entries[entries.first as usize..][..entries.count as usize]
    }

    /// A rule's head (0) or one of its calls (from 1).
    pub fn call(&self, rule: Rule, number: u32) -> Span {
        self.calls[(rule.head + number) as usize]
    }
}
