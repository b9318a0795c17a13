//! Books and certificates as trees.

use crate::term::Term;

/// Variables with the terms that replace them.
pub type Filling = Vec<(u8, Term)>;

#[derive(Clone, Debug, PartialEq, Eq)]
pub struct Rule {
    pub head: Term,
    pub calls: Vec<Term>,
}

#[derive(Clone, Debug, PartialEq, Eq)]
pub struct Book {
    pub arities: Vec<u8>,
    pub rules: Vec<Rule>,
}

/// "A use is an earlier line, an index pair and a filling".
#[derive(Clone, Debug, PartialEq, Eq)]
pub struct Use {
    pub line: u8,
    pub i: u64,
    pub j: u64,
    pub filling: Filling,
}

#[derive(Clone, Debug, PartialEq, Eq)]
pub enum Proof {
    /// `before` are the uses for each j < i; `last` is the use at i, if one
    /// stands there.
    Unfold {
        rule: u8,
        stop: u8,
        filling: Filling,
        before: Vec<Use>,
        last: Option<Use>,
    },
    Descent {
        base: Use,
        rule: u8,
        filling: Filling,
    },
}

/// "A line claims left → right, where right is a term or the empty mark."
#[derive(Clone, Debug, PartialEq, Eq)]
pub struct Line {
    pub left: Term,
    pub right: Option<Term>,
    pub proof: Proof,
}

#[derive(Clone, Debug, PartialEq, Eq)]
pub struct Closing {
    pub line: u8,
    pub k: u64,
    pub alpha: u64,
    pub filling: Filling,
}

#[derive(Clone, Debug, PartialEq, Eq)]
pub struct Certificate {
    pub lines: Vec<Line>,
    pub closing: Closing,
}
