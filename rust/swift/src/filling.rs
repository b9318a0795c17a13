//! A filling, indexed by its variables.

use crate::store::{Entry, Span, VARIABLES};

pub struct Filling {
    /// Bit v says whether the variable v is listed.
    listed: u64,
    terms: [Span; VARIABLES],
}

impl Filling {
    pub fn new() -> Filling {
        Filling { listed: 0, terms: std::array::from_fn(itself) }
    }

    pub fn set(&mut self, entries: &[Entry]) {
        while self.listed != 0 {
            let variable = self.listed.trailing_zeros() as usize;
            self.terms[variable] = itself(variable);
            self.listed &= self.listed - 1;
        }
        for entry in entries {
            let variable = entry.variable & 63;
            self.listed |= 1 << variable;
            self.terms[usize::from(variable)] = entry.term;
        }
    }

    pub fn is_empty(&self) -> bool {
        self.listed == 0
    }

    /// The term of a variable below 64.
    #[inline(always)]
    pub fn term(&self, variable: u64) -> Span {
        self.terms[variable as usize & (VARIABLES - 1)]
    }
}

/// "A variable that isn't listed stays itself."
fn itself(variable: usize) -> Span {
    Span { start: variable as u16, length: 1 }
}
