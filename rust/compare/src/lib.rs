//! Runs the proved side, through its bindings, and the second implementation on the
//! same inputs, and compares all that can be seen: answers, and every word of lent
//! memory with guards around it. The swift judge judges these inputs as well.

pub mod answers;
pub mod calls;
pub mod coverage;
pub mod edges;
pub mod files;
pub mod follow;
pub mod judging;
pub mod lent;
pub mod program;
pub mod proved;
pub mod swiftly;

/// What was different, in words, with all that is needed to see it again.
pub type Difference = String;
pub type Compared<T> = Result<T, Difference>;
