//! A third judge, made for speed: what the proved one is measured against.
//!
//! It shares nothing with the second judge and builds no trees. Both files are decoded
//! once, into one array of nodes in preorder; sides are built by copying slices of it.
//! Words in quotation marks in the comments are those of the document of rules (01).
#![forbid(unsafe_code)]

mod answer;
mod bits;
mod build;
mod check;
mod decode;
mod filling;
mod judge;
mod node;
mod store;

pub use answer::{Refusal, Verdict};
pub use judge::{Judge, WORK_NUMBERS};
