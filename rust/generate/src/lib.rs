//! A seeded generator of (book, certificate) pairs: accepted ones of many
//! shapes, well-formed ones that fail at a chosen part, ones with two sides that
//! part at a chosen node, damaged ones, and ones at the edges of reading; and of calls
//! that are or are not in an accepted family.

pub mod asked;
pub mod calls;
pub mod comparisons;
pub mod damage;
pub mod dividing;
pub mod edged;
pub mod edges;
pub mod family;
pub mod faults;
pub mod hex;
pub mod inputs;
pub mod large;
pub mod nudge;
pub mod parted;
pub mod placing;
pub mod random;
pub mod scramble;
pub mod shapes;
pub mod sides;
pub mod solve;
pub mod tally;
pub mod visit;
pub mod world;
pub mod writing;
