//! What the generator promises, shown on many inputs.

mod calls;
mod edges;
mod files;
mod inputs;
mod meaning;
mod running;
mod sides;
