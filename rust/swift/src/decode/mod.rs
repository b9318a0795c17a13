//! The two files, decoded into the store and tested field by field.

mod book;
mod certificate;
mod term;

pub use book::decode_book;
pub use certificate::decode_certificate;
