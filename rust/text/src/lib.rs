//! A readable text form of rule books, certificates and calls, described in
//! docs/TEXT.md. Packing goes through field lists and the second
//! implementation's writer, so that this tool refuses nothing that the packed
//! layout allows.

pub mod errors;
pub mod inputs;
pub mod kinds;
pub mod lexer;
pub mod packing;
pub mod printing;
pub mod reader;
pub mod repeat;
pub mod shell;
pub mod statements;
pub mod symbols;
pub mod terms;
pub mod vectors;
pub mod words;

pub use errors::TextError;
pub use packing::{pack_book_text, pack_call_named, pack_certificate_named, pack_certificate_text};
pub use printing::{print_book, print_call, print_certificate};
pub use symbols::{names_in, Symbols};
