//! A second implementation of the certificate judge, its reader and its
//! writer, made from the document "Build scope and exact rules" (01) alone, and
//! of what was asked for later, from the document of requests (02).
//!
//! Words in quotation marks in the comments are the documents' own.

pub mod answer;
pub mod covering;
pub mod derive;
pub mod files;
pub mod grammar;
pub mod judging;
pub mod making;
pub mod model;
pub mod replay;
pub mod source;
pub mod spell;
pub mod term;

pub use answer::{coverage_line, verdict_line, Answer, Coverage, Refusal, Verdict};
pub use covering::covers;
pub use files::{
    parse_book, parse_certificate, read_book, read_certificate, write_book, write_certificate,
};
pub use judging::{judge, judge_input};
pub use model::{Book, Certificate, Closing, Filling, Line, Proof, Rule, Use};
pub use term::Term;
