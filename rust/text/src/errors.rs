//! What may go wrong with a text, and how it is said.

use crate::lexer::Position;
use crate::symbols::Symbols;
use crate::words::refusal_words;
use second::answer::BOOK;
use second::{verdict_line, Refusal, Verdict};
use std::fmt;

#[derive(Clone, Debug, PartialEq, Eq)]
pub enum TextError {
    /// The text is not of the form described.
    Form { position: Position, message: String },
    /// The text names fields that the writer refuses. The position is that of the
    /// field refused, with what was expected there and what was found, if the refusal
    /// names a field of this text.
    Refused { refusal: Refusal, place: Option<(Position, String)> },
    /// The names given do not fit the book.
    Names(String),
}

/// The form of all messages that have a place.
pub fn expected_found(expected: impl fmt::Display, found: impl fmt::Display) -> String {
    format!("expected {expected}, found {found}")
}

impl TextError {
    pub fn expected<T>(
        position: Position,
        expected: impl fmt::Display,
        found: impl fmt::Display,
    ) -> Result<T, TextError> {
        Err(TextError::Form { position, message: expected_found(expected, found) })
    }

    /// The arities of the names are not those of the book.
    pub fn unfit_names(names: &Symbols, arities: &[u8]) -> TextError {
        let of_book = Symbols::by_number(arities).statement();
        let expected = format!("names for the arities of `{of_book}`");
        TextError::Names(expected_found(expected, format!("`{}`", names.statement())))
    }

    /// The message with the file's name before it. A refusal of the book while a
    /// certificate is packed or printed is the book's.
    pub fn in_files(&self, book: &str, file: &str) -> String {
        match self {
            TextError::Form { .. } | TextError::Refused { place: Some(_), .. } => {
                format!("{file}:{self}")
            }
            TextError::Refused { refusal, .. } if refusal.w == BOOK => format!("{book}: {self}"),
            TextError::Refused { .. } | TextError::Names(_) => format!("{file}: {self}"),
        }
    }
}

impl fmt::Display for TextError {
    fn fmt(&self, f: &mut fmt::Formatter<'_>) -> fmt::Result {
        match self {
            TextError::Form { position, message } => write!(f, "{position}: {message}"),
            TextError::Refused { refusal, place: Some((position, message)) } => {
                write!(f, "{position}: {message} ({})", refusal_line(refusal))
            }
            TextError::Refused { refusal, place: None } => {
                write!(f, "{} ({})", refusal_words(refusal, None), refusal_line(refusal))
            }
            TextError::Names(message) => write!(f, "{message}"),
        }
    }
}

fn refusal_line(refusal: &Refusal) -> String {
    verdict_line(&Verdict::Refused(*refusal))
}
