//! Words, numbers and signs of the text form.

use crate::repeat::repeated;
use crate::TextError;
use std::fmt;

/// Line and column, both from 1.
#[derive(Clone, Copy, Debug, PartialEq, Eq)]
pub struct Position {
    pub line: usize,
    pub column: usize,
}

impl fmt::Display for Position {
    fn fmt(&self, f: &mut fmt::Formatter<'_>) -> fmt::Result {
        write!(f, "{}:{}", self.line, self.column)
    }
}

#[derive(Clone, Debug, PartialEq, Eq)]
pub enum Token {
    /// Letters, digits and underscores: a name, a number, a variable or one of
    /// the form's own words.
    Word(String),
    Sign(&'static str),
    End,
}

/// As messages name it.
impl fmt::Display for Token {
    fn fmt(&self, f: &mut fmt::Formatter<'_>) -> fmt::Result {
        match self {
            Token::Word(word) => write!(f, "`{word}`"),
            Token::Sign(sign) => write!(f, "`{sign}`"),
            Token::End => write!(f, "the end"),
        }
    }
}

const SIGNS: [&str; 14] = [":-", "->", "(", ")", "{", "}", "[", "]", ",", ".", "=", "^", "/", ":"];

/// The tokens with their positions, repetitions written out. `%` begins a comment up
/// to the line's end.
pub fn tokens(text: &str) -> Result<Vec<(Token, Position)>, TextError> {
    repeated(&plain_tokens(text)?)
}

fn plain_tokens(text: &str) -> Result<Vec<(Token, Position)>, TextError> {
    let mut found = Vec::new();
    for (number, content) in text.lines().enumerate() {
        let content = content.split('%').next().unwrap_or("");
        tokens_of_line(content, number + 1, &mut found)?;
    }
    found.push((Token::End, end_of(text)));
    Ok(found)
}

/// The place behind the text's last letter.
fn end_of(text: &str) -> Position {
    let last = text.rsplit('\n').next().unwrap_or("");
    Position { line: text.matches('\n').count() + 1, column: last.chars().count() + 1 }
}

fn tokens_of_line(
    content: &str,
    line: usize,
    found: &mut Vec<(Token, Position)>,
) -> Result<(), TextError> {
    let mut rest = content;
    let mut column = 1;
    while let Some(first) = rest.chars().next() {
        let position = Position { line, column };
        let length = if first.is_whitespace() {
            first.len_utf8()
        } else if is_word(first) {
            let length = word_length(rest);
            found.push((Token::Word(rest[..length].to_string()), position));
            length
        } else if let Some(sign) = SIGNS.iter().find(|sign| rest.starts_with(**sign)) {
            found.push((Token::Sign(sign), position));
            sign.len()
        } else {
            let other = format!("`{}`", first.escape_debug());
            return TextError::expected(position, "a word or a sign of the form", other);
        };
        column += rest[..length].chars().count();
        rest = &rest[length..];
    }
    Ok(())
}

fn is_word(c: char) -> bool {
    c.is_ascii_alphanumeric() || c == '_' || c == '#'
}

/// How far a word goes: `#+1` and `#-1` belong to it.
fn word_length(text: &str) -> usize {
    let mut length = 0;
    loop {
        let rest = &text[length..];
        length += match rest.as_bytes() {
            [b'#', b'+' | b'-', digit, ..] if digit.is_ascii_digit() => 2,
            [first, ..] if is_word(char::from(*first)) => 1,
            _ => return length,
        };
    }
}
