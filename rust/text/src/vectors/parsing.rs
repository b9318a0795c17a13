//! From the text of vectors to vectors.

use super::contents::{from_hex, number, Contents, LISTED};
use super::rewriting::rewritten;
use super::{frame, File, Operation, Vector, USUAL_WORK};
use crate::errors::expected_found;
use crate::lexer::Position;
use crate::statements::{book_fields, call_fields_over, certificate_fields_over};
use crate::symbols::Symbols;
use crate::TextError;
use second::spell::Field;
use std::collections::BTreeMap;

type Read<T> = Result<T, TextError>;

/// A line that begins at the margin, with the indented lines below it.
struct Section<'a> {
    line: usize,
    words: Vec<&'a str>,
    /// The indented lines, at their places in the whole text.
    body: String,
}

impl Section<'_> {
    fn wrong<T>(&self, message: impl Into<String>) -> Read<T> {
        let position = Position { line: self.line, column: 1 };
        Err(TextError::Form { position, message: message.into() })
    }

    fn has_body(&self) -> bool {
        !self.body.trim().is_empty()
    }
}

/// Reads vectors, and holds each to the answer that it states.
pub fn parse_vectors(text: &str) -> Read<Vec<Vector>> {
    let mut vectors = Vec::new();
    let mut texts = BTreeMap::new();
    let mut draft: Option<Draft> = None;
    for section in sections(text)? {
        match (section.words.as_slice(), &mut draft) {
            (["define", name], None) => {
                texts.insert(name.to_string(), section.body);
            }
            (["vector", name], None) => draft = Some(Draft::new(name)),
            (["answer", answer @ ..], Some(begun)) => {
                let vector = begun.finished(answer).or_else(|fault| section.wrong(fault))?;
                held_to_its_answer(&vector).or_else(|fault| section.wrong(fault))?;
                vectors.push(vector);
                draft = None;
            }
            (_, Some(begun)) => begun.take(&section, &texts)?,
            (words, None) => {
                let expected = "`define NAME` or `vector NAME`";
                return section.wrong(expected_found(expected, format!("`{}`", words.join(" "))));
            }
        }
    }
    match draft {
        None => Ok(vectors),
        Some(begun) => {
            let position = Position { line: text.lines().count() + 1, column: 1 };
            let expected = format!("`answer` for the vector {}", begun.name);
            TextError::expected(position, expected, "the end")
        }
    }
}

fn held_to_its_answer(vector: &Vector) -> Result<(), String> {
    let found = vector.outcome().answer;
    match found == vector.answer {
        true => Ok(()),
        false => {
            let expected = format!("the answer `{found}` of {}", vector.name);
            Err(expected_found(expected, format!("`{}`", vector.answer)))
        }
    }
}

fn sections(text: &str) -> Read<Vec<Section<'_>>> {
    let mut found: Vec<Section> = Vec::new();
    for (number, content) in text.lines().enumerate() {
        let content = content.split('%').next().unwrap_or("");
        let indented = content.starts_with([' ', '\t']);
        match (found.last_mut(), indented) {
            _ if content.trim().is_empty() => (),
            (Some(section), true) => {
                while section.body.matches('\n').count() < number {
                    section.body.push('\n');
                }
                section.body += content;
            }
            (None, true) => {
                let position = Position { line: number + 1, column: 1 };
                return TextError::expected(position, "a line at the margin", "an indented one");
            }
            (_, false) => {
                let words = content.split_whitespace().collect();
                found.push(Section { line: number + 1, words, body: String::new() });
            }
        }
    }
    Ok(found)
}

/// A vector that is being put together.
struct Draft {
    name: String,
    operation: Option<Operation>,
    work: Option<usize>,
    room: Option<usize>,
    symbols: Symbols,
    book: Option<Contents>,
    certificate: Option<Contents>,
    call: Option<Contents>,
    input: Option<Contents>,
    /// Which file the changes that follow are of.
    last: Option<Which>,
}

#[derive(Clone, Copy, PartialEq, Eq)]
enum Which {
    Book,
    Certificate,
    Call,
    Input,
}

impl Draft {
    fn new(name: &str) -> Draft {
        Draft {
            name: name.to_string(),
            operation: None,
            work: None,
            room: None,
            symbols: Symbols::default(),
            book: None,
            certificate: None,
            call: None,
            input: None,
            last: None,
        }
    }

    fn take(&mut self, section: &Section, texts: &BTreeMap<String, String>) -> Read<()> {
        match section.words.as_slice() {
            ["judge"] => self.operation = Some(Operation::Judge),
            ["input"] => self.operation = Some(Operation::Input),
            ["read-book"] => self.operation = Some(Operation::ReadBook),
            ["read-certificate"] => self.operation = Some(Operation::ReadCertificate),
            ["write-book"] => self.operation = Some(Operation::WriteBook),
            ["write-certificate"] => self.operation = Some(Operation::WriteCertificate),
            ["covers"] => self.operation = Some(Operation::Covers),
            ["work", count] => self.work = Some(number(count).or_else(|f| section.wrong(f))?),
            ["room", count] => self.room = Some(number(count).or_else(|f| section.wrong(f))?),
            ["book", rest @ ..] => {
                self.book = Some(self.contents(Which::Book, rest, section, texts)?);
                self.last = Some(Which::Book);
            }
            ["certificate", rest @ ..] => {
                self.certificate = Some(self.contents(Which::Certificate, rest, section, texts)?);
                self.last = Some(Which::Certificate);
            }
            ["call", rest @ ..] => {
                self.call = Some(self.contents(Which::Call, rest, section, texts)?);
                self.last = Some(Which::Call);
            }
            ["frame", rest @ ..] => {
                self.input = Some(self.framed(rest).or_else(|fault| section.wrong(fault))?);
                self.last = Some(Which::Input);
            }
            change => {
                let contents = match self.last {
                    Some(Which::Book) => self.book.as_mut(),
                    Some(Which::Certificate) => self.certificate.as_mut(),
                    Some(Which::Call) => self.call.as_mut(),
                    Some(Which::Input) => self.input.as_mut(),
                    None => None,
                };
                let Some(contents) = contents else {
                    let found = format!("`{}`", change.join(" "));
                    return section.wrong(expected_found("a file before it is changed", found));
                };
                contents.change(change).or_else(|fault| section.wrong(fault))?;
            }
        }
        Ok(())
    }

    /// What follows `book`, `certificate` or `call`: hex, numbers, a name, or text.
    fn contents(
        &mut self,
        which: Which,
        words: &[&str],
        section: &Section,
        texts: &BTreeMap<String, String>,
    ) -> Read<Contents> {
        match words {
            ["bytes", hex @ ..] => {
                Ok(Contents::Bytes(from_hex(hex).or_else(|fault| section.wrong(fault))?))
            }
            ["fields", list @ ..] => {
                let field = |word: &&str| {
                    number(word).map(|value| Field { value: value as u16, width: LISTED })
                };
                let fields: Result<Vec<Field>, String> = list.iter().map(field).collect();
                Ok(Contents::Fields(fields.or_else(|fault| section.wrong(fault))?))
            }
            [name, changes @ ..] => {
                let unknown = || expected_found("the name of a text", format!("`{name}`"));
                let text = texts.get(*name).ok_or_else(unknown);
                let text = text.and_then(|text| rewritten(text, changes));
                self.of_text(which, &text.or_else(|fault| section.wrong(fault))?)
            }
            [] if section.has_body() => self.of_text(which, &section.body),
            _ => {
                let expected = "`bytes`, `fields`, a name or indented text";
                section.wrong(expected_found(expected, "nothing"))
            }
        }
    }

    fn of_text(&mut self, which: Which, text: &str) -> Read<Contents> {
        match which {
            Which::Book => {
                let reader = book_fields(text)?;
                self.symbols = reader.symbols;
                Ok(Contents::Fields(reader.fields))
            }
            Which::Call => Ok(Contents::Fields(call_fields_over(text, &self.symbols)?.fields)),
            _ => Ok(Contents::Fields(certificate_fields_over(text, &self.symbols)?.fields)),
        }
    }

    /// The program's input, with the book's length or another.
    fn framed(&self, words: &[&str]) -> Result<Contents, String> {
        let length = match words {
            [] => None,
            [length] => Some(number(length)? as u16),
            _ => return Err(expected_found("`frame` or `frame LENGTH`", "more words")),
        };
        let book = bytes_of(&self.book)?;
        let certificate = bytes_of(&self.certificate)?;
        Ok(Contents::Bytes(frame(&book, &certificate, length)))
    }

    fn finished(&self, answer: &[&str]) -> Result<Vector, String> {
        let operation = self.operation.ok_or(expected_found("the operation", "none"))?;
        let room = || self.room.ok_or(expected_found("`room`", "none"));
        let (book, certificate) = (&self.book, &self.certificate);
        let (first, second, lent) = match operation {
            Operation::Judge | Operation::Covers => {
                let work = self.work.unwrap_or(USUAL_WORK);
                (File::Bytes(bytes_of(book)?), File::Bytes(bytes_of(certificate)?), work)
            }
            Operation::Input => {
                let work = self.work.unwrap_or(USUAL_WORK);
                (File::Bytes(bytes_of(&self.input)?), File::nothing(), work)
            }
            Operation::ReadBook => (File::Bytes(bytes_of(book)?), File::nothing(), room()?),
            Operation::ReadCertificate => {
                (File::Bytes(bytes_of(book)?), File::Bytes(bytes_of(certificate)?), room()?)
            }
            Operation::WriteBook => (File::List(list_of(book)?), File::nothing(), room()?),
            Operation::WriteCertificate => {
                (File::Bytes(bytes_of(book)?), File::List(list_of(certificate)?), room()?)
            }
        };
        let third = match operation {
            Operation::Covers => File::Bytes(bytes_of(&self.call)?),
            _ => File::nothing(),
        };
        if [first.len(), second.len(), third.len(), lent].into_iter().any(|length| length > 0xFFFF)
            || self.name.len() > 0xFF
        {
            return Err("too long to be packed".to_string());
        }
        let (name, answer) = (self.name.clone(), answer.join(" "));
        Ok(Vector { name, operation, lent, first, second, third, answer })
    }
}

fn bytes_of(contents: &Option<Contents>) -> Result<Vec<u8>, String> {
    contents.as_ref().ok_or(expected_found("a file", "none"))?.bytes()
}

fn list_of(contents: &Option<Contents>) -> Result<Vec<u16>, String> {
    contents.as_ref().ok_or(expected_found("a file", "none"))?.list()
}
