//! Books, certificates and calls from files, packed or, if the name ends in `.txt`, as text.

use crate::shell::{bytes_of, called, text_of, Failure};
use crate::{names_in, pack_book_text, pack_call_named, pack_certificate_named, Symbols};

/// A packed book; the names of its symbols are known if it was text.
pub struct Book {
    pub file: String,
    pub bytes: Vec<u8>,
    pub names: Option<Symbols>,
}

pub fn is_text(file: &str) -> bool {
    file.ends_with(".txt")
}

pub fn book_of(file: &str) -> Result<Book, Failure> {
    let (bytes, names) = match is_text(file) {
        false => (bytes_of(file)?, None),
        true => {
            let text = text_of(file)?;
            let names = names_in(&text);
            (packed_book(file, &text)?, names.ok())
        }
    };
    Ok(Book { file: called(file).to_string(), bytes, names })
}

pub fn certificate_of(book: &Book, file: &str) -> Result<Vec<u8>, Failure> {
    match is_text(file) {
        false => bytes_of(file),
        true => packed_certificate(book, file, &text_of(file)?),
    }
}

/// A call, from a file or as a term in the arguments.
#[derive(Clone, Copy)]
pub enum CallFrom<'a> {
    File(&'a str),
    Term(&'a str),
}

impl<'a> CallFrom<'a> {
    /// The last arguments of a command: `CALL` or `--term TERM`.
    pub fn words(words: &[&'a str]) -> Option<CallFrom<'a>> {
        match words {
            ["--term", term] => Some(CallFrom::Term(term)),
            [file] if *file == "-" || !file.starts_with('-') => Some(CallFrom::File(file)),
            _ => None,
        }
    }

    pub fn packed(self, book: &Book) -> Result<Vec<u8>, Failure> {
        match self {
            CallFrom::File(file) if is_text(file) => packed_call(book, file, &text_of(file)?),
            CallFrom::File(file) => bytes_of(file),
            CallFrom::Term(term) => packed_call(book, "the term", term),
        }
    }
}

pub fn packed_call(book: &Book, file: &str, text: &str) -> Result<Vec<u8>, Failure> {
    let packed = pack_call_named(&book.bytes, book.names.as_ref(), text);
    packed.map_err(|error| Failure::refused(error.in_files(&book.file, called(file))))
}

pub fn packed_book(file: &str, text: &str) -> Result<Vec<u8>, Failure> {
    let file = called(file);
    pack_book_text(text).map_err(|error| Failure::refused(error.in_files(file, file)))
}

pub fn packed_certificate(book: &Book, file: &str, text: &str) -> Result<Vec<u8>, Failure> {
    let packed = pack_certificate_named(&book.bytes, book.names.as_ref(), text);
    packed.map_err(|error| Failure::refused(error.in_files(&book.file, called(file))))
}

/// The input of the program `judge`: two bytes of length, high byte first, the book,
/// the certificate.
pub fn framed(book: &Book, certificate: &[u8]) -> Result<Vec<u8>, Failure> {
    match u16::try_from(book.bytes.len()) {
        Ok(length) => Ok([&length.to_be_bytes(), &book.bytes[..], certificate].concat()),
        Err(_) => {
            let (file, length) = (&book.file, book.bytes.len());
            let wanted = "expected a book of at most 65535 bytes, whose length two bytes can tell";
            Err(Failure::undone(format!("{file}: {wanted}, found {length}")))
        }
    }
}
