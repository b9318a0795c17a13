//! Reading turns bytes into a field list, writing turns a list into bytes.

use crate::answer::{Answer, Refusal, BOOK, CERTIFICATE};
use crate::grammar::{whole_book, whole_call, whole_certificate};
use crate::model::{Book, Certificate};
use crate::source::{Bits, List};
use crate::spell::{pack, values, Field};
use crate::term::Term;

/// "rule book over 16,384 bytes or certificate over 32,768, read or written"
pub const BOOK_BYTES: usize = 16_384;
pub const CERTIFICATE_BYTES: usize = 32_768;

/// The lengths of both files, then the book, then the certificate.
pub fn parse_both(book: &[u8], certificate: &[u8]) -> Result<(Book, Certificate), Refusal> {
    let (book, certificate, _) = certificate_with_fields(book, certificate)?;
    Ok((book, certificate))
}

pub fn parse_book(book: &[u8]) -> Result<Book, Refusal> {
    Ok(book_with_fields(book)?.0)
}

pub fn parse_certificate(book: &[u8], certificate: &[u8]) -> Result<Certificate, Refusal> {
    Ok(parse_both(book, certificate)?.1)
}

/// A packed call of a book. It has no length of its own that is too much.
pub fn parse_call(book: &Book, call: &[u8]) -> Result<Term, Refusal> {
    Ok(whole_call(Bits::new(call), &book.arities)?.0)
}

/// Packs the fields of a call; a refusal names the field.
pub fn packed_call(book: &Book, fields: &[u16]) -> Result<Vec<u8>, Refusal> {
    Ok(pack(&whole_call(List::new(fields), &book.arities)?.1))
}

pub fn read_book(book: &[u8], out: &mut [u16]) -> Answer {
    let fields = book_with_fields(book).map(|(_, fields)| values(&fields));
    answer(fields.and_then(|fields| lend(&fields, out, BOOK)))
}

pub fn read_certificate(book: &[u8], certificate: &[u8], out: &mut [u16]) -> Answer {
    let fields = certificate_with_fields(book, certificate).map(|(_, _, fields)| values(&fields));
    answer(fields.and_then(|fields| lend(&fields, out, CERTIFICATE)))
}

pub fn write_book(fields: &[u16], out: &mut [u8]) -> Answer {
    answer(whole_book(List::new(fields)).and_then(|(_, fields)| {
        let bytes = pack(&fields);
        // "For the file being written, 2 stands after 7 and before 8."
        fits_the_file(&bytes, BOOK_BYTES, BOOK)?;
        lend(&bytes, out, BOOK)
    }))
}

pub fn write_certificate(book: &[u8], fields: &[u16], out: &mut [u8]) -> Answer {
    answer(book_with_fields(book).and_then(|(book, _)| {
        let (_, fields) = whole_certificate(List::new(fields), &book)?;
        let bytes = pack(&fields);
        // "For the file being written, 2 stands after 7 and before 8."
        fits_the_file(&bytes, CERTIFICATE_BYTES, CERTIFICATE)?;
        lend(&bytes, out, CERTIFICATE)
    }))
}

fn book_with_fields(book: &[u8]) -> Result<(Book, Vec<Field>), Refusal> {
    fits_the_file(book, BOOK_BYTES, BOOK)?;
    whole_book(Bits::new(book))
}

/// "Order: 1; 2 (book first); the whole book field by field; the whole
/// certificate".
fn certificate_with_fields(
    book: &[u8],
    certificate: &[u8],
) -> Result<(Book, Certificate, Vec<Field>), Refusal> {
    fits_the_file(book, BOOK_BYTES, BOOK)?;
    fits_the_file(certificate, CERTIFICATE_BYTES, CERTIFICATE)?;
    let (book, _) = whole_book(Bits::new(book))?;
    let (certificate, fields) = whole_certificate(Bits::new(certificate), &book)?;
    Ok((book, certificate, fields))
}

fn fits_the_file(bytes: &[u8], most: usize, w: u8) -> Result<(), Refusal> {
    if bytes.len() > most {
        Err(Refusal::placeless(2, w))
    } else {
        Ok(())
    }
}

/// "Reading and writing fill the first places of the output on success and keep
/// the rest"; 8 if "the output doesn't fit the lent slice".
fn lend<T: Copy>(made: &[T], out: &mut [T], w: u8) -> Result<usize, Refusal> {
    let places = out.get_mut(..made.len()).ok_or(Refusal::placeless(8, w))?;
    places.copy_from_slice(made);
    Ok(made.len())
}

fn answer(result: Result<usize, Refusal>) -> Answer {
    match result {
        Ok(count) => Answer::Filled(count),
        Err(refusal) => Answer::Refused(refusal),
    }
}
