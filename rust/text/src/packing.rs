//! From text to packed bytes.

use crate::reader::{Read, Reader};
use crate::statements::{book_fields, lines_and_closing, one_call};
use crate::symbols::Symbols;
use crate::terms::Table;
use crate::TextError;
use second::answer::{BOOK, CALL, CERTIFICATE};
use second::files::{packed_call, parse_book, BOOK_BYTES, CERTIFICATE_BYTES};
use second::spell::values;
use second::{write_book, write_certificate, Answer, Book, Refusal};

/// Packs the text of a rule book.
pub fn pack_book_text(text: &str) -> Read<Vec<u8>> {
    let reader = book_fields(text)?;
    let mut out = vec![0; BOOK_BYTES];
    let answer = write_book(&values(&reader.fields), &mut out);
    packed(answer, out, BOOK, &reader)
}

/// Packs the text of a certificate over a packed rule book. Its symbol list must have
/// the book's arities.
pub fn pack_certificate_text(book: &[u8], text: &str) -> Read<Vec<u8>> {
    pack_certificate_named(book, None, text)
}

/// The same; where the names of the book are known, the table must have these too.
pub fn pack_certificate_named(book: &[u8], names: Option<&Symbols>, text: &str) -> Read<Vec<u8>> {
    let parsed = book_with(book, names)?;
    let mut reader = Reader::new(text)?;
    let table = reader.symbol_table()?;
    same_symbols(&reader, &table, &OfBook { arities: &parsed.arities, names })?;
    reader.symbols = table.symbols;
    let reader = lines_and_closing(reader)?;
    let mut out = vec![0; CERTIFICATE_BYTES];
    let answer = write_certificate(book, &values(&reader.fields), &mut out);
    packed(answer, out, CERTIFICATE, &reader)
}

/// Packs the text of a call over a packed rule book. It may have a symbol list, which must
/// be the book's; without one the names are these, or names by number.
pub fn pack_call_named(book: &[u8], names: Option<&Symbols>, text: &str) -> Read<Vec<u8>> {
    let parsed = book_with(book, names)?;
    let mut reader = Reader::new(text)?;
    reader.symbols = match reader.table_follows() {
        true => {
            let table = reader.symbol_table()?;
            same_symbols(&reader, &table, &OfBook { arities: &parsed.arities, names })?;
            table.symbols
        }
        false => names.cloned().unwrap_or_else(|| Symbols::by_number(&parsed.arities)),
    };
    let reader = one_call(reader)?;
    let packed = packed_call(&parsed, &values(&reader.fields));
    packed.map_err(|refusal| refused(refusal, CALL, &reader))
}

/// The book, which has these names if they are known.
fn book_with(book: &[u8], names: Option<&Symbols>) -> Read<Book> {
    let parsed = parse_book(book);
    let parsed = parsed.map_err(|refusal| TextError::Refused { refusal, place: None })?;
    match names.filter(|names| !names.fit(&parsed.arities)) {
        None => Ok(parsed),
        Some(names) => Err(TextError::unfit_names(names, &parsed.arities)),
    }
}

/// What is known of the symbols of a book: the arities, and perhaps the names.
struct OfBook<'a> {
    arities: &'a [u8],
    names: Option<&'a Symbols>,
}

impl OfBook<'_> {
    fn is(&self, number: usize, name: &str, arity: u16) -> bool {
        let named = self.names.is_none_or(|names| names.name(number as u8) == name);
        named && arity == u16::from(self.arities[number])
    }

    /// One of its symbols, as a message calls it.
    fn called(&self, number: usize) -> String {
        let arity = self.arities[number];
        let symbol = match self.names {
            Some(names) => format!("`{}/{arity}`", names.name(number as u8)),
            None => format!("a symbol of arity {arity}"),
        };
        format!("{symbol}, symbol {number} of the book")
    }
}

/// Holds the certificate's table to the book's, symbol by symbol.
fn same_symbols(reader: &Reader, table: &Table, book: &OfBook) -> Read<()> {
    let count = book.arities.len();
    for (number, (name, arity)) in table.symbols.entries().enumerate() {
        let expected = match number < count {
            true if book.is(number, name, arity) => continue,
            true => book.called(number),
            false => format!("`.` after the {count} symbols of the book"),
        };
        let position = reader.position_of(table.names[number]);
        return TextError::expected(position, expected, format!("`{name}/{arity}`"));
    }
    match table.symbols.len() {
        all if all == count => Ok(()),
        next => TextError::expected(reader.position_of(table.stop), book.called(next), "`.`"),
    }
}

/// Cuts the output to what was written.
fn packed(answer: Answer, mut out: Vec<u8>, w: u8, reader: &Reader) -> Read<Vec<u8>> {
    match answer {
        Answer::Filled(count) => {
            out.truncate(count);
            Ok(out)
        }
        Answer::Refused(refusal) => Err(refused(refusal, w, reader)),
    }
}

/// Finds the place in the text that the refusal means.
fn refused(refusal: Refusal, w: u8, reader: &Reader) -> TextError {
    let of_a_field = refusal.w == w && (3..=7).contains(&refusal.number);
    let place = if of_a_field { reader.place_of(&refusal) } else { None };
    TextError::Refused { refusal, place }
}
