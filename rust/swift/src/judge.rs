//! The judge: its lent table, the framing of an input, and the order of everything.

use crate::answer::{placeless, Refusal, Verdict, BOOK, CERTIFICATE, CLOSING, LINE, NEITHER};
use crate::bits::Fault;
use crate::check::{Table, Unmet};
use crate::decode::{decode_book, decode_certificate};
use crate::store::{Closing, Store, BOOK_BYTES, CERTIFICATE_BYTES};

/// "the work table has fewer than 8,192 64-bit numbers"
pub const WORK_NUMBERS: usize = 8_192;
/// "More than 49,154 bytes is refusal 2".
const INPUT_BYTES: usize = 49_154;

/// Holds all memory that judging needs. Making one allocates it; a call allocates nothing.
pub struct Judge {
    store: Store,
    table: Table,
}

impl Default for Judge {
    fn default() -> Judge {
        Judge::new()
    }
}

impl Judge {
    pub fn new() -> Judge {
        Judge { store: Store::new(), table: Table::new() }
    }

    /// Judges a certificate over its book. The lent table isn't needed, but the promise is
    /// kept: it "is all zeros after every call but refusal 1, which doesn't touch it".
    pub fn judge(&mut self, book: &[u8], certificate: &[u8], work: &mut [u64]) -> Verdict {
        verdict(lent(work).and_then(|()| self.judged(book, certificate)))
    }

    /// The same for a whole input, in the program's framing.
    pub fn judge_input(&mut self, input: &[u8], work: &mut [u64]) -> Verdict {
        verdict(lent(work).and_then(|()| {
            let (book, certificate) = framed(input)?;
            self.judged(book, certificate)
        }))
    }

    /// "Order: 1; 2 (book first); the whole book field by field; the whole certificate;
    /// then lines from 0 up; then closing."
    fn judged(&mut self, book: &[u8], certificate: &[u8]) -> Result<Closing, Refusal> {
        let Judge { store, table } = self;
        fits(book, BOOK_BYTES, BOOK)?;
        fits(certificate, CERTIFICATE_BYTES, CERTIFICATE)?;
        store.clear();
        decode_book(book, store).map_err(|fault| in_file(fault, BOOK))?;
        let closing =
            decode_certificate(certificate, store).map_err(|fault| in_file(fault, CERTIFICATE))?;
        for (number, line) in (0..).zip(&store.lines) {
            table.line(store, line).map_err(|unmet| at_part(unmet, LINE, number))?;
        }
        let named = u64::from(closing.line);
        table.closing(store, &closing).map_err(|unmet| at_part(unmet, CLOSING, named))?;
        Ok(closing)
    }
}

fn verdict(judged: Result<Closing, Refusal>) -> Verdict {
    match judged {
        Ok(Closing { line, k, alpha, .. }) => {
            Verdict::Accepted { line: line.into(), k: k.into(), alpha: alpha.into() }
        }
        Err(refusal) => Verdict::Refused(refusal),
    }
}

fn lent(work: &mut [u64]) -> Result<(), Refusal> {
    if work.len() < WORK_NUMBERS {
        return Err(placeless(1, NEITHER));
    }
    work.fill(0);
    Ok(())
}

/// "More than 49,154 bytes is refusal 2, fewer than two bytes or fewer than the length
/// says is 3".
fn framed(input: &[u8]) -> Result<(&[u8], &[u8]), Refusal> {
    fits(input, INPUT_BYTES, NEITHER)?;
    let short = placeless(3, NEITHER);
    let (length, files) = input.split_first_chunk::<2>().ok_or(short)?;
    files.split_at_checked(usize::from(u16::from_be_bytes(*length))).ok_or(short)
}

fn fits(bytes: &[u8], most: usize, w: u8) -> Result<(), Refusal> {
    match bytes.len() <= most {
        true => Ok(()),
        false => Err(placeless(2, w)),
    }
}

/// "For 3 to 7, W is the file, A is the bit offset where the field begins".
fn in_file(fault: Fault, w: u8) -> Refusal {
    Refusal { number: fault.number, w, a: fault.at.into(), b: 0 }
}

/// "For 9 to 16, A is the line judged, in the closing the line named, and B is the part."
fn at_part(unmet: Unmet, w: u8, line: u64) -> Refusal {
    Refusal { number: unmet.number, w, a: line, b: unmet.part.into() }
}
