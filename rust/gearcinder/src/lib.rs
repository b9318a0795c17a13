//! Judges certificates which say that calls of a rule book have derivations of every
//! length.
//!
//! A rule book is a small logic program. A certificate names a family of calls of
//! that program, and says why they can go on. [`judge`] accepts exactly the
//! certificates that meet the rules, and ends on all input. This, and what acceptance
//! means, is proved of the library that this crate links, not of this crate, which
//! only passes slices on.
//!
//! # What acceptance means
//!
//! For every number of steps, every call of the family (the named line's left, at an
//! index from α on, its variables filled by any terms) has a derivation of that length
//! by some choice of rules, in which each step replaces the first call by the calls of
//! a rule so filled that its head is exactly that call. It does not mean that every
//! choice of rules goes on: with the book `a. a :- b. a :- a.` a certificate for `a` is
//! accepted, although `a` also succeeds at once by the first rule and gets stuck by the
//! second.
//!
//! # Use
//!
//! ```
//! // The book "a if a", and a certificate for `a`.
//! let book = [0x01, 0x00, 0x11, 0x40, 0x10, 0x00];
//! let certificate = [0x01, 0x20, 0x14, 0, 0, 0x40, 0, 0, 0, 0, 0, 0];
//! let mut work = vec![0; gearcinder::WORK_NUMBERS];
//! let verdict = gearcinder::judge(&book, &certificate, &mut work);
//! assert_eq!(verdict.to_string(), "accept 0 0 0");
//! ```
//!
//! [`covers`] tells whether a call is in the family of an accepted certificate, and at
//! which index.
//!
//! ```
//! # let book = [0x01, 0x00, 0x11, 0x40, 0x10, 0x00];
//! # let certificate = [0x01, 0x20, 0x14, 0, 0, 0x40, 0, 0, 0, 0, 0, 0];
//! # let mut work = vec![0; gearcinder::WORK_NUMBERS];
//! // The call `a`.
//! let call = [0x40, 0x00];
//! let coverage = gearcinder::covers(&book, &certificate, &call, &mut work);
//! assert_eq!(coverage, gearcinder::Coverage::Covered { index: 0 });
//! ```
//!
//! Both files, and the call, are packed. [`read_book`] and [`read_certificate`] turn bytes into
//! a list of fields, [`write_book`] and [`write_certificate`] turn such a list
//! back into bytes. All memory is lent by the caller; nothing is allocated and
//! nothing is kept between calls.
//!
//! ```
//! let book = [0x01, 0x00, 0x11, 0x40, 0x10, 0x00];
//! let mut fields = [0; 100];
//! let count = gearcinder::read_book(&book, &mut fields)?;
//! let mut again = [0; 100];
//! let length = gearcinder::write_book(&fields[..count], &mut again)?;
//! assert_eq!(again[..length], book);
//! # Ok::<(), gearcinder::Refusal>(())
//! ```
//!
//! To build, set `GEARCINDER_LIB_DIR` to the folder of `libembed.a`.

mod answers;
pub mod raw;

use answers::told;
pub use answers::{Acceptance, Coverage, Place, Refusal, Verdict};
use raw::Numbers;

/// The judge refuses a work table that is shorter than this.
pub const WORK_NUMBERS: usize = 8_192;
/// The most bytes of a rule book.
pub const BOOK_BYTES: usize = 16_384;
/// The most bytes of a certificate.
pub const CERTIFICATE_BYTES: usize = 32_768;

/// Judges a certificate over its rule book.
///
/// `work` may hold anything; it is all zeros afterwards. If it has fewer than
/// [`WORK_NUMBERS`] numbers, that is refusal 1, and it keeps what it held.
pub fn judge(book: &[u8], certificate: &[u8], work: &mut [u64]) -> Verdict {
    let mut numbers = Numbers::default();
    raw::judge(book, certificate, work, &mut numbers);
    match told(numbers) {
        Ok([line, k, alpha]) => Verdict::Accepted(Acceptance { line, k, alpha }),
        Err(refusal) => Verdict::Refused(refusal),
    }
}

/// Is this call in the family that the certificate names? The certificate is judged first;
/// if it is refused, that is the answer, and the call is not looked at.
///
/// `call` is one term, packed as a file, with a = 0 in all its powers. `work` is as for
/// [`judge`].
pub fn covers(book: &[u8], certificate: &[u8], call: &[u8], work: &mut [u64]) -> Coverage {
    let mut numbers = Numbers::default();
    raw::covers(book, certificate, call, work, &mut numbers);
    match told(numbers) {
        Ok([index, _, _]) => Coverage::Covered { index },
        Err(refusal) => Coverage::Refused(refusal),
    }
}

/// Reads a book's bytes into a list of its fields, and answers how many there
/// are. The rest of `out` is kept; a refusal keeps it whole.
pub fn read_book(book: &[u8], out: &mut [u16]) -> Result<usize, Refusal> {
    let mut numbers = Numbers::default();
    raw::read_book(book, out, &mut numbers);
    filled(numbers)
}

/// Reads a certificate's bytes into a list of its fields, and answers how many
/// there are. The rest of `out` is kept; a refusal keeps it whole.
pub fn read_certificate(
    book: &[u8],
    certificate: &[u8],
    out: &mut [u16],
) -> Result<usize, Refusal> {
    let mut numbers = Numbers::default();
    raw::read_certificate(book, certificate, out, &mut numbers);
    filled(numbers)
}

/// Writes a list of a book's fields into its bytes, and answers how many there
/// are. The rest of `out` is kept; a refusal keeps it whole.
pub fn write_book(fields: &[u16], out: &mut [u8]) -> Result<usize, Refusal> {
    let mut numbers = Numbers::default();
    raw::write_book(fields, out, &mut numbers);
    filled(numbers)
}

/// Writes a list of a certificate's fields into its bytes, and answers how many
/// there are. The rest of `out` is kept; a refusal keeps it whole.
pub fn write_certificate(book: &[u8], fields: &[u16], out: &mut [u8]) -> Result<usize, Refusal> {
    let mut numbers = Numbers::default();
    raw::write_certificate(book, fields, out, &mut numbers);
    filled(numbers)
}

fn filled(numbers: Numbers) -> Result<usize, Refusal> {
    told(numbers).map(|[count, _, _]| count as usize)
}
