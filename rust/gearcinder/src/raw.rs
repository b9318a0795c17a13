//! The library's own six functions, over slices of numbers.
//!
//! Each answers by [`Numbers`]: 0 and what was found, or 1 and the refusal's number,
//! W, A and B. What was found is, for [`judge`], the line, k, α and 0; for [`covers`],
//! the index and three zeros; for the others, the number of places filled and three
//! zeros. The functions of the crate's
//! root put this into types.

/// An answer.
pub type Numbers = [u64; 5];

// SAFETY, for every call below: a slice crosses as its pointer and its length, the
// answer as a pointer; the library reads and writes nothing outside of these, and the
// borrows keep what it writes apart from all else.

/// Judges a certificate over its rule book.
pub fn judge(book: &[u8], certificate: &[u8], work: &mut [u64], answer: &mut Numbers) {
    unsafe {
        c::gearcinder_judge(
            book.as_ptr(),
            book.len(),
            certificate.as_ptr(),
            certificate.len(),
            work.as_mut_ptr(),
            work.len(),
            answer,
        )
    }
}

/// Asks whether a call is in the family that an accepted certificate names.
pub fn covers(
    book: &[u8],
    certificate: &[u8],
    call: &[u8],
    work: &mut [u64],
    answer: &mut Numbers,
) {
    unsafe {
        c::gearcinder_covers(
            book.as_ptr(),
            book.len(),
            certificate.as_ptr(),
            certificate.len(),
            call.as_ptr(),
            call.len(),
            work.as_mut_ptr(),
            work.len(),
            answer,
        )
    }
}

/// Reads a book's bytes into a list of its fields.
pub fn read_book(book: &[u8], out: &mut [u16], answer: &mut Numbers) {
    unsafe {
        c::gearcinder_read_book(book.as_ptr(), book.len(), out.as_mut_ptr(), out.len(), answer)
    }
}

/// Reads a certificate's bytes, with its book's, into a list of its fields.
pub fn read_certificate(book: &[u8], certificate: &[u8], out: &mut [u16], answer: &mut Numbers) {
    unsafe {
        c::gearcinder_read_certificate(
            book.as_ptr(),
            book.len(),
            certificate.as_ptr(),
            certificate.len(),
            out.as_mut_ptr(),
            out.len(),
            answer,
        )
    }
}

/// Writes a list of a book's fields into its bytes.
pub fn write_book(fields: &[u16], out: &mut [u8], answer: &mut Numbers) {
    unsafe {
        c::gearcinder_write_book(fields.as_ptr(), fields.len(), out.as_mut_ptr(), out.len(), answer)
    }
}

/// Writes a list of a certificate's fields, with its book's bytes, into its bytes.
pub fn write_certificate(book: &[u8], fields: &[u16], out: &mut [u8], answer: &mut Numbers) {
    unsafe {
        c::gearcinder_write_certificate(
            book.as_ptr(),
            book.len(),
            fields.as_ptr(),
            fields.len(),
            out.as_mut_ptr(),
            out.len(),
            answer,
        )
    }
}

/// The functions as C sees them (include/gearcinder.h).
mod c {
    use super::Numbers;

    #[link(name = "embed", kind = "static")]
    extern "C" {
        pub fn gearcinder_judge(
            book: *const u8,
            book_length: usize,
            certificate: *const u8,
            certificate_length: usize,
            work: *mut u64,
            work_length: usize,
            answer: *mut Numbers,
        );

        pub fn gearcinder_covers(
            book: *const u8,
            book_length: usize,
            certificate: *const u8,
            certificate_length: usize,
            call: *const u8,
            call_length: usize,
            work: *mut u64,
            work_length: usize,
            answer: *mut Numbers,
        );

        pub fn gearcinder_read_book(
            book: *const u8,
            book_length: usize,
            out: *mut u16,
            out_length: usize,
            answer: *mut Numbers,
        );

        pub fn gearcinder_read_certificate(
            book: *const u8,
            book_length: usize,
            certificate: *const u8,
            certificate_length: usize,
            out: *mut u16,
            out_length: usize,
            answer: *mut Numbers,
        );

        pub fn gearcinder_write_book(
            fields: *const u16,
            fields_length: usize,
            out: *mut u8,
            out_length: usize,
            answer: *mut Numbers,
        );

        pub fn gearcinder_write_certificate(
            book: *const u8,
            book_length: usize,
            fields: *const u16,
            fields_length: usize,
            out: *mut u8,
            out_length: usize,
            answer: *mut Numbers,
        );
    }
}
