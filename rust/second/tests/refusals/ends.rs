//! 3 and 7: files that end too early, or have something left over.

use crate::common::*;
use crate::{small_book, small_bytes};
use second::spell::{book_fields, certificate_fields, pack, pack_book, pack_certificate};
use second::*;

#[test]
fn refusal_3_in_every_cut() {
    let book = small_bytes();
    for length in 0..book.len() {
        let Answer::Refused(refusal) = read_b(&book[..length]) else { panic!() };
        assert_eq!((refusal.number, refusal.w, refusal.b), (3, 0, 0));
        let bits = length as u64 * 8;
        assert!(refusal.a <= bits && bits < refusal.a + 12);
    }
    let list = book_list(&small_book());
    for length in 0..list.len() {
        assert_eq!(write_b(&list[..length]), no(3, 0, length as u64));
    }
    let w = pack_book(&book_w());
    let list = certificate_list(&certificate_w());
    for length in 0..list.len() {
        assert_eq!(write_c(&w, &list[..length]), no(3, 1, length as u64));
    }
    let bytes = pack_certificate(&certificate_w());
    for length in 0..bytes.len() {
        let Answer::Refused(refusal) = read_c(&w, &bytes[..length]) else { panic!() };
        assert_eq!((refusal.number, refusal.w, refusal.b), (3, 1, 0));
    }
}

#[test]
fn refusal_3_runs_past_the_end() {
    // Symbol count 2, first arity begins at bit 8 in a book of one byte.
    assert_eq!(read_b(&[2]), no(3, 0, 8));
    // Three arities of 4 bits, the rule count runs past the end.
    assert_eq!(read_b(&[3, 0, 0]), no(3, 0, 20));
    assert_eq!(read_b(&[3, 0, 0, 0]), Answer::Filled(5));
}

#[test]
fn refusal_7() {
    // 8 + 4 + 8 = 20 bits, then 4 padding bits.
    assert_eq!(read_b(&[1, 0, 0]), Answer::Filled(3));
    for bit in 0..4 {
        assert_eq!(read_b(&[1, 0, 1 << bit]), no(7, 0, 20));
    }
    assert_eq!(read_b(&[1, 0, 0, 0]), no(7, 0, 20));
    // A whole byte end, then a byte left over.
    assert_eq!(read_b(&[0, 0]), Answer::Filled(2));
    assert_eq!(read_b(&[0, 0, 0]), no(7, 0, 16));
    assert_eq!(write_b(&[0, 0]), Answer::Filled(2));
    assert_eq!(write_b(&[0, 0, 0]), no(7, 0, 2));
    let w = pack_book(&book_w());
    let fields = certificate_fields(&certificate_w());
    let width: u64 = fields.iter().map(|f| u64::from(f.width)).sum();
    let mut bytes = pack(&fields);
    bytes.push(0);
    assert_eq!(read_c(&w, &bytes), no(7, 1, width));
    let list = [&certificate_list(&certificate_w())[..], &[0]].concat();
    assert_eq!(write_c(&w, &list), no(7, 1, fields.len() as u64));
    // The book's 7 stands before the certificate.
    let long_book = [&w[..], &[0]].concat();
    let book_width: u64 = book_fields(&book_w()).iter().map(|f| u64::from(f.width)).sum();
    assert_eq!(read_c(&long_book, &[]), no(7, 0, book_width));
    assert_eq!(write_c(&long_book, &[]), no(7, 0, book_width));
}
