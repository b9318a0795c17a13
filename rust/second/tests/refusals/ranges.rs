//! 4: fields outside their ranges.

use crate::common::*;
use crate::{small_book, small_bytes};
use second::spell::{book_fields, certificate_fields, pack_book};
use second::*;

#[test]
fn refusal_4_in_books() {
    assert_eq!(read_b(&bits(&[(2, 8), (8, 4), (9, 4), (0, 8)])), no(4, 0, 12));
    assert_eq!(read_b(&bits(&[(2, 8), (8, 4), (8, 4), (0, 8)])), Answer::Filled(4));
    // Call count 9.
    assert_eq!(read_b(&bits(&[(1, 8), (0, 4), (1, 8), (9, 4)])), no(4, 0, 20));
    let eight = |count: u16| {
        let mut fields = vec![(1, 8), (0, 4), (1, 8), (count, 4)];
        (0..=count).for_each(|_| fields.extend([(1, 2), (0, 8)]));
        bits(&fields)
    };
    assert_eq!(read_b(&eight(8)), Answer::Filled(4 + 18));
    // Tags: a variable root, tag 3, and a variable as a later call's root.
    assert_eq!(read_b(&bits(&[(1, 8), (0, 4), (1, 8), (0, 4), (0, 2), (0, 6)])), no(4, 0, 24));
    assert_eq!(read_b(&bits(&[(1, 8), (0, 4), (1, 8), (0, 4), (3, 2), (0, 6)])), no(4, 0, 24));
    let second = [(1, 8), (0, 4), (1, 8), (1, 4), (1, 2), (0, 8), (0, 2), (0, 6)];
    assert_eq!(read_b(&bits(&second)), no(4, 0, 34));
    // Symbol out of range, unary under tag 1, not unary under tag 2.
    let symbol = |tag: u16, symbol: u16| {
        bits(&[
            (2, 8),
            (0, 4),
            (1, 4),
            (1, 8),
            (0, 4),
            (tag, 2),
            (symbol, 8),
            (0, 12),
            (0, 12),
            (0, 8),
        ])
    };
    assert_eq!(read_b(&symbol(1, 2)), no(4, 0, 30));
    assert_eq!(read_b(&symbol(1, 1)), no(4, 0, 30));
    assert_eq!(read_b(&symbol(2, 0)), no(4, 0, 30));
    assert_eq!(read_b(&symbol(2, 2)), no(4, 0, 30));
    // a is not 0 in a book.
    let power = [(2, 8), (0, 4), (1, 4), (1, 8), (0, 4), (2, 2), (1, 8), (1, 12), (0, 12)];
    assert_eq!(read_b(&bits(&power)), no(4, 0, 38));
    // Powers may be roots.
    let root = [(2, 8), (0, 4), (1, 4), (1, 8), (0, 4), (2, 2), (1, 8), (0, 12), (1, 12)];
    let with_argument = [&root[..], &[(0, 2), (63, 6)]].concat();
    assert_eq!(read_b(&bits(&with_argument)), Answer::Filled(11));
}

#[test]
fn refusal_4_too_wide_when_writing() {
    let good = book_list(&small_book());
    let widths: Vec<u32> = book_fields(&small_book()).iter().map(|f| f.width).collect();
    for (place, width) in widths.iter().enumerate() {
        let mut wide = good.clone();
        wide[place] |= 1 << width;
        assert_eq!(write_b(&wide), no(4, 0, place as u64));
        wide[place] = 0xFFFF;
        assert_eq!(write_b(&wide), no(4, 0, place as u64));
    }
    let w = pack_book(&book_w());
    let good = certificate_list(&certificate_w());
    let fields = certificate_fields(&certificate_w());
    for (place, field) in fields.iter().enumerate() {
        let mut wide = good.clone();
        wide[place] |= 1 << field.width;
        assert_eq!(write_c(&w, &wide), no(4, 1, place as u64));
    }
}

/// The certificate fields of one unfold line of rule 0 (c → empty) in front of
/// further fields.
pub const FIRST_LINE: [(u16, u32); 6] = [(0, 1), (1, 2), (0, 8), (0, 1), (0, 8), (0, 4)];

fn one_line(after: &[(u16, u32)]) -> Vec<u8> {
    bits(&[&[(1, 8)][..], &FIRST_LINE, after].concat())
}

#[test]
fn refusal_4_in_unfolds() {
    let book = small_bytes();
    // Kind, left c, empty right, then rule at bit 8 + 1 + 10 + 1 = 20.
    let rule_and_stop = |rule: u16, stop: u16| {
        let fields = [(1, 8), (0, 1), (1, 2), (0, 8), (0, 1), (rule, 8), (stop, 4), (0, 7)];
        bits(&[&fields[..], &[(0, 12); 20]].concat())
    };
    assert_eq!(read_c(&book, &rule_and_stop(3, 0)), no(4, 1, 20));
    assert_eq!(read_c(&book, &rule_and_stop(255, 0)), no(4, 1, 20));
    assert_eq!(read_c(&book, &rule_and_stop(0, 1)), no(4, 1, 28));
    assert_eq!(read_c(&book, &rule_and_stop(1, 0)), no(4, 1, 28));
    assert_eq!(read_c(&book, &rule_and_stop(1, 2)), no(4, 1, 28));
    assert_eq!(read_c(&book, &rule_and_stop(2, 0)), no(4, 1, 28));
    assert_eq!(read_c(&book, &rule_and_stop(2, 3)), no(4, 1, 28));
    // A use in line 0 has no earlier line: 4 at its line, bit 28 + 4 + 7.
    assert_eq!(read_c(&book, &rule_and_stop(2, 2)), no(4, 1, 39));
}

#[test]
fn refusal_4_in_fillings() {
    let book = small_bytes();
    // The filling's count of line 0 is at bit 32.
    assert_eq!(read_c(&book, &one_line(&[(65, 7)])), no(4, 1, 32));
    assert_eq!(read_c(&book, &one_line(&[(127, 7)])), no(4, 1, 32));
    let rising = |first: u16, second: u16| {
        one_line(&[
            (2, 7),
            (first, 6),
            (0, 2),
            (0, 6),
            (second, 6),
            (0, 2),
            (0, 6),
            (0, 8),
            (0, 12),
            (0, 12),
            (0, 7),
        ])
    };
    assert_eq!(read_c(&book, &rising(5, 5)), no(4, 1, 53));
    assert_eq!(read_c(&book, &rising(5, 4)), no(4, 1, 53));
    assert_eq!(read_c(&book, &rising(62, 63)), Answer::Filled(7 + 1 + 6 + 4));
    // All 64 variables are allowed; a lone variable may be a term.
    let mut full = vec![(64, 7)];
    (0..64).for_each(|name| full.extend([(name, 6), (0, 2), (name, 6)]));
    full.extend([(0, 8), (0, 12), (0, 12), (0, 7)]);
    assert_eq!(read_c(&book, &one_line(&full)), Answer::Filled(7 + 1 + 192 + 4));
}

#[test]
fn refusal_4_in_uses_and_descents() {
    let book = small_bytes();
    // Line 1 is a descent: kind, left x, empty right; its base is at bit
    // 39 + 1 + 8 + 1 = 49.
    let second = |base: u16, rule: u16| {
        let line = [(1, 1), (0, 2), (0, 6), (0, 1), (base, 8), (0, 12), (0, 12), (0, 7), (rule, 8)];
        let rest = [(0, 7), (0, 8), (0, 12), (0, 12), (0, 7)];
        bits(&[&[(2, 8)][..], &FIRST_LINE, &[(0, 7)], &line, &rest].concat())
    };
    assert_eq!(read_c(&book, &second(1, 1)), no(4, 1, 49));
    assert_eq!(read_c(&book, &second(2, 1)), no(4, 1, 49));
    assert_eq!(read_c(&book, &second(0, 0)), no(4, 1, 88));
    assert_eq!(read_c(&book, &second(0, 2)), no(4, 1, 88));
    assert_eq!(read_c(&book, &second(0, 3)), no(4, 1, 88));
    // A left that is a lone variable is read.
    assert_eq!(read_c(&book, &second(0, 1)), Answer::Filled(8 + 10 + 4));
}

#[test]
fn refusal_4_in_the_closing() {
    let book = small_bytes();
    // The closing's line is at bit 39, k at 47, α at 59.
    let closing = |line: u16, k: u16, alpha: u16| {
        one_line(&[(0, 7), (line, 8), (k, 12), (alpha, 12), (0, 7)])
    };
    assert_eq!(read_c(&book, &closing(1, 0, 0)), no(4, 1, 39));
    assert_eq!(read_c(&book, &closing(0, 4_095, 1)), no(4, 1, 59));
    assert_eq!(read_c(&book, &closing(0, 1, 4_095)), no(4, 1, 59));
    assert_eq!(read_c(&book, &closing(0, 4_095, 4_095)), no(4, 1, 59));
    assert_eq!(read_c(&book, &closing(0, 4_095, 0)), Answer::Filled(12));
    assert_eq!(read_c(&book, &closing(0, 0, 4_095)), Answer::Filled(12));
    assert_eq!(read_c(&book, &closing(0, 2_000, 2_095)), Answer::Filled(12));
    // No lines at all: no line number is below the count.
    assert_eq!(read_c(&book, &bits(&[(0, 8), (0, 8)])), no(4, 1, 8));
}
