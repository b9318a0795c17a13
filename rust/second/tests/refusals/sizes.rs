//! 2: files and inputs that are too long.

use crate::common::*;
use crate::{chain, small_book, small_bytes};
use second::spell::{book_fields, certificate_fields};
use second::*;

#[test]
fn refusal_2_read() {
    // Zeros: no symbols, no rules, and then bytes are left over.
    assert_eq!(read_b(&vec![0; 16_384]), no(7, 0, 16));
    assert_eq!(read_b(&vec![0; 16_385]), no(2, 0, 0));
    assert_eq!(read_c(&[0, 0], &vec![0; 32_768]), no(4, 1, 8));
    assert_eq!(read_c(&[0, 0], &vec![0; 32_769]), no(2, 1, 0));
    // The book first, and both before any field of either.
    assert_eq!(read_c(&vec![0; 16_385], &vec![0; 32_769]), no(2, 0, 0));
    assert_eq!(read_c(&[], &vec![0; 32_769]), no(2, 1, 0));
    assert_eq!(judge_bytes(&[], &vec![0; 32_769]), refused(2, 1, 0, 0));
    assert_eq!(judge_bytes(&vec![0; 16_385], &[]), refused(2, 0, 0, 0));
}

/// A book whose packed form has exactly `bits` bits; the small book's symbols.
fn book_of_bits(bits: usize) -> Book {
    // 8 + 4·4 + 8 bits, then 4 + 10·nodes for each fact without variables.
    let mut book = small_book();
    book.rules.clear();
    let mut left = bits - 32;
    while left > 2_800 {
        book.rules.push(rule(chain(255), &[]));
        left -= 4 + 2_550;
    }
    fill_exactly(&mut book.rules, left);
    assert_eq!(book_fields(&book).iter().map(|f| f.width as usize).sum::<usize>(), bits);
    book
}

/// Adds rules of exactly so many bits: facts c of 14 bits, facts f(x,c) of 32
/// and one fact of any odd number of nodes.
fn fill_exactly(rules: &mut Vec<Rule>, bits: usize) {
    for single in 0..16 {
        for pairs in 0..16 {
            let Some(rest) = bits.checked_sub(14 * single + 32 * pairs + 4) else { continue };
            let nodes = rest / 10;
            if rest % 10 == 0 && nodes % 2 == 1 && nodes <= 255 {
                rules.extend((0..single).map(|_| rule(f(0, &[]), &[])));
                rules.extend((0..pairs).map(|_| rule(f(3, &[v(0), f(0, &[])]), &[])));
                rules.push(rule(chain(nodes), &[]));
                return;
            }
        }
    }
    panic!("no filling of {bits} bits");
}

#[test]
fn refusal_2_written_book() {
    let limit = 16_384 * 8;
    let exact = book_list(&book_of_bits(limit));
    assert_eq!(write_b(&exact), Answer::Filled(16_384));
    let over = book_list(&book_of_bits(limit + 2));
    assert_eq!(write_b(&over), no(2, 0, 0));
    // 2 stands before 8 and after 7.
    assert_eq!(write_book(&over, &mut []), no(2, 0, 0));
    assert_eq!(write_book(&exact, &mut []), no(8, 0, 0));
    let left_over = [&over[..], &[0]].concat();
    assert_eq!(write_b(&left_over), no(7, 0, over.len() as u64));
}

/// A certificate of lines c → empty, some with fillings, of exactly so many bits.
fn certificate_of_bits(bits: usize) -> Certificate {
    // 8 bits of line count and 8 + 12 + 12 + 7 of closing; a plain line has
    // 1 + 10 + 1 + 8 + 4 + 7 = 31 bits, and each filled variable adds 6 and the
    // term's bits.
    let line = |filling: &[(u8, Term)]| unfold(f(0, &[]), None, 0, 0, filling, &[], None);
    let mut lines = Vec::new();
    let mut left = bits - 8 - 39;
    while left > 3_000 {
        lines.push(line(&[(0, chain(255))]));
        left -= 31 + 6 + 2_550;
    }
    let (plain, variables, nodes) = split_of(left);
    lines.extend((0..plain).map(|_| line(&[])));
    let mut filling = vec![(0, chain(nodes))];
    filling.extend((0..variables).map(|number| (1 + number as u8, v(0))));
    lines.push(line(&filling));
    let certificate = Certificate { lines, closing: closing(0, 0, 0, &[]) };
    let width: usize = certificate_fields(&certificate).iter().map(|f| f.width as usize).sum();
    assert_eq!(width, bits);
    certificate
}

/// Plain lines, variables filled by variables, and nodes of one term.
fn split_of(bits: usize) -> (usize, usize, usize) {
    for plain in 0..40 {
        for variables in 0..10 {
            let used = 31 * plain + 31 + 6 + 14 * variables;
            let Some(rest) = bits.checked_sub(used) else { continue };
            if rest % 10 == 0 && rest / 10 % 2 == 1 && rest / 10 <= 255 {
                return (plain, variables, rest / 10);
            }
        }
    }
    panic!("no split of {bits} bits");
}

#[test]
fn refusal_2_written_certificate() {
    let book = small_bytes();
    let limit = 32_768 * 8;
    let exact = certificate_list(&certificate_of_bits(limit));
    assert_eq!(write_c(&book, &exact), Answer::Filled(32_768));
    let over = certificate_list(&certificate_of_bits(limit + 1));
    assert_eq!(write_c(&book, &over), no(2, 1, 0));
    assert_eq!(write_certificate(&book, &over, &mut []), no(2, 1, 0));
    assert_eq!(write_certificate(&book, &exact, &mut []), no(8, 1, 0));
    let left_over = [&over[..], &[0]].concat();
    assert_eq!(write_c(&book, &left_over), no(7, 1, over.len() as u64));
    // The book's own 2 and its fields come first.
    assert_eq!(write_c(&vec![0; 16_385], &over), no(2, 0, 0));
    assert_eq!(write_c(&[0], &over), no(3, 0, 8));
}

#[test]
fn refusal_2_and_3_of_the_program() {
    let mut work = work();
    assert_eq!(judge_input(&[0], &mut work), refused(3, 4, 0, 0));
    assert_eq!(judge_input(&[0, 0], &mut work), refused(3, 0, 0, 0));
    assert_eq!(judge_input(&[0, 1], &mut work), refused(3, 4, 0, 0));
    assert_eq!(judge_input(&[0, 1, 0], &mut work), refused(3, 0, 8, 0));
    assert_eq!(judge_input(&[1, 0, 0], &mut work), refused(3, 4, 0, 0));
    // 2 before 3; both before what the files get.
    let long = vec![255; 49_155];
    assert_eq!(judge_input(&long, &mut work), refused(2, 4, 0, 0));
    assert_eq!(judge_input(&long[..49_154], &mut work), refused(3, 4, 0, 0));
    let mut full = vec![0; 49_154];
    full[0] = 0x40;
    assert_eq!(judge_input(&full, &mut work), refused(7, 0, 16, 0));
    full[1] = 1;
    assert_eq!(judge_input(&full, &mut work), refused(2, 0, 0, 0));
    full[0] = 0x3F;
    full[1] = 0xFF;
    assert_eq!(judge_input(&full, &mut work), refused(2, 1, 0, 0));
}
