//! 5 and 6: terms that are not normal, or have too many nodes.

use crate::common::*;
use crate::{chain, small_bytes};
use second::spell::{pack_book, pack_certificate};
use second::*;

#[test]
fn refusal_5() {
    let book = small_bytes();
    // In the book: b = 0.
    let zero = [(2, 8), (0, 4), (1, 4), (1, 8), (0, 4), (2, 2), (1, 8), (0, 12), (0, 12)];
    assert_eq!(read_b(&bits(&zero)), no(5, 0, 50));
    // In the book: a power below its like, found at its symbol.
    let like =
        [(2, 8), (0, 4), (1, 4), (1, 8), (0, 4), (2, 2), (1, 8), (0, 12), (1, 12), (2, 2), (1, 8)];
    assert_eq!(read_b(&bits(&like)), no(5, 0, 64));
    // In a certificate: left begins at bit 9.
    let left =
        |fields: &[(u16, u32)]| bits(&[&[(1, 8), (0, 1)][..], fields, &[(0, 12); 4]].concat());
    assert_eq!(read_c(&book, &left(&[(2, 2), (1, 8), (0, 12), (0, 12)])), no(5, 1, 31));
    let chain = |below: u16| left(&[(2, 2), (1, 8), (1, 12), (0, 12), (2, 2), (below, 8)]);
    assert_eq!(read_c(&book, &chain(1)), no(5, 1, 45));
    // Another symbol is fine: what follows is then a zero power.
    assert_eq!(read_c(&book, &chain(2)), no(5, 1, 65));
    // The same symbol two below is fine.
    let two_below = left(&[
        (2, 2),
        (1, 8),
        (1, 12),
        (0, 12),
        (2, 2),
        (2, 8),
        (0, 12),
        (1, 12),
        (2, 2),
        (1, 8),
        (0, 12),
        (4_095, 12),
        (3, 2),
    ]);
    assert_eq!(read_c(&book, &two_below), no(4, 1, 9 + 3 * 34));
    // As field numbers in writing.
    let mut list = book_list(&Book {
        arities: vec![0, 1],
        rules: vec![rule(p(1, 0, 1, p(1, 0, 1, f(0, &[]))), &[])],
    });
    assert_eq!(write_b(&list), no(5, 0, 10));
    list[8] = 0;
    assert_eq!(write_b(&list), no(5, 0, 8));
}

#[test]
fn refusal_6() {
    // f/2 and c/0: 255 nodes are fine, and 257 are not.
    let book = |head: Term| Book { arities: vec![0, 1, 1, 2], rules: vec![rule(head, &[])] };
    let at_limit = book(p(1, 0, 1, chain(255)));
    assert!(matches!(read_b(&pack_book(&at_limit)), Answer::Filled(_)));
    let over = book(chain(257));
    let before: usize = 8 + 16 + 8 + 4 + 256 * 10;
    assert_eq!(read_b(&pack_book(&over)), no(6, 0, before as u64));
    assert_eq!(write_b(&book_list(&over)), no(6, 0, 1 + 4 + 1 + 1 + 512));
    // "found before its tag is read": the list may end there.
    assert_eq!(write_b(&book_list(&over)[..519]), no(6, 0, 519));
    assert_eq!(write_b(&book_list(&over)[..518]), no(3, 0, 518));
    // 256 nested powers of two symbols, then one node more.
    let tower = |powers: u32, end: Term| {
        (0..powers).fold(end, |below, n| p(1 + (n % 2) as u8, 1, 0, below))
    };
    let small = small_bytes();
    let certificate = |left: Term| Certificate {
        lines: vec![unfold(left, None, 0, 0, &[], &[], None)],
        closing: closing(0, 0, 0, &[]),
    };
    let fine = pack_certificate(&certificate(tower(255, v(0))));
    assert!(matches!(read_c(&small, &fine), Answer::Filled(_)));
    let much = pack_certificate(&certificate(tower(256, v(0))));
    assert_eq!(read_c(&small, &much), no(6, 1, 8 + 1 + 256 * 34));
    let list = certificate_list(&certificate(tower(256, v(0))));
    assert_eq!(write_c(&small, &list), no(6, 1, 2 + 256 * 4));
}

#[test]
fn the_node_limit_is_for_each_term() {
    assert_eq!(chain(255).nodes(), 255);
    let book = Book {
        arities: vec![0, 1, 1, 2],
        rules: vec![rule(chain(255), &[chain(255), chain(255)])],
    };
    assert!(matches!(read_b(&pack_book(&book)), Answer::Filled(_)));
}
