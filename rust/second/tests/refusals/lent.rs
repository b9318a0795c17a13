//! 1 and 8: lent memory that is too short.

use crate::common::*;
use crate::{small_book, small_bytes};
use second::spell::{pack_book, pack_certificate};
use second::*;

#[test]
fn refusal_1_and_its_limit() {
    let mut short = vec![5u64; 8_191];
    // 1 stands before 2 and all else.
    assert_eq!(judge(&[0; 20_000], &[], &mut short), refused(1, 4, 0, 0));
    assert!(short.iter().all(|number| *number == 5), "refusal 1 doesn't touch the table");
    let mut enough = vec![5u64; 8_192];
    assert_eq!(judge(&[0, 0], &[0], &mut enough), refused(3, 1, 8, 0));
    assert!(enough.iter().all(|number| *number == 0));
    let mut more = vec![5u64; 9_000];
    assert_eq!(judge(&[0, 0], &[0], &mut more), refused(3, 1, 8, 0));
    assert!(more.iter().all(|number| *number == 0));
    let mut none: [u64; 0] = [];
    assert_eq!(judge(&[0, 0], &[0], &mut none), refused(1, 4, 0, 0));
}

#[test]
fn the_programs_work_table() {
    // Too long, no length, too short, and two files of which the second is refused.
    let inputs = [&[255; 49_155][..], &[0], &[0, 1], &[0, 2, 0, 0, 0, 0]];
    for (input, number) in inputs.into_iter().zip([2, 3, 3, 4]) {
        // 1 before everything else, and then the table is not touched.
        for length in [0, 1, 8_191] {
            let mut work = vec![7; length];
            assert_eq!(judge_input(input, &mut work), refused(1, 4, 0, 0));
            assert_eq!(work, vec![7; length]);
        }
        // All zeros after every other answer.
        for length in [8_192, 8_200] {
            let mut work = vec![7; length];
            let Verdict::Refused(refusal) = judge_input(input, &mut work) else { panic!() };
            assert_eq!(refusal.number, number);
            assert_eq!(work, vec![0; length]);
        }
    }
}

#[test]
fn refusal_8() {
    let book = small_bytes();
    let list = book_list(&small_book());
    let mut exact = vec![9u16; list.len()];
    assert_eq!(read_book(&book, &mut exact), Answer::Filled(list.len()));
    assert_eq!(exact, list);
    let mut short = vec![9u16; list.len() - 1];
    assert_eq!(read_book(&book, &mut short), no(8, 0, 0));
    assert!(short.iter().all(|place| *place == 9));
    let mut bytes = vec![9u8; book.len()];
    assert_eq!(write_book(&list, &mut bytes), Answer::Filled(book.len()));
    assert_eq!(bytes, book);
    let mut short = vec![9u8; book.len() - 1];
    assert_eq!(write_book(&list, &mut short), no(8, 0, 0));
    assert!(short.iter().all(|place| *place == 9));

    let w = pack_book(&book_w());
    let packed = pack_certificate(&certificate_w());
    let list = certificate_list(&certificate_w());
    let mut short = vec![9u16; list.len() - 1];
    assert_eq!(read_certificate(&w, &packed, &mut short), no(8, 1, 0));
    assert!(short.iter().all(|place| *place == 9));
    let mut short = vec![9u8; packed.len() - 1];
    assert_eq!(write_certificate(&w, &list, &mut short), no(8, 1, 0));
    assert!(short.iter().all(|place| *place == 9));
    let mut enough = vec![9u8; packed.len() + 1];
    assert_eq!(write_certificate(&w, &list, &mut enough), Answer::Filled(packed.len()));
    assert_eq!(enough[..packed.len()], packed);
    assert_eq!(enough[packed.len()], 9);
}
