//! The bindings pass everything on, both ways.

use gearcinder::*;

const BOOK: [u8; 6] = [0x01, 0x00, 0x11, 0x40, 0x10, 0x00];
const CERTIFICATE: [u8; 12] = [0x01, 0x20, 0x14, 0, 0, 0x40, 0, 0, 0, 0, 0, 0];

fn refusal(number: u8, place: Place, a: u64, b: u64) -> Refusal {
    Refusal { number, place, a, b }
}

#[test]
fn an_accepted_certificate() {
    let mut work = [7; WORK_NUMBERS];
    let verdict = judge(&BOOK, &CERTIFICATE, &mut work);
    assert_eq!(verdict, Verdict::Accepted(Acceptance { line: 0, k: 0, alpha: 0 }));
    assert!(verdict.is_accepted());
    assert_eq!(verdict.to_string(), "accept 0 0 0");
    assert_eq!(work, [0; WORK_NUMBERS]);
}

/// The example of what acceptance means: some choice of rules goes on, not every one.
#[test]
fn a_call_that_can_also_end_or_get_stuck() {
    let book = text::pack_book_text("symbols a/0, b/0. a. a :- b. a :- a.").unwrap();
    let certificate = |rule: u8| {
        let line = format!("line 0: unfold a -> a by rule {rule} stop 1 {{}} here");
        let text = format!("symbols a/0, b/0. {line} closing line 0 k 0 alpha 0 {{}}");
        text::pack_certificate_text(&book, &text).unwrap()
    };
    let mut work = [7; WORK_NUMBERS];
    assert_eq!(judge(&book, &certificate(2), &mut work).to_string(), "accept 0 0 0");
    assert_eq!(judge(&book, &certificate(1), &mut work).to_string(), "refuse 12 2 0 15");
}

#[test]
fn a_refused_certificate() {
    let mut work = [7; WORK_NUMBERS];
    let verdict = judge(&[0, 0], &[0, 0], &mut work);
    assert_eq!(verdict, Verdict::Refused(refusal(4, Place::Certificate, 8, 0)));
    assert!(!verdict.is_accepted());
    assert_eq!(verdict.to_string(), "refuse 4 1 8 0");
    assert_eq!(work, [0; WORK_NUMBERS]);
}

#[test]
fn a_short_work_table_is_kept() {
    let mut work = [7; WORK_NUMBERS - 1];
    let verdict = judge(&BOOK, &CERTIFICATE, &mut work);
    assert_eq!(verdict, Verdict::Refused(refusal(1, Place::Neither, 0, 0)));
    assert_eq!(work, [7; WORK_NUMBERS - 1]);
    assert_eq!(judge(&[], &[], &mut []).to_string(), "refuse 1 4 0 0");
}

#[test]
fn calls_of_the_family() {
    let mut work = [7; WORK_NUMBERS];
    let coverage = covers(&BOOK, &CERTIFICATE, &[0x40, 0x00], &mut work);
    assert_eq!(coverage, Coverage::Covered { index: 0 });
    assert!(coverage.is_covered());
    assert_eq!(coverage.to_string(), "covered 0");
    assert_eq!(work, [0; WORK_NUMBERS]);
}

#[test]
fn calls_that_are_refused() {
    let asked = |call: &[u8]| {
        let mut work = [7; WORK_NUMBERS + 1];
        let coverage = covers(&BOOK, &CERTIFICATE, call, &mut work);
        assert_eq!(work, [0; WORK_NUMBERS + 1]);
        assert!(!coverage.is_covered());
        coverage
    };
    // A variable alone; nothing; tag 3; a byte left over.
    assert_eq!(asked(&[0x00]), Coverage::Refused(refusal(17, Place::Neither, 0, 0)));
    assert_eq!(asked(&[]), Coverage::Refused(refusal(3, Place::Call, 0, 0)));
    assert_eq!(asked(&[0xC0, 0x00]), Coverage::Refused(refusal(4, Place::Call, 0, 0)));
    assert_eq!(asked(&[0x40, 0x00, 0x00]).to_string(), "refuse 7 5 10 0");
    // The judge's own refusals come first.
    let mut work = [7; WORK_NUMBERS];
    assert_eq!(covers(&[0, 0], &[0, 0], &[], &mut work).to_string(), "refuse 4 1 8 0");
    assert_eq!(work, [0; WORK_NUMBERS]);
    let mut work = [7; WORK_NUMBERS - 1];
    let coverage = covers(&BOOK, &CERTIFICATE, &[0x40, 0x00], &mut work);
    assert_eq!(coverage, Coverage::Refused(refusal(1, Place::Neither, 0, 0)));
    assert_eq!(work, [7; WORK_NUMBERS - 1]);
}

#[test]
fn files_there_and_back() {
    let (mut list, mut bytes) = ([0xABCD; 40], [0xAB; 20]);
    assert_eq!(read_book(&BOOK, &mut list), Ok(8));
    assert_eq!(list[..9], [1, 0, 1, 1, 1, 0, 1, 0, 0xABCD]);
    assert_eq!(write_book(&list[..8], &mut bytes), Ok(6));
    assert_eq!((&bytes[..6], bytes[6]), (&BOOK[..], 0xAB));

    let (mut list, mut bytes) = ([0xABCD; 40], [0xAB; 20]);
    let count = read_certificate(&BOOK, &CERTIFICATE, &mut list).unwrap();
    assert_eq!(list[count], 0xABCD);
    assert_eq!(write_certificate(&BOOK, &list[..count], &mut bytes), Ok(12));
    assert_eq!((&bytes[..12], bytes[12]), (&CERTIFICATE[..], 0xAB));
}

#[test]
fn outputs_without_room_are_kept() {
    let (mut list, mut bytes) = ([0xABCD; 7], [0xAB; 5]);
    assert_eq!(read_book(&BOOK, &mut list), Err(refusal(8, Place::Book, 0, 0)));
    let book_or_certificate = read_certificate(&BOOK, &CERTIFICATE, &mut list);
    assert_eq!(book_or_certificate, Err(refusal(8, Place::Certificate, 0, 0)));
    assert_eq!(list, [0xABCD; 7]);
    let refused = write_book(&[1, 0, 1, 1, 1, 0, 1, 0], &mut bytes);
    assert_eq!(refused, Err(refusal(8, Place::Book, 0, 0)));
    assert_eq!(refused.unwrap_err().to_string(), "refuse 8 0 0 0");
    let refused = write_certificate(&BOOK, &[], &mut bytes);
    assert_eq!(refused, Err(refusal(3, Place::Certificate, 0, 0)));
    assert_eq!(bytes, [0xAB; 5]);
}

#[test]
fn every_number_has_a_reason() {
    for number in 1..=17 {
        assert_ne!(refusal(number, Place::Line, 0, 0).reason(), "unknown");
    }
}
