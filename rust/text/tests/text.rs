//! The text form there and back.

use generate::faults::{accepted, failing, GOALS};
use generate::random::Random;
use second::spell::{pack_book, pack_certificate};
use second::{judge, Verdict};
use text::terms::{variable_name, variable_number};
use text::*;

const BOOK: &str = include_str!("../examples/while.book.txt");
const CERTIFICATE: &str = include_str!("../examples/while.certificate.txt");

#[test]
fn the_example_is_accepted() {
    let book = pack_book_text(BOOK).unwrap();
    let certificate = pack_certificate_text(&book, CERTIFICATE).unwrap();
    let verdict = judge(&book, &certificate, &mut vec![0; 8_192]);
    assert_eq!(verdict, Verdict::Accepted { line: 4, k: 1, alpha: 1 });
}

#[test]
fn the_example_is_printed_as_it_was() {
    let book = pack_book_text(BOOK).unwrap();
    let certificate = pack_certificate_text(&book, CERTIFICATE).unwrap();
    let names = names_in(BOOK).unwrap();
    assert_eq!(names_in(CERTIFICATE), Ok(names.clone()));
    let without_comment = BOOK.split_once('\n').unwrap().1;
    assert_eq!(print_book(&book, Some(&names)).unwrap(), without_comment);
    assert_eq!(print_certificate(&book, &certificate, Some(&names)).unwrap(), CERTIFICATE);
}

#[test]
fn the_whole_case_of_the_document() {
    let book = pack_book_text("symbols a/0. a :- a.").unwrap();
    assert_eq!(book, [0x01, 0x00, 0x11, 0x40, 0x10, 0x00]);
    let text = "symbols a/0.
        line 0: unfold a -> a by rule 0 stop 1 {} here
        closing line 0 k 0 alpha 0 {}";
    let certificate = pack_certificate_text(&book, text).unwrap();
    assert_eq!(certificate, [0x01, 0x20, 0x14, 0, 0, 0x40, 0, 0, 0, 0, 0, 0]);
    assert_eq!(print_book(&book, None).unwrap(), "symbols c0/0.\nc0 :- c0.\n");
}

#[test]
fn any_well_formed_pair_goes_there_and_back() {
    let mut random = Random::new(29);
    for number in 0..600 {
        let case = match number % 3 {
            0 => failing(GOALS[random.below(GOALS.len())], &mut random),
            _ => accepted(&mut random).1,
        };
        let book = pack_book(&case.book);
        let certificate = pack_certificate(&case.certificate);
        let text = print_book(&book, None).unwrap();
        assert_eq!(pack_book_text(&text), Ok(book.clone()), "{text}");
        let text = print_certificate(&book, &certificate, None).unwrap();
        assert_eq!(pack_certificate_text(&book, &text), Ok(certificate), "{text}");
    }
}

#[test]
fn nothing_at_all() {
    assert_eq!(pack_book_text("symbols."), Ok(vec![0, 0]));
    assert_eq!(print_book(&[0, 0], None).unwrap(), "symbols.\n");
}

#[test]
fn variables_have_numbers() {
    for number in 0..64 {
        assert_eq!(variable_number(&variable_name(number)), Some(u16::from(number)));
    }
    assert_eq!(variable_number("A"), Some(0));
    assert_eq!(variable_number("X"), Some(23));
    assert_eq!(variable_number("V"), Some(21));
    assert_eq!(variable_number("V0"), Some(0));
    assert_eq!(variable_number("V63"), Some(63));
    assert_eq!(variable_number("XY"), None);
    assert_eq!(variable_number("V70000"), None);
    assert_eq!(variable_number("x"), None);
}

#[test]
fn names_must_fit_the_book() {
    let names = names_in("symbols a/0, b/0.").unwrap();
    assert!(matches!(print_book(&[0, 0], Some(&names)), Err(TextError::Names(_))));
}

/// The text with one piece of it cut out, doubled or exchanged.
fn damaged(text: &str, random: &mut Random) -> String {
    let letters: Vec<char> = text.chars().collect();
    let at = random.below(letters.len());
    let end = letters.len().min(at + 1 + random.below(9));
    let (before, piece, after) = (&letters[..at], &letters[at..end], &letters[end..]);
    let other = random.below(letters.len());
    let new = match random.below(4) {
        0 => Vec::new(),
        1 => [piece, piece].concat(),
        2 => vec!['#', ';', '9', 'X', '(', ' '][random.below(6)..].to_vec(),
        _ => letters[other..letters.len().min(other + 9)].to_vec(),
    };
    [before, &new, after].concat().into_iter().collect()
}

/// Whatever is wrong, the message has its form and a place in the text.
#[test]
fn damaged_texts_get_a_message() {
    let mut random = Random::new(31);
    let book = pack_book_text(BOOK).unwrap();
    let mut refused = 0;
    for _ in 0..3_000 {
        let text = damaged(BOOK, &mut random);
        let other = damaged(CERTIFICATE, &mut random);
        let errors = [pack_book_text(&text).err(), pack_certificate_text(&book, &other).err()];
        for (text, error) in [text, other].into_iter().zip(errors) {
            let Some(message) = error.map(|error| error.to_string()) else { continue };
            let parts: Vec<&str> = message.splitn(3, ':').collect();
            let line: usize = parts[0].parse().unwrap();
            let column: usize = parts[1].parse().unwrap();
            let letters = text.split('\n').nth(line - 1).unwrap().chars().count();
            assert!(column >= 1 && column <= letters + 1, "{message}\n{text}");
            assert!(parts[2].starts_with(" expected ") && parts[2].contains(", found "));
            refused += 1;
        }
    }
    assert!(refused > 3_000, "{refused}");
}
