//! include/gearcinder.h, from C and from C++: every function that it declares is called
//! by the names of its parameters and compared with the second implementation, and a
//! header that says something else is found.

mod declared;
mod from_c;

use compare::calls::ask_both;
use compare::coverage::Coverage;
use compare::files::perform_both;
use compare::judging::{files_of, judge_both};
use compare::Compared;
use declared::{declared, defined};
use from_c::{compiled, FromC, Language, C, CPP, FUNCTIONS};
use generate::calls::Calls;
use generate::inputs::Inputs;
use generate::random::Random;
use generate::writing::Tasks;
use std::panic::catch_unwind;

const HEADER: &str = include_str!("../../../../include/gearcinder.h");

/// Calls all functions on generated inputs; what was met.
fn compared(side: &FromC) -> Compared<Coverage> {
    let mut random = Random::new(1);
    let mut coverage = Coverage::default();
    let (mut inputs, mut tasks, mut calls) = (Inputs::new(1), Tasks::new(1), Calls::new(1));
    for _ in 0..100 {
        let input = inputs.next_input();
        let (book, certificate) = files_of(&input);
        let verdict = judge_both(side, book, certificate, &mut random)?;
        coverage.judged(book, certificate, &verdict);
    }
    for _ in 0..300 {
        let task = tasks.next_task();
        let answer = perform_both(side, &task, &mut random)?;
        coverage.performed(&task, &answer);
    }
    for _ in 0..150 {
        let asking = calls.next_call();
        let answer = ask_both(side, &asking, &mut random)?;
        coverage.asked(&asking, &answer);
    }
    Ok(coverage)
}

/// Nothing differs, and each function has done its work and has refused.
fn agrees(side: &FromC) {
    let coverage = compared(side).unwrap_or_else(|difference| panic!("{difference}"));
    for label in [
        "judge: accepted",
        "judge:  1 neither",
        "judge:  4 certificate",
        "judge:  9 line, unfold part 0",
        "covers: covered: at alpha",
        "covers: 17, made as ExponentOff",
        "covers:  1 neither",
        "covers:  4 call",
        "read-book: filled",
        "read-book:  8 book",
        "read-certificate: filled",
        "read-certificate:  8 certificate",
        "write-book: filled",
        "write-book:  4 book",
        "write-certificate: filled",
        "write-certificate:  4 certificate",
    ] {
        assert!(coverage.met.contains_key(label), "{label} was not met: {:?}", coverage.met);
    }
}

#[test]
fn it_declares_the_six_functions() {
    let names: Vec<String> = declared(HEADER).into_iter().map(|(name, _)| name).collect();
    assert_eq!(names, FUNCTIONS);
}

#[test]
fn its_numbers_are_those_of_the_bindings() {
    let number = |name| defined(HEADER, name);
    assert_eq!(number("GEARCINDER_WORK_NUMBERS"), Some(gearcinder::WORK_NUMBERS));
    assert_eq!(number("GEARCINDER_BOOK_BYTES"), Some(gearcinder::BOOK_BYTES));
    assert_eq!(number("GEARCINDER_CERTIFICATE_BYTES"), Some(gearcinder::CERTIFICATE_BYTES));
    let answer = gearcinder::raw::Numbers::default();
    assert_eq!(number("GEARCINDER_ANSWER_NUMBERS"), Some(answer.len()));
}

#[test]
fn from_c() {
    let program = compiled(&C, "from_c", HEADER).expect("a C compiler");
    agrees(&program.expect("it compiles"));
}

#[test]
fn from_cpp() {
    match compiled(&CPP, "from_cpp", HEADER) {
        Some(program) => agrees(&program.expect("it compiles")),
        None => println!("there is no C++ compiler, so this was not tried"),
    }
}

/// Is a header with this change refused by the compiler, or does a call differ?
fn is_found(language: &Language, old: &str, new: &str) -> bool {
    assert!(HEADER.contains(old), "{old} is not in the header");
    let header = HEADER.replacen(old, new, 1);
    match compiled(language, "wrong", &header) {
        Some(Some(program)) => catch_unwind(|| compared(&program).is_err()).unwrap_or(true),
        Some(None) | None => true,
    }
}

#[test]
fn wrong_headers_are_found() {
    let judge_files = "const uint8_t *book, size_t book_length,
                      const uint8_t *certificate, size_t certificate_length,
                      uint64_t";
    let read_files = "const uint8_t *book, size_t book_length,
                                 const uint8_t *certificate, size_t certificate_length,
                                 uint16_t";
    let call_and_work = "const uint8_t *certificate, size_t certificate_length,
                       const uint8_t *call, size_t call_length,";
    let swapped_calls = |files: &str| {
        files.replace("call", "?").replace("certificate", "call").replace("?", "certificate")
    };
    let swapped = |files: &str| {
        files.replace("book", "?").replace("certificate", "book").replace("?", "certificate")
    };
    let lengths_swapped = |files: &str| {
        let files = files.replace("book_length", "?").replace("certificate_length", "book_length");
        files.replace("?", "certificate_length")
    };
    let changes = [
        (judge_files, &*swapped(judge_files)),
        (judge_files, &*lengths_swapped(judge_files)),
        (call_and_work, &*swapped_calls(call_and_work)),
        ("const uint8_t *call, size_t call_length,", ""),
        ("void gearcinder_covers", "uint64_t gearcinder_covers"),
        ("const uint8_t *call", "uint8_t *call"),
        (read_files, &*swapped(read_files)),
        (read_files, &*lengths_swapped(read_files)),
        ("uint64_t *work, size_t work_length", "size_t work_length, uint64_t *work"),
        ("uint64_t *work, size_t work_length,", ""),
        ("size_t work_length", "uint32_t work_length"),
        ("uint16_t *out", "uint8_t *out"),
        ("uint16_t *out", "const uint16_t *out"),
        ("const uint16_t *fields", "const uint8_t *fields"),
        ("const uint16_t *fields", "uint16_t *fields"),
        ("uint64_t answer[GEARCINDER_ANSWER_NUMBERS]", "uint32_t answer[5]"),
        ("void gearcinder_judge", "uint64_t gearcinder_judge"),
        ("void gearcinder_write_book", "void gearcinder_write_books"),
        ("ANSWER_NUMBERS]);", "ANSWER_NUMBERS], size_t answer_length);"),
    ];
    for (old, new) in changes {
        assert!(is_found(&C, old, new), "'{new}' instead of '{old}' was not found");
    }
    assert!(is_found(&CPP, "extern \"C\" {", "namespace {"));
}
