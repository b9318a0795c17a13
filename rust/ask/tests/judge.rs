//! The program `gearcinder-judge`: answers, words, status.

use std::fs::OpenOptions;
use std::path::{Path, PathBuf};
use std::process::{Command, Output, Stdio};

const BOOK: &str = include_str!("../../text/examples/while.book.txt");
const CERTIFICATE: &str = include_str!("../../text/examples/while.certificate.txt");

/// A folder with the document's example, as text and packed.
fn folder(name: &str) -> PathBuf {
    let folder = Path::new(env!("CARGO_TARGET_TMPDIR")).join(name);
    std::fs::create_dir_all(&folder).unwrap();
    let put = |name: &str, bytes: &[u8]| std::fs::write(folder.join(name), bytes).unwrap();
    put("book.txt", BOOK.as_bytes());
    put("certificate.txt", CERTIFICATE.as_bytes());
    let book = text::pack_book_text(BOOK).unwrap();
    put("certificate", &text::pack_certificate_text(&book, CERTIFICATE).unwrap());
    put("book", &book);
    folder
}

fn tool(folder: &Path, words: &[&str]) -> Command {
    let mut command = Command::new(env!("CARGO_BIN_EXE_gearcinder-judge"));
    command.args(words).current_dir(folder).stdin(Stdio::null());
    command
}

fn run(folder: &Path, words: &[&str]) -> Output {
    tool(folder, words).output().unwrap()
}

fn said(bytes: &[u8]) -> &str {
    std::str::from_utf8(bytes).unwrap()
}

fn answers(output: Output, status: i32, expected: &str) {
    assert_eq!((said(&output.stdout), said(&output.stderr)), (expected, ""));
    assert_eq!(output.status.code(), Some(status));
}

fn stops(output: Output, message: &str) {
    assert_eq!((said(&output.stdout), said(&output.stderr)), ("", message));
    assert_eq!(output.status.code(), Some(2));
}

/// The text tool hands its `judge` on to this program, which lies beside it.
#[test]
fn asked_by_the_text_tool() {
    let folder = folder("asked");
    let tool = Path::new(env!("CARGO_BIN_EXE_gearcinder-judge")).with_file_name("gearcinder-text");
    assert!(tool.exists(), "the text tool is built with the whole workspace");
    let run =
        |words: &[&str]| Command::new(&tool).args(words).current_dir(&folder).output().unwrap();
    let accepted = run(&["judge", "book.txt", "certificate.txt"]);
    assert_eq!(accepted.status.code(), Some(0));
    assert!(said(&accepted.stdout).starts_with("accept 4 1 1\naccepted: line 4"));
    let refused = run(&["judge", "book", "book"]);
    assert_eq!(refused.status.code(), Some(1));
    assert!(said(&refused.stdout).starts_with("refuse "));
    let asked = ["covers", "book.txt", "certificate", "--term", "while(s^{0,2}(X), s(0))"];
    let covered = run(&asked);
    assert_eq!(covered.status.code(), Some(0));
    assert!(said(&covered.stdout).starts_with("covered 1\ncovered at index 1"));
    let unread = run(&["judge", "book", "nowhere"]);
    assert_eq!(unread.status.code(), Some(2));
    assert!(said(&unread.stderr).starts_with("nowhere: "));
}

#[test]
fn accepted() {
    let folder = folder("accepted");
    let expected = "accept 4 1 1\naccepted: line 4, k = 1, alpha = 1: each call of its left, at \
                    index 1 or later, has derivations of every length, by some choice of rules\n";
    for book in ["book", "book.txt"] {
        for certificate in ["certificate", "certificate.txt"] {
            answers(run(&folder, &[book, certificate]), 0, expected);
        }
    }
    let input = std::fs::File::open(folder.join("certificate")).unwrap();
    answers(tool(&folder, &["book", "-"]).stdin(input).output().unwrap(), 0, expected);
}

/// The certificate with one change, as text.
fn changed(folder: &Path, old: &str, new: &str) -> Output {
    assert_eq!(CERTIFICATE.matches(old).count(), 1, "{old}");
    std::fs::write(folder.join("changed.txt"), CERTIFICATE.replace(old, new)).unwrap();
    run(folder, &["book", "changed.txt"])
}

#[test]
fn refused() {
    let folder = folder("refused");
    let cases = [
        (
            "alpha 1",
            "alpha 0",
            "refuse 15 3 4 1\nrefused with 15 in the closing, line 4, part 1: right by (1, alpha) \
             is not left by (1, alpha + k), filled\n",
        ),
        (
            "closing line 4",
            "closing line 3",
            "refuse 14 3 3 0\nrefused with 14 in the closing, line 3, part 0: right is the empty \
             mark\n",
        ),
        (
            "line 3: descent add(X, s^{1,0}(0),",
            "line 3: descent add(X, s^{2,0}(0),",
            "refuse 9 2 3 2\nrefused with 9 in line 3, a descent, part 2: the rule's head, \
             filled, is not left by (1, 1)\n",
        ),
        (
            "use 3 (1,0) { X = s^{1,1}(X) }",
            "use 3 (1,0) {}",
            "refuse 10 2 4 2\nrefused with 10 in line 4, an unfold, part 2: the rule's call 2, \
             filled, is not left of its use\n",
        ),
    ];
    for (old, new, expected) in cases {
        answers(changed(&folder, old, new), 1, expected);
    }
    let whole = std::fs::read(folder.join("certificate")).unwrap();
    std::fs::write(folder.join("cut"), &whole[..whole.len() - 1]).unwrap();
    let cut = run(&folder, &["book", "cut"]);
    assert!(said(&cut.stdout).starts_with("refuse 3 1 "), "{}", said(&cut.stdout));
    assert!(said(&cut.stdout).contains("\nrefused with 3 in the certificate, at bit "));
    assert_eq!(cut.status.code(), Some(1));
    std::fs::write(folder.join("long"), vec![0; 16_385]).unwrap();
    let expected = "refuse 2 0 0 0\nrefused with 2 in the book: it has over 16,384 bytes\n";
    answers(run(&folder, &["long", "certificate"]), 1, expected);
}

/// A call of the document's example, as a term, as text and packed.
#[test]
fn covered() {
    let folder = folder("covered");
    let put = |name: &str, bytes: &[u8]| std::fs::write(folder.join(name), bytes).unwrap();
    let term = "while(s^{0,4}(0), s^{0,3}(0))";
    let names = text::names_in(BOOK).unwrap();
    let book = std::fs::read(folder.join("book")).unwrap();
    put("call", &text::pack_call_named(&book, Some(&names), term).unwrap());
    put("call.txt", term.as_bytes());
    let expected = "covered 3\ncovered at index 3: left of line 4, at this index and filled, is \
                    the call; so it has derivations of every length, by some choice of rules\n";
    let files = ["covers", "book.txt", "certificate"];
    for call in [&["call"][..], &["call.txt"], &["--term", term]] {
        answers(run(&folder, &[&files, call].concat()), 0, expected);
    }
    let by_number = "f4(u1^{0,4}(c2), u1^{0,3}(c2))";
    answers(run(&folder, &["covers", "book", "certificate", "--term", by_number]), 0, expected);
    let input = std::fs::File::open(folder.join("call")).unwrap();
    let words = ["covers", "book", "certificate", "-"];
    answers(tool(&folder, &words).stdin(input).output().unwrap(), 0, expected);

    let not = "refuse 17 4 0 0\nnot covered: left of line 4 is not the call at any index from 1 \
               on, however it is filled\n";
    let no = [&files[..], &["--term", "while(s(0), 0)"]].concat();
    answers(run(&folder, &no), 1, not);
    put("long", &[std::fs::read(folder.join("call")).unwrap(), vec![0]].concat());
    let left = "refuse 7 5 98 0\nrefused with 7 in the call, at bit 98: something is left over \
                behind the last field\n";
    answers(run(&folder, &["covers", "book", "certificate", "long"]), 1, left);
    let judged = run(&folder, &["covers", "book", "book", "call"]);
    assert!(said(&judged.stdout).starts_with("refuse "));
    assert_eq!(judged.status.code(), Some(1));

    let wrong = run(&folder, &[&files[..], &["--term", "while(s^{1,4}(0), 0)"]].concat());
    let message = "the term:1:10: expected a = 0 in a call, found `1` (refuse 4 5 4 0)\n";
    stops(wrong, message);
    let missing = "nowhere: No such file or directory (os error 2)\n";
    stops(run(&folder, &["covers", "book", "certificate", "nowhere"]), missing);
    let help = run(&folder, &["help"]);
    for words in [&["covers", "book", "certificate"][..], &["covers", "a", "b", "--term"]] {
        stops(run(&folder, words), said(&help.stdout));
    }
}

#[test]
fn not_asked() {
    let folder = folder("not_asked");
    let missing = "nowhere: No such file or directory (os error 2)\n";
    stops(run(&folder, &["book", "nowhere"]), missing);
    stops(run(&folder, &["nowhere", "certificate"]), missing);
    stops(run(&folder, &[".", "certificate"]), ".: Is a directory (os error 21)\n");
    std::fs::write(folder.join("wrong.txt"), "foo").unwrap();
    let wrong = "wrong.txt:1:1: expected `symbols`, found `foo`\n";
    stops(run(&folder, &["book", "wrong.txt"]), wrong);
    stops(run(&folder, &["wrong.txt", "certificate"]), wrong);
    let help = run(&folder, &["help"]);
    for words in [&[][..], &["book"], &["book", "certificate", "more"], &["--now", "book"]] {
        stops(run(&folder, words), said(&help.stdout));
    }
    answers(run(&folder, &["--help"]), 0, said(&help.stdout));
    answers(run(&folder, &["-h"]), 0, said(&help.stdout));
    let version = format!("gearcinder-judge {}\n", env!("CARGO_PKG_VERSION"));
    answers(run(&folder, &["--version"]), 0, &version);
}

#[test]
fn an_answer_that_cannot_be_written() {
    let folder = folder("full");
    let message = "standard output: No space left on device (os error 28)\n";
    for words in [&["book", "certificate"][..], &["help"], &["--version"]] {
        let full = OpenOptions::new().write(true).open("/dev/full").unwrap();
        stops(tool(&folder, words).stdout(full).output().unwrap(), message);
    }
}

/// JUDGE, if it is set, names the program `judge`, built before. Over the same files,
/// framed, it prints the same line, and nothing else; it takes no notice of arguments.
#[test]
fn the_program_prints_the_same_line() {
    let Ok(program) = std::env::var("JUDGE") else { return };
    let folder = folder("program");
    for (name, length) in [("certificate", 10_000), ("cut", 20)] {
        let book = text::inputs::book_of(folder.join("book").to_str().unwrap()).unwrap();
        let whole = std::fs::read(folder.join("certificate")).unwrap();
        let certificate = &whole[..whole.len().min(length)];
        std::fs::write(folder.join(name), certificate).unwrap();
        let input = text::inputs::framed(&book, certificate).unwrap();
        std::fs::write(folder.join("input"), input).unwrap();
        let input = std::fs::File::open(folder.join("input")).unwrap();
        let printed = Command::new(&program).arg("book").stdin(input).output().unwrap();
        let told = run(&folder, &["book", name]);
        let line = said(&told.stdout).split_inclusive('\n').next().unwrap();
        assert_eq!(said(&printed.stdout), line);
    }
}

/// An answer that `judge` could not write is told on standard error; it has no status for it.
#[test]
fn the_program_tells_that_a_write_failed() {
    let Ok(program) = std::env::var("JUDGE") else { return };
    let full = OpenOptions::new().write(true).open("/dev/full").unwrap();
    let mut judge = Command::new(program);
    let told = judge.stdin(Stdio::null()).stdout(full).output().unwrap();
    assert_eq!(said(&told.stderr), "judge: the answer could not be written\n");
    assert_eq!(told.status.code(), Some(0));
}
