//! The program `gearcinder-text` as a user meets it: output, messages, status.

use std::fs::OpenOptions;
use std::io::Write;
use std::path::{Path, PathBuf};
use std::process::{Command, Output, Stdio};

const BOOK: &str = "symbols a/0.\na :- a.\n";
const CERTIFICATE: &str = "symbols a/0.\nline 0: unfold a -> a\n    by rule 0 stop 1 {} here\n\
                           closing line 0 k 0 alpha 0 {}\n";
const VECTOR: &str = "vector v\njudge\nbook\n    symbols a/0.\n    a :- a.\ncertificate\n    \
                      line 0: unfold a -> a by rule 0 stop 1 {} here\n    \
                      closing line 0 k 0 alpha 0 {}\nanswer accept 0 0 0\n";
const PACKED_BOOK: [u8; 6] = [0x01, 0x00, 0x11, 0x40, 0x10, 0x00];
const PACKED_CERTIFICATE: [u8; 12] = [0x01, 0x20, 0x14, 0, 0, 0x40, 0, 0, 0, 0, 0, 0];

/// A folder with the files of one test.
fn folder(name: &str) -> PathBuf {
    let folder = Path::new(env!("CARGO_TARGET_TMPDIR")).join(name);
    std::fs::create_dir_all(&folder).unwrap();
    let put = |name: &str, bytes: &[u8]| std::fs::write(folder.join(name), bytes).unwrap();
    put("book.txt", BOOK.as_bytes());
    put("certificate.txt", CERTIFICATE.as_bytes());
    put("vectors.txt", VECTOR.as_bytes());
    put("book", &PACKED_BOOK);
    put("certificate", &PACKED_CERTIFICATE);
    folder
}

fn tool(folder: &Path, words: &[&str]) -> Command {
    let mut command = Command::new(env!("CARGO_BIN_EXE_gearcinder-text"));
    command.args(words).current_dir(folder).stdin(Stdio::null());
    command
}

fn run(folder: &Path, words: &[&str]) -> Output {
    tool(folder, words).output().unwrap()
}

/// The same, with this on standard input.
fn run_on(folder: &Path, words: &[&str], input: &[u8]) -> Output {
    let mut command = tool(folder, words);
    command.stdin(Stdio::piped()).stdout(Stdio::piped()).stderr(Stdio::piped());
    let mut child = command.spawn().unwrap();
    child.stdin.take().unwrap().write_all(input).unwrap();
    child.wait_with_output().unwrap()
}

fn said(bytes: &[u8]) -> &str {
    std::str::from_utf8(bytes).unwrap()
}

/// It went well, said nothing else, and wrote this.
fn gives(output: Output, expected: &[u8]) {
    assert_eq!((said(&output.stderr), output.status.code()), ("", Some(0)));
    assert_eq!(output.stdout, expected);
}

/// It wrote nothing, and stopped with this status and this message.
fn stops(output: Output, status: i32, message: &str) {
    assert_eq!(said(&output.stdout), "");
    assert_eq!((said(&output.stderr), output.status.code()), (message, Some(status)));
}

#[test]
fn help_goes_to_standard_output() {
    let folder = folder("help");
    let whole = run(&folder, &["help"]);
    assert!(said(&whole.stdout).contains("\ngearcinder-text frame BOOK [CERTIFICATE]\n"));
    gives(run(&folder, &["--help"]), &whole.stdout);
    gives(run(&folder, &["-h"]), &whole.stdout);
    let one = run(&folder, &["help", "frame"]);
    assert!(said(&one.stdout).starts_with("gearcinder-text frame BOOK [CERTIFICATE]\n    makes"));
    gives(run(&folder, &["frame", "--help"]), &one.stdout);
    gives(whole, &run(&folder, &["help"]).stdout);
    let version = format!("gearcinder-text {}\n", env!("CARGO_PKG_VERSION"));
    gives(run(&folder, &["--version"]), version.as_bytes());
}

#[test]
fn usage_goes_to_standard_error() {
    let folder = folder("usage");
    let usage = String::from_utf8(run(&folder, &["help"]).stdout).unwrap();
    stops(run(&folder, &[]), 2, &format!("a command is missing\n{usage}"));
    let unknown = format!("there is no command `judge-it`\n{usage}");
    stops(run(&folder, &["judge-it"]), 2, &unknown);
    stops(run(&folder, &["help", "judge-it"]), 2, &unknown);
    stops(run(&folder, &["judge-it", "--help"]), 2, &unknown);
    let usage = String::from_utf8(run(&folder, &["help", "frame"]).stdout).unwrap();
    let wrong = format!("`frame` is used otherwise\n{usage}");
    stops(run(&folder, &["frame"]), 2, &wrong);
    stops(run(&folder, &["frame", "a", "b", "c"]), 2, &wrong);
    stops(run(&folder, &["frame", "--names", "a", "b"]), 2, &wrong);
    assert_eq!(run(&folder, &["input-of", "v"]).status.code(), Some(2));
    assert_eq!(run(&folder, &["pack-vectors", "p", "o"]).status.code(), Some(2));
}

/// Each command that writes to standard output.
const WRITING: [&[&str]; 9] = [
    &["help"],
    &["help", "frame"],
    &["--version"],
    &["pack-book", "book.txt"],
    &["pack-certificate", "book", "certificate.txt"],
    &["print-book", "book"],
    &["print-certificate", "book", "certificate"],
    &["frame", "book", "certificate"],
    &["input-of", "v", "vectors.txt"],
];

#[test]
fn a_write_that_fails_is_an_error() {
    let folder = folder("full");
    let full = || OpenOptions::new().write(true).open("/dev/full").unwrap();
    let message = "standard output: No space left on device (os error 28)\n";
    for words in WRITING {
        assert_eq!(run(&folder, words).status.code(), Some(0), "{words:?}");
        stops(tool(&folder, words).stdout(full()).output().unwrap(), 2, message);
    }
    let message = "/dev/full: No space left on device (os error 28)\n";
    stops(run(&folder, &["pack-vectors", "/dev/full", "o", "vectors.txt"]), 2, message);
    stops(run(&folder, &["pack-vectors", "p", "/dev/full", "vectors.txt"]), 2, message);
    // A message that can't be written leaves the status.
    let status = tool(&folder, &["frob"]).stderr(full()).status().unwrap();
    assert_eq!(status.code(), Some(2));
}

#[test]
fn a_closed_pipe_ends_it_without_a_message() {
    let folder = folder("pipe");
    let mut command = tool(&folder, &["pack-book"]);
    command.stdin(Stdio::piped()).stdout(Stdio::piped()).stderr(Stdio::piped());
    let mut child = command.spawn().unwrap();
    drop(child.stdout.take());
    child.stdin.take().unwrap().write_all(BOOK.as_bytes()).unwrap();
    stops(child.wait_with_output().unwrap(), 2, "");
}

#[test]
fn files_there_and_back() {
    let folder = folder("files");
    gives(run(&folder, &["pack-book", "book.txt"]), &PACKED_BOOK);
    gives(run_on(&folder, &["pack-book"], BOOK.as_bytes()), &PACKED_BOOK);
    for book in ["book", "book.txt"] {
        let words = ["pack-certificate", book, "certificate.txt"];
        gives(run(&folder, &words), &PACKED_CERTIFICATE);
        let words = ["pack-certificate", book];
        gives(run_on(&folder, &words, CERTIFICATE.as_bytes()), &PACKED_CERTIFICATE);
    }
    gives(run(&folder, &["print-book", "book"]), b"symbols c0/0.\nc0 :- c0.\n");
    gives(run(&folder, &["print-book", "book.txt"]), BOOK.as_bytes());
    let words = ["print-book", "--names", "certificate.txt", "-"];
    gives(run_on(&folder, &words, &PACKED_BOOK), BOOK.as_bytes());
    for words in [&["book.txt", "certificate"][..], &["--names", "book.txt", "book", "certificate"]]
    {
        let words = [&["print-certificate"], words].concat();
        gives(run(&folder, &words), CERTIFICATE.as_bytes());
    }
}

/// A call may have a symbol list; without one it has the names of a book that is text, or
/// names by number.
#[test]
fn calls_there_and_back() {
    let folder = folder("calls");
    let book = "symbols f/2, s/1, 0/0.\nf(X, Y) :- f(X, Y).\n";
    std::fs::write(folder.join("two.txt"), book).unwrap();
    std::fs::write(folder.join("two"), text::pack_book_text(book).unwrap()).unwrap();
    let packed = [0x40, 0x20, 0x10, 0x00, 0x00, 0x20, 0x01, 0x70];
    let text = "f(s^{0,2}(A), X)\n";
    std::fs::write(folder.join("call"), packed).unwrap();
    std::fs::write(folder.join("call.txt"), text).unwrap();
    for (words, input) in [
        (["pack-call", "two.txt"], text),
        (["pack-call", "two"], "f0(u1^{0,2}(A), X)"),
        (["pack-call", "two"], "symbols g/2, t/1, 0/0. g(t^{0,2}(V0), X)"),
    ] {
        gives(run_on(&folder, &words, input.as_bytes()), &packed);
    }
    gives(run(&folder, &["pack-call", "two.txt", "call.txt"]), &packed);
    gives(run(&folder, &["print-call", "two.txt", "call"]), text.as_bytes());
    gives(run(&folder, &["print-call", "two.txt", "call.txt"]), text.as_bytes());
    gives(run(&folder, &["print-call", "two", "call"]), b"f0(u1^{0,2}(A), X)\n");
    let words = ["print-call", "--names", "two.txt", "two"];
    gives(run_on(&folder, &words, &packed), text.as_bytes());
    let wrong = |input: &str| run_on(&folder, &["pack-call", "two.txt"], input.as_bytes());
    let message = |words: &str| format!("standard input:{words}\n");
    let index = "1:6: expected a = 0 in a call, found `1` (refuse 4 5 4 0)";
    stops(wrong("f(s^{1,2}(A), X)"), 1, &message(index));
    let again =
        "1:5: expected one power, or another symbol than the one directly above, found `s` \
                 (refuse 5 5 7 0)";
    stops(wrong("f(s(s(A)), X)"), 1, &message(again));
    let more = "1:9: expected the end behind the call, found `.`";
    stops(wrong("f(X, X) ."), 1, &message(more));
    stops(wrong(""), 1, &message("1:1: expected a call, found the end"));
    let other = "1:9: expected `f/2`, symbol 0 of the book, found `g/2`";
    stops(wrong("symbols g/2, s/1, 0/0. g(X, X)"), 1, &message(other));
    std::fs::write(folder.join("long"), [&packed[..], &[0]].concat()).unwrap();
    let message = "long: in the call, at bit 60: something is left over behind the last field \
                   (refuse 7 5 60 0)\n";
    stops(run(&folder, &["print-call", "two", "long"]), 1, message);
}

/// Who asks for a call is told how, and nobody is asked with other words.
#[test]
fn covers_has_its_own_words() {
    let folder = folder("covers");
    let usage = String::from_utf8(run(&folder, &["help", "covers"]).stdout).unwrap();
    let wrong = format!("`covers` is used otherwise\n{usage}");
    for words in [
        &["covers"][..],
        &["covers", "book", "certificate"],
        &["covers", "book", "certificate", "call", "more"],
        &["covers", "book", "certificate", "--term"],
        &["covers", "book", "certificate", "--terms", "a"],
    ] {
        stops(run(&folder, words), 2, &wrong);
    }
    gives(run(&folder, &["covers", "book", "certificate", "--help"]), usage.as_bytes());
}

#[test]
fn frames() {
    let folder = folder("frames");
    let input = [&[0, 6], &PACKED_BOOK[..], &PACKED_CERTIFICATE].concat();
    for words in [["frame", "book", "certificate"], ["frame", "book.txt", "certificate.txt"]] {
        gives(run(&folder, &words), &input);
    }
    gives(run_on(&folder, &["frame", "book"], &PACKED_CERTIFICATE), &input);
    gives(run(&folder, &["input-of", "v", "vectors.txt"]), &input);
    let verdict = second::judge_input(&input, &mut vec![0; 8_192]);
    assert_eq!(second::verdict_line(&verdict), "accept 0 0 0");
    // Files that the judge refuses are framed too, as long as two bytes tell the length.
    std::fs::write(folder.join("longest"), vec![0; 65_535]).unwrap();
    let framed = [&[0xFF, 0xFF], &[0; 65_535][..], &PACKED_CERTIFICATE].concat();
    gives(run(&folder, &["frame", "longest", "certificate"]), &framed);
    std::fs::write(folder.join("longer"), vec![0; 65_536]).unwrap();
    let message = "longer: expected a book of at most 65535 bytes, whose length two bytes can \
                   tell, found 65536\n";
    stops(run(&folder, &["frame", "longer", "certificate"]), 2, message);
}

#[test]
fn messages_name_the_file() {
    let folder = folder("messages");
    std::fs::write(folder.join("wrong.txt"), "symbols a/0.\nfoo").unwrap();
    let unknown = "expected a symbol of the table or a variable, found `foo`";
    let message = format!("wrong.txt:2:1: {unknown}\n");
    stops(run(&folder, &["pack-book", "wrong.txt"]), 1, &message);
    stops(run(&folder, &["frame", "wrong.txt", "certificate"]), 1, &message);
    let message = format!("standard input:1:14: {unknown}\n");
    stops(run_on(&folder, &["pack-book"], b"symbols a/0. foo."), 1, &message);
    let message = "wrong.txt:2:1: expected `line` or `closing`, found `foo`\n";
    stops(run(&folder, &["pack-certificate", "book", "wrong.txt"]), 1, message);
    stops(run(&folder, &["frame", "book", "wrong.txt"]), 1, message);
    std::fs::write(folder.join("names.txt"), "symbols a/1.").unwrap();
    let unfit = "expected names for the arities of `symbols c0/0.`, found `symbols a/1.`";
    let message = format!("names.txt: {unfit}\n");
    stops(run(&folder, &["print-book", "--names", "names.txt", "book"]), 1, &message);
    let left_over = "something is left over behind the last field";
    std::fs::write(folder.join("bad"), [&PACKED_BOOK[..], &[0]].concat()).unwrap();
    let message = format!("bad: in the book, at bit 44: {left_over} (refuse 7 0 44 0)\n");
    stops(run(&folder, &["print-book", "bad"]), 1, &message);
    stops(run(&folder, &["print-certificate", "bad", "certificate"]), 1, &message);
    stops(run(&folder, &["pack-certificate", "bad", "certificate.txt"]), 1, &message);
    std::fs::write(folder.join("worse"), [&PACKED_CERTIFICATE[..], &[0]].concat()).unwrap();
    let message = format!("worse: in the certificate, at bit 89: {left_over} (refuse 7 1 89 0)\n");
    stops(run(&folder, &["print-certificate", "book", "worse"]), 1, &message);
}

/// The book as text knows its names, so another name is refused.
#[test]
fn symbols_are_held_to_those_of_the_book() {
    let folder = folder("symbols");
    let renamed = "symbols b/0. line 0: unfold b -> b by rule 0 stop 1 {} here
        closing line 0 k 0 alpha 0 {}";
    std::fs::write(folder.join("renamed.txt"), renamed).unwrap();
    gives(run(&folder, &["pack-certificate", "book", "renamed.txt"]), &PACKED_CERTIFICATE);
    let message = "renamed.txt:1:9: expected `a/0`, symbol 0 of the book, found `b/0`\n";
    stops(run(&folder, &["pack-certificate", "book.txt", "renamed.txt"]), 1, message);
}

#[test]
fn files_that_cannot_be_read() {
    let folder = folder("unread");
    let message = "nowhere: No such file or directory (os error 2)\n";
    stops(run(&folder, &["pack-book", "nowhere"]), 2, message);
    stops(run(&folder, &["frame", "book", "nowhere"]), 2, message);
    stops(run(&folder, &["print-book", "."]), 2, ".: Is a directory (os error 21)\n");
    let twice = "standard input is named twice\n";
    stops(run_on(&folder, &["frame", "-", "-"], &PACKED_BOOK), 2, twice);
    stops(run_on(&folder, &["pack-certificate", "-"], &PACKED_BOOK), 2, twice);
    stops(run(&folder, &["print-book", "/dev/zero"]), 2, "/dev/zero: it has over 16777216 bytes\n");
    let other = run_on(&folder, &["pack-book"], b"symbols \xFF/0.");
    stops(other, 1, "standard input: the text is not UTF-8\n");
}
