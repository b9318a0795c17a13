//! The example programs, run on the document's book W and on a damaged copy of its
//! certificate. The C ones are compiled here, with the compiler that CC names, or cc.

use std::path::{Path, PathBuf};
use std::process::{Command, Output};

const BOOK: &str = include_str!("../../text/examples/while.book.txt");
const CERTIFICATE: &str = include_str!("../../text/examples/while.certificate.txt");

/// A folder for one test's files.
fn folder(name: &str) -> PathBuf {
    let folder = Path::new(env!("CARGO_TARGET_TMPDIR")).join(name);
    std::fs::create_dir_all(&folder).unwrap();
    folder
}

/// Writes BOOK, GOOD and BAD, and runs the program on both pairs.
fn run_on_example_1(program: &Path, folder: &Path) {
    let book = text::pack_book_text(BOOK).unwrap();
    let mut certificate = text::pack_certificate_text(&book, CERTIFICATE).unwrap();
    std::fs::write(folder.join("BOOK"), &book).unwrap();
    std::fs::write(folder.join("GOOD"), &certificate).unwrap();
    certificate.pop();
    std::fs::write(folder.join("BAD"), &certificate).unwrap();

    let run = |words: &[&str]| {
        Command::new(program).args(words).current_dir(folder).output().expect("the example runs")
    };
    let said = |output: &Output| String::from_utf8(output.stdout.clone()).unwrap();
    let good = run(&["BOOK", "GOOD"]);
    assert_eq!((said(&good).as_str(), good.status.code()), ("accept 4 1 1\n", Some(0)));
    let bad = run(&["BOOK", "BAD"]);
    assert!(said(&bad).starts_with("refuse 3 1 "), "{}", said(&bad));
    assert_eq!(bad.status.code(), Some(1));
    stops(run(&["BOOK", "NOWHERE"]), &["NOWHERE: ", "No such file"]);
    stops(run(&["NOWHERE", "GOOD"]), &["NOWHERE: ", "No such file"]);
    // A folder can be opened, but not read.
    stops(run(&["BOOK", "."]), &[".: ", "directory"]);
    for words in [&[][..], &["BOOK"], &["BOOK", "GOOD", "GOOD"]] {
        stops(run(words), &["usage: judge BOOK CERTIFICATE"]);
    }
    let full = std::fs::OpenOptions::new().write(true).open("/dev/full").unwrap();
    let words = [folder.join("BOOK"), folder.join("GOOD")];
    let unwritten = Command::new(program).args(words).stdout(full).output().unwrap();
    stops(unwritten, &["standard output: ", "No space left"]);
    std::fs::write(folder.join("LONG"), vec![0; 16_385]).unwrap();
    let long = run(&["LONG", "GOOD"]);
    assert_eq!((said(&long).as_str(), long.status.code()), ("refuse 2 0 0 0\n", Some(1)));
}

/// The same for the examples that ask for a call.
fn ask_on_example_1(program: &Path, folder: &Path) {
    let book = text::pack_book_text(BOOK).unwrap();
    let certificate = text::pack_certificate_text(&book, CERTIFICATE).unwrap();
    let call = |term: &str| {
        let symbols = "symbols gt/2, s/1, 0/0, add/3, while/2.";
        text::pack_call_named(&book, None, &format!("{symbols} {term}")).unwrap()
    };
    let put = |name: &str, bytes: &[u8]| std::fs::write(folder.join(name), bytes).unwrap();
    put("BOOK", &book);
    put("CERTIFICATE", &certificate);
    put("YES", &call("while(s^{0,4}(0), s^{0,3}(0))"));
    put("NO", &call("while(s(0), 0)"));
    put("LONG", &[&call("while(s(0), 0)")[..], &[0; 3_000]].concat());
    let run = |words: &[&str]| {
        Command::new(program).args(words).current_dir(folder).output().expect("the example runs")
    };
    for (name, line, status) in [
        ("YES", "covered 3\n", 0),
        ("NO", "refuse 17 4 0 0\n", 1),
        ("LONG", "refuse 7 5 64 0\n", 1),
    ] {
        let output = run(&["BOOK", "CERTIFICATE", name]);
        let said = String::from_utf8(output.stdout).unwrap();
        assert_eq!((said.as_str(), output.status.code()), (line, Some(status)));
    }
    let judged = run(&["BOOK", "BOOK", "YES"]);
    assert!(judged.stdout.starts_with(b"refuse "));
    assert_eq!(judged.status.code(), Some(1));
    stops(run(&["BOOK", "CERTIFICATE", "NOWHERE"]), &["NOWHERE: ", "No such file"]);
    for words in [&[][..], &["BOOK", "CERTIFICATE"], &["BOOK", "CERTIFICATE", "YES", "NO"]] {
        stops(run(words), &["usage: covers BOOK CERTIFICATE CALL"]);
    }
    let full = std::fs::OpenOptions::new().write(true).open("/dev/full").unwrap();
    let words = ["BOOK", "CERTIFICATE", "YES"].map(|name| folder.join(name));
    let unwritten = Command::new(program).args(words).stdout(full).output().unwrap();
    stops(unwritten, &["standard output: ", "No space left"]);
}

/// It printed no answer, and said why on standard error.
fn stops(output: Output, words: &[&str]) {
    let message = String::from_utf8(output.stderr).unwrap();
    assert_eq!((output.stdout.as_slice(), output.status.code()), (&b""[..], Some(2)));
    assert!(words.iter().all(|word| message.contains(word)), "{message}");
}

/// An example in C, compiled in this folder.
fn compiled(name: &str, folder: &Path) -> PathBuf {
    let top = Path::new(env!("CARGO_MANIFEST_DIR")).join("../..");
    let program = folder.join(name);
    let compiler = std::env::var("CC").unwrap_or("cc".to_string());
    let status = Command::new(compiler)
        .args(["-std=c99", "-Wall", "-Wextra", "-Werror", "-O2", "-I"])
        .arg(top.join("include"))
        .arg(top.join("examples").join(name).with_extension("c"))
        .arg(Path::new(env!("GEARCINDER_LIB_DIR")).join("libembed.a"))
        .arg("-o")
        .arg(&program)
        .status();
    assert!(status.expect("a C compiler").success());
    program
}

/// An example in Rust. Test programs lie in deps/, beside examples/.
fn built(name: &str) -> PathBuf {
    let test = std::env::current_exe().unwrap();
    test.parent().unwrap().join("../examples").join(name)
}

#[test]
fn the_c_example() {
    let folder = folder("c_example");
    run_on_example_1(&compiled("judge", &folder), &folder);
}

#[test]
fn the_c_example_of_calls() {
    let folder = folder("c_example_of_calls");
    ask_on_example_1(&compiled("covers", &folder), &folder);
}

#[test]
fn the_rust_example() {
    run_on_example_1(&built("judge"), &folder("rust_example"));
}

#[test]
fn the_rust_example_of_calls() {
    ask_on_example_1(&built("covers"), &folder("rust_example_of_calls"));
}
