//! The vectors of data/: what they meet, that the accepted ones run, and that they
//! are packed as they stand.

use generate::parted;
use second::derive::{derive, plain_at, replay, Limits};
use second::files::{parse_both, parse_call};
use second::judging::WORK_NUMBERS;
use second::replay::{has_filling, PlainFilling};
use std::collections::BTreeSet;
use std::path::{Path, PathBuf};
use std::sync::OnceLock;
use text::vectors::{expected_output, pack_vectors, parse_vectors, File, Operation, Vector};

fn top() -> PathBuf {
    Path::new(env!("CARGO_MANIFEST_DIR")).join("../..")
}

/// All vectors, read once.
fn vectors() -> Vec<Vector> {
    static ALL: OnceLock<Vec<Vector>> = OnceLock::new();
    ALL.get_or_init(read_vectors).clone()
}

/// All vectors, the files in the order of their names.
fn read_vectors() -> Vec<Vector> {
    let folder = std::fs::read_dir(top().join("data")).unwrap();
    let mut files: Vec<PathBuf> = folder.map(|entry| entry.unwrap().path()).collect();
    files.sort();
    let vectors_of = |file: &PathBuf| {
        let text = std::fs::read_to_string(file).unwrap();
        parse_vectors(&text).unwrap_or_else(|error| panic!("{}:{error}", file.display()))
    };
    files
        .iter()
        .filter(|file| file.extension().is_some_and(|e| e == "txt"))
        .flat_map(vectors_of)
        .collect()
}

#[test]
fn they_are_packed_as_they_stand() {
    let vectors = vectors();
    let stored = |name: &str| std::fs::read(top().join("crates/cases").join(name)).unwrap();
    let again = "pack them again: docs/TEXT.md, Vectors";
    assert!(pack_vectors(&vectors) == stored("stdin"), "{again}");
    assert!(expected_output(&vectors).into_bytes() == stored("stdout"), "{again}");
}

#[test]
fn names_differ() {
    let vectors = vectors();
    let names: BTreeSet<&str> = vectors.iter().map(|vector| vector.name.as_str()).collect();
    assert_eq!(names.len(), vectors.len());
}

/// The words of an answer that say where it stands: `refuse` number W, and B from 9
/// on.
fn met() -> BTreeSet<String> {
    let kind = |operation| match operation {
        Operation::Judge => "judge",
        Operation::Input => "input",
        Operation::ReadBook => "read-book",
        Operation::ReadCertificate => "read-certificate",
        Operation::WriteBook => "write-book",
        Operation::WriteCertificate => "write-certificate",
        Operation::Covers => "covers",
    };
    let place = |vector: &Vector| {
        let words: Vec<&str> = vector.answer.split(' ').collect();
        match words[..] {
            ["refuse", number, w, _, part]
                if vector.operation == Operation::Judge && (number.len() > 1 || number == "9") =>
            {
                format!("{number} {w} {part}")
            }
            ["refuse", number, w, _, _] => format!("{} {number} {w}", kind(vector.operation)),
            _ => format!("{} {}", kind(vector.operation), words[0]),
        }
    };
    vectors().iter().map(place).collect()
}

#[test]
fn every_refusal_and_part_is_met() {
    let met = met();
    let parts = [
        "9 2 0", "9 2 2", "10 2 1", "10 2 2", "10 2 3", "10 2 7", "10 2 8", "11 2 1", "11 2 3",
        "12 2 1", "12 2 15", "13 2 4", "14 3 0", "15 3 1", "16 2 0", "16 2 1", "16 2 2", "16 2 3",
        "16 2 15", "16 3 1",
    ];
    let others = ["judge 1 4", "judge accept", "input 2 4", "input 3 4", "input accept"];
    for wanted in parts.iter().chain(&others) {
        assert!(met.contains(*wanted), "{wanted}");
    }
    for number in 2..=7 {
        assert!(met.contains(&format!("write-book {number} 0")), "{number}");
        assert!(met.contains(&format!("write-certificate {number} 1")), "{number}");
        assert!(met.contains(&format!("read-book {number} 0")), "{number}");
        assert!(met.contains(&format!("judge {number} 1")), "{number}");
    }
    for operation in ["read-book", "read-certificate", "write-book", "write-certificate"] {
        let w = usize::from(operation.ends_with("certificate"));
        assert!(met.contains(&format!("{operation} filled")));
        assert!(met.contains(&format!("{operation} 8 {w}")), "{operation}");
    }
}

#[test]
fn every_refusal_of_a_call_is_met() {
    let met = met();
    let judged = [
        "1 4", "2 0", "2 1", "3 0", "3 1", "4 1", "5 1", "7 0", "7 1", "9 2", "10 2", "11 2",
        "12 2", "13 2", "14 3", "15 3", "16 2",
    ];
    let own = ["3 5", "4 5", "5 5", "6 5", "7 5", "17 4"];
    for wanted in judged.iter().chain(&own) {
        assert!(met.contains(&format!("covers {wanted}")), "{wanted}");
    }
    let indices: BTreeSet<String> = vectors()
        .iter()
        .filter(|vector| vector.operation == Operation::Covers)
        .filter_map(|vector| vector.answer.strip_prefix("covered ").map(str::to_string))
        .collect();
    for index in ["0", "1", "2", "3", "4094", "4095"] {
        assert!(indices.contains(index), "{index}");
    }
}

/// As generated inputs have to.
#[test]
fn sides_part_in_every_way() {
    let mut met = BTreeSet::new();
    let mut work = vec![0; WORK_NUMBERS];
    for vector in vectors() {
        if vector.operation == Operation::Judge && vector.lent == WORK_NUMBERS {
            let (book, certificate) = (vector.first.bytes(), vector.second.bytes());
            let verdict = second::judge(book, certificate, &mut work);
            met.extend(parted::labels(book, certificate, &verdict));
        }
    }
    for wanted in parted::wanted() {
        assert!(met.contains(&wanted), "{wanted}");
    }
}

/// A call that is covered is the pattern at that index, filled, and at none before it: by
/// plain terms, where these are not too large.
#[test]
fn covered_calls_are_the_pattern() {
    let most = 1_000;
    let none = PlainFilling::new();
    let mut covered = 0;
    for vector in vectors() {
        let Some(index) = vector.answer.strip_prefix("covered ") else { continue };
        let index: u64 = index.parse().unwrap();
        let (book, certificate) = parse_both(vector.first.bytes(), vector.second.bytes()).unwrap();
        let call = parse_call(&book, vector.third.bytes()).unwrap();
        let line = usize::from(certificate.closing.line);
        let pattern = &certificate.lines[line].left;
        let Ok(call) = plain_at(&call, 0, &none, most) else { continue };
        for earlier in certificate.closing.alpha..=index {
            // A pattern that is too large is larger than the call.
            let plain = plain_at(pattern, earlier, &none, most).unwrap_or_default();
            let found = has_filling(&plain, &call, &book.arities);
            assert_eq!(found, earlier == index, "{} at {earlier}", vector.name);
        }
        covered += 1;
    }
    assert!(covered > 30, "{covered}");
}

/// Each accepted certificate is played from three indices.
#[test]
fn accepted_ones_run() {
    let limits = Limits { steps: 500, nodes: 100_000, all_nodes: 1_000_000 };
    let mut rounds = 0;
    for vector in vectors() {
        let (File::Bytes(book), File::Bytes(certificate)) = (&vector.first, &vector.second) else {
            continue;
        };
        if vector.operation != Operation::Judge || !vector.answer.starts_with("accept") {
            continue;
        }
        let (book, certificate) = parse_both(book, certificate).unwrap();
        for more in [0, 1, 5] {
            let index = certificate.closing.alpha + more;
            let none = PlainFilling::new();
            if let Ok(played) = derive(&book, &certificate, index, &none, limits) {
                let name = &vector.name;
                replay(&book, &played).unwrap_or_else(|fault| panic!("{name}: {fault:?}"));
                rounds += played.rounds.len();
            }
        }
    }
    assert!(rounds > 5_000, "{rounds}");
}

const LOOP: &str = "define one
    symbols a/0.
    a :- a.
vector v
judge
book one
certificate
    line 0: unfold a -> a by rule 0 stop 1 {} here
    closing line 0 k 0 alpha 0 {}
";

fn error_of(text: &str) -> String {
    parse_vectors(text).unwrap_err().to_string()
}

#[test]
fn a_vector_is_held_to_its_answer() {
    assert!(parse_vectors(&format!("{LOOP}answer accept 0 0 0\n")).is_ok());
    let wrong = "10:1: expected the answer `accept 0 0 0` of v, found `accept 0 1 0`";
    assert_eq!(error_of(&format!("{LOOP}answer accept 0 1 0\n")), wrong);
}

#[test]
fn wrong_forms_are_named() {
    assert_eq!(error_of(LOOP), "10:1: expected `answer` for the vector v, found the end");
    let neither = "1:1: expected `define NAME` or `vector NAME`, found `judge`";
    assert_eq!(error_of("judge"), neither);
    let indented = "1:1: expected a line at the margin, found an indented one";
    assert_eq!(error_of("  judge"), indented);
    let unknown = "2:1: expected the name of a text, found `two`";
    assert_eq!(error_of("vector v\nbook two\n"), unknown);
    let early = "2:1: expected a file before it is changed, found `set 1 2`";
    assert_eq!(error_of("vector v\nset 1 2\n"), early);
    let nothing = "2:1: expected the operation, found none";
    assert_eq!(error_of("vector v\nanswer accept"), nothing);
    let book = "vector v\nread-book\nbook\n    symbols a/0.\n    a.\n";
    assert_eq!(error_of(&format!("{book}answer filled 6")), "6:1: expected `room`, found none");
    assert_eq!(error_of(&format!("{book}set 9 0\n")), "6:1: there is no such field");
    assert_eq!(
        error_of(&format!("{book}keep 3 bytes\nset 0 0\n")),
        "7:1: expected fields to change, found bytes"
    );
    let half = "6:1: expected two hex digits for each byte, found `0`";
    assert_eq!(error_of(&format!("{book}add bytes 0\n")), half);
    assert_eq!(
        error_of("vector v\nbook\n    symbols a/0.\n    b.\n"),
        "4:5: expected a symbol of the table or a variable, found `b`"
    );
    let twice = "define d\n    symbols a/0. a. a.\nvector v\nbook d where a. is b.\n";
    assert_eq!(error_of(twice), "4:1: expected `a.` once in the text, found it 2 times");
}

#[test]
fn repetitions_are_written_out() {
    let packed = |text: &str| text::pack_book_text(text).map_err(|error| error.to_string());
    let long = "symbols s/1, r/1, c0/0, c1/0, c2/0. s(r(s(r(c2)))). c0. c1. c1. c2.";
    let short = "symbols s/1, r/1 repeat 0 to 2 [ , c#/0 ].
        repeat 1 to 2 [ s(r( ] c2 repeat 1 to 2 [ )) ].
        repeat 0 to 1 [ repeat # to # [ c#. ] c#+1. ] repeat 3 to 2 [ c0. ]";
    assert_eq!(packed(short), packed(long));
    // A symbol may still be called repeat.
    assert!(packed("symbols repeat/0. repeat.").is_ok());
    let book = text::pack_book_text("symbols repeat/0. repeat :- repeat.").unwrap();
    let certificate = "symbols repeat/0. line 0: unfold repeat -> repeat by rule 0 stop 1 {} here
        closing line 0 k 0 alpha 0 {}";
    assert!(text::pack_certificate_text(&book, certificate).is_ok());
}
