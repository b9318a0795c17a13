//! The files of data/, cut short: judged and read by both sides.

use compare::edges::at_an_edge;
use compare::swiftly::Swift;
use generate::edges::cut;
use generate::random::Random;
use second::files::parse_both;
use std::collections::BTreeSet;
use std::path::Path;
use text::vectors::{parse_vectors, Operation};

#[test]
fn files_that_are_cut_get_the_same_answers() {
    let folder = Path::new(env!("CARGO_MANIFEST_DIR")).join("../../data");
    let (mut random, mut swift) = (Random::new(1), Swift::default());
    let mut pairs = BTreeSet::new();
    for file in std::fs::read_dir(folder).unwrap() {
        let text = std::fs::read_to_string(file.unwrap().path()).unwrap();
        for vector in parse_vectors(&text).unwrap() {
            use Operation::{Covers, Judge, ReadCertificate};
            if matches!(vector.operation, Judge | Covers | ReadCertificate) {
                let pair = (vector.first.bytes().to_vec(), vector.second.bytes().to_vec());
                if parse_both(&pair.0, &pair.1).is_ok() {
                    pairs.insert(pair);
                }
            }
        }
    }
    assert!(pairs.len() > 50, "{}", pairs.len());
    for (book, certificate) in &pairs {
        for edged in cut(book, certificate, &mut random) {
            at_an_edge(&edged, &mut swift, &mut random).unwrap();
        }
    }
}
