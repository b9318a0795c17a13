//! The vectors of data/, through the bindings.

mod outcome;

use outcome::outcome;
use std::path::Path;
use text::vectors::parse_vectors;

#[test]
fn every_vector_gets_its_answer() {
    let folder = Path::new(env!("CARGO_MANIFEST_DIR")).join("../../data");
    let mut count = 0;
    for file in std::fs::read_dir(folder).unwrap() {
        let text = std::fs::read_to_string(file.unwrap().path()).unwrap();
        for vector in parse_vectors(&text).unwrap() {
            if let Some(found) = outcome(&vector) {
                assert_eq!(found, vector.outcome(), "{}", vector.name);
                count += 1;
            }
        }
    }
    assert!(count > 200, "{count}");
}
