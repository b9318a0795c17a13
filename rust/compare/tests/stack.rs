//! The proved functions need little stack, also on the deepest inputs. Nothing proves
//! this, so it is tried: on a thread whose stack is this large, a call that needs more
//! ends the program.

mod outcome;

use compare::proved::{Proved, Side};
use outcome::outcome;
use text::vectors::{in_words, parse_vectors, Vector};

const STACK: usize = 192 * 1_024;

fn deepest() -> Vec<Vector> {
    let text = include_str!("../../../data/deep.txt");
    parse_vectors(text).expect("the inputs are what they say")
}

/// Calls this on a thread of its own.
fn with_small_stack<T: Send + 'static>(call: impl FnOnce() -> T + Send + 'static) -> T {
    let thread = std::thread::Builder::new().stack_size(STACK).spawn(call);
    thread.expect("a thread").join().expect("the call ends")
}

#[test]
fn every_deep_vector_gets_its_answer() {
    for vector in deepest() {
        let (name, expected) = (vector.name.clone(), vector.outcome());
        assert_eq!(with_small_stack(move || outcome(&vector)), Some(expected), "{name}");
    }
}

#[test]
fn the_accepted_files_are_read_and_written() {
    let accepted = |vector: &Vector| vector.answer.starts_with("accept");
    let vectors: Vec<Vector> = deepest().into_iter().filter(accepted).collect();
    assert!(!vectors.is_empty());
    for vector in vectors {
        let (book, certificate) = (vector.first.bytes().to_vec(), vector.second.bytes().to_vec());
        let lengths = [book.len(), certificate.len()];
        let found = with_small_stack(move || {
            let mut list = vec![0; 20_000];
            let count = gearcinder::read_book(&book, &mut list).expect("a good book");
            let mut bytes = vec![0; 20_000];
            let one = Proved.write_book(&list[..count], &mut bytes);
            let count = gearcinder::read_certificate(&book, &certificate, &mut list);
            let count = count.expect("a good certificate");
            [one, Proved.write_certificate(&book, &list[..count], &mut bytes)]
        });
        assert_eq!(found.map(in_words), lengths.map(|length| format!("filled {length}")));
    }
}
