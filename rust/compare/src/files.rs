//! Reading and writing by both sides.

use crate::lent::{noise, Lent, Word};
use crate::proved::Side;
use crate::Compared;
use generate::hex::{hex, wide};
use generate::random::Random;
use generate::writing::Task;
use second::Answer;

/// Performs a task by both. The answer is the second's.
pub fn perform_both(side: &impl Side, task: &Task, random: &mut Random) -> Compared<Answer> {
    let words = || spelled(task);
    match task {
        Task::ReadBook { book, room } => {
            let lent = Lent::new(book, random);
            let answer = outputs_agree(
                *room,
                random,
                |out| second::read_book(book, out),
                |out| side.read_book(lent.content(), out),
            );
            kept(&[lent.holds(book)], answer)
        }
        Task::ReadCertificate { book, certificate, room } => {
            let (one, two) = (Lent::new(book, random), Lent::new(certificate, random));
            let answer = outputs_agree(
                *room,
                random,
                |out| second::read_certificate(book, certificate, out),
                |out| side.read_certificate(one.content(), two.content(), out),
            );
            kept(&[one.holds(book), two.holds(certificate)], answer)
        }
        Task::WriteBook { fields, room } => {
            let lent = Lent::new(fields, random);
            let answer = outputs_agree(
                *room,
                random,
                |out| second::write_book(fields, out),
                |out| side.write_book(lent.content(), out),
            );
            kept(&[lent.holds(fields)], answer)
        }
        Task::WriteCertificate { book, fields, room } => {
            let (one, two) = (Lent::new(book, random), Lent::new(fields, random));
            let answer = outputs_agree(
                *room,
                random,
                |out| second::write_certificate(book, fields, out),
                |out| side.write_certificate(one.content(), two.content(), out),
            );
            kept(&[one.holds(book), two.holds(fields)], answer)
        }
    }
    .map_err(|fault| format!("{}\n{fault}", words()))
}

/// Runs both on outputs that hold the same noise.
fn outputs_agree<T: Word>(
    room: usize,
    random: &mut Random,
    second: impl FnOnce(&mut [T]) -> Answer,
    proved: impl FnOnce(&mut [T]) -> Answer,
) -> Compared<Answer> {
    let mut expected_out: Vec<T> = noise(room, random);
    let mut lent_out = Lent::new(&expected_out, random);
    let expected = second(&mut expected_out);
    let found = proved(lent_out.lend());
    if found != expected {
        Err(format!("found {found:?}\nexpected {expected:?}"))
    } else if !lent_out.holds(&expected_out) {
        Err("the output or its guards differ".to_string())
    } else {
        Ok(expected)
    }
}

fn kept(inputs: &[bool], answer: Compared<Answer>) -> Compared<Answer> {
    match inputs.iter().all(|kept| *kept) {
        true => answer,
        false => Err("an input or its guards changed".to_string()),
    }
}

fn spelled(task: &Task) -> String {
    let list = |fields: &[u16]| hex(&wide(fields));
    match task {
        Task::ReadBook { book, room } => format!("read-book, room {room}\nbook {}", hex(book)),
        Task::ReadCertificate { book, certificate, room } => {
            let (book, certificate) = (hex(book), hex(certificate));
            format!("read-certificate, room {room}\nbook {book}\ncertificate {certificate}")
        }
        Task::WriteBook { fields, room } => {
            format!("write-book, room {room}\nfields {}", list(fields))
        }
        Task::WriteCertificate { book, fields, room } => {
            let (book, fields) = (hex(book), list(fields));
            format!("write-certificate, room {room}\nbook {book}\nfields {fields}")
        }
    }
}

/// The operation's name.
pub fn name_of(task: &Task) -> &'static str {
    match task {
        Task::ReadBook { .. } => "read-book",
        Task::ReadCertificate { .. } => "read-certificate",
        Task::WriteBook { .. } => "write-book",
        Task::WriteCertificate { .. } => "write-certificate",
    }
}
