//! Tasks for the reader and the writer: packed files and field lists, whole or
//! damaged, with outputs of many lengths.

use crate::damage::{change_book, change_bytes, change_fields, change_trees};
use crate::faults::accepted;
use crate::inputs::Inputs;
use crate::random::Random;
use crate::world::{fun, rule, Case};
use second::spell::{book_fields, certificate_fields, pack, pack_book, values, Field};
use second::{Answer, Book, Certificate, Closing, Line, Proof, Term};

/// An operation with all that it is lent; `room` is the output's length.
#[derive(Clone, Debug)]
pub enum Task {
    ReadBook { book: Vec<u8>, room: usize },
    ReadCertificate { book: Vec<u8>, certificate: Vec<u8>, room: usize },
    WriteBook { fields: Vec<u16>, room: usize },
    WriteCertificate { book: Vec<u8>, fields: Vec<u16>, room: usize },
}

/// What came of a task: the answer and the whole output, which held `FRESH`
/// everywhere before.
#[derive(Clone, Debug, PartialEq, Eq)]
pub enum Outcome {
    List(Answer, Vec<u16>),
    Bytes(Answer, Vec<u8>),
}

pub const FRESH_FIELD: u16 = 0xABCD;
pub const FRESH_BYTE: u8 = 0xAB;

impl Task {
    /// Performs the task with the second implementation.
    pub fn perform(&self) -> Outcome {
        match self {
            Task::ReadBook { book, room } => {
                let mut out = vec![FRESH_FIELD; *room];
                Outcome::List(second::read_book(book, &mut out), out)
            }
            Task::ReadCertificate { book, certificate, room } => {
                let mut out = vec![FRESH_FIELD; *room];
                Outcome::List(second::read_certificate(book, certificate, &mut out), out)
            }
            Task::WriteBook { fields, room } => {
                let mut out = vec![FRESH_BYTE; *room];
                Outcome::Bytes(second::write_book(fields, &mut out), out)
            }
            Task::WriteCertificate { book, fields, room } => {
                let mut out = vec![FRESH_BYTE; *room];
                Outcome::Bytes(second::write_certificate(book, fields, &mut out), out)
            }
        }
    }
}

pub struct Tasks {
    random: Random,
    inputs: Inputs,
}

impl Tasks {
    pub fn new(seed: u64) -> Tasks {
        Tasks { random: Random::new(seed ^ 0x5EED), inputs: Inputs::new(seed) }
    }

    pub fn next_task(&mut self) -> Task {
        match self.random.below(100) {
            0..=19 => self.read_book(),
            20..=44 => self.read_certificate(),
            45..=64 => self.write_book(),
            65..=97 => self.write_certificate(),
            _ => self.long(),
        }
    }

    fn read_book(&mut self) -> Task {
        let book = match self.random.below(4) {
            0 => pack_book(&self.case().book),
            _ => self.inputs.next_input().book,
        };
        let count = match second::files::parse_book(&book) {
            Ok(book) => book_fields(&book).len(),
            Err(_) => 0,
        };
        Task::ReadBook { book, room: self.room(count) }
    }

    fn read_certificate(&mut self) -> Task {
        let input = self.inputs.next_input();
        let (book, certificate) = (input.book, input.certificate);
        let count = match second::parse_certificate(&book, &certificate) {
            Ok(certificate) => certificate_fields(&certificate).len(),
            Err(_) => 0,
        };
        let room = self.room(count);
        Task::ReadCertificate { book, certificate, room }
    }

    fn write_book(&mut self) -> Task {
        let case = self.case();
        let fields = self.perhaps_damaged(book_fields(&case.book));
        let room = self.room(pack_book(&case.book).len());
        Task::WriteBook { fields, room }
    }

    fn write_certificate(&mut self) -> Task {
        let case = self.case();
        let fields = certificate_fields(&case.certificate);
        let length = pack(&fields).len();
        let fields = self.perhaps_damaged(fields);
        let mut book = pack_book(&case.book);
        match self.random.below(40) {
            0..=2 => change_bytes(&mut book, &mut self.random),
            3 => book.resize(16_384 + self.random.below(2), 0),
            _ => (),
        }
        let room = self.room(length);
        Task::WriteCertificate { book, fields, room }
    }

    /// An accepted pair, now and then with its trees changed.
    fn case(&mut self) -> Case {
        let (_, mut case) = accepted(&mut self.random);
        match self.random.below(12) {
            0 => change_book(&mut case, &mut self.random),
            1..=3 => change_trees(&mut case, &mut self.random),
            _ => (),
        }
        case
    }

    /// Field lists whose files are about as long as they may be, or longer.
    fn long(&mut self) -> Task {
        let case = long_case(&mut self.random);
        let fields = values(&book_fields(&case.book));
        if self.random.chance(1, 2) {
            return Task::WriteBook { fields, room: self.room(16_384) };
        }
        let fields = values(&certificate_fields(&case.certificate));
        let book = Book { arities: case.book.arities, rules: case.book.rules[..1].to_vec() };
        Task::WriteCertificate { book: pack_book(&book), fields, room: self.room(32_768) }
    }

    /// The right length, one less, more, or none.
    fn room(&mut self, need: usize) -> usize {
        match self.random.below(8) {
            0 => need.saturating_sub(1),
            1 => 0,
            2 => self.random.below(need + 1),
            3 | 4 => need,
            _ => need + self.random.below(40),
        }
    }

    fn perhaps_damaged(&mut self, mut fields: Vec<Field>) -> Vec<u16> {
        let random = &mut self.random;
        match random.below(4) {
            0 => return values(&fields),
            1 => change_fields(&mut fields, random),
            _ => (),
        }
        let widths: Vec<u32> = fields.iter().map(|field| field.width).collect();
        let mut list = values(&fields);
        let place = random.below(list.len());
        match random.below(6) {
            0 if !list.is_empty() => list[place] |= 1 << widths[place],
            1 if !list.is_empty() => list[place] = 0xFFFF - random.small() as u16,
            2 => list.truncate(place),
            3 => list.push(random.small() as u16),
            4 if !list.is_empty() => list[place] = random.number() as u16,
            _ => (),
        }
        list
    }
}

/// Facts of 255 nodes and lines filled with terms of 255 nodes: 51 facts nearly
/// fill a book, 101 lines a certificate; one more of any size may pass the limit.
fn long_case(random: &mut Random) -> Case {
    let leaf = || fun(0, &[]);
    let nodes = |half: usize| (0..half).fold(leaf(), |below, _| fun(1, &[leaf(), below]));
    let mut rules = vec![rule(leaf(), &[])];
    rules.extend((0..51).map(|_| rule(nodes(127), &[])));
    rules.push(rule(nodes(random.below(128)), &[]));
    let line = |term: Term| Line {
        left: leaf(),
        right: None,
        proof: Proof::Unfold {
            rule: 0,
            stop: 0,
            filling: vec![(0, term)],
            before: Vec::new(),
            last: None,
        },
    };
    let mut lines: Vec<Line> = (0..101).map(|_| line(nodes(127))).collect();
    lines.push(line(nodes(random.below(128))));
    let closing = Closing { line: 0, k: 0, alpha: 0, filling: Vec::new() };
    let book = Book { arities: vec![0, 2], rules };
    Case { book, certificate: Certificate { lines, closing } }
}
