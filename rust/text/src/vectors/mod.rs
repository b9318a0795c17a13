//! Test vectors: an operation, all that it is lent, and the answer that is expected,
//! in a readable form (docs/TEXT.md) and packed into one file.

mod contents;
mod parsing;
mod rewriting;

pub use parsing::parse_vectors;

use second::judging::WORK_NUMBERS;
use second::{coverage_line, verdict_line, Answer, Verdict};

/// What stands everywhere in lent memory before a call.
pub const FRESH_WORK: u64 = 7;
pub const FRESH_FIELD: u16 = 0xABCD;
pub const FRESH_BYTE: u8 = 0xAB;

/// The operations, with their numbers in the packed form.
#[derive(Clone, Copy, Debug, PartialEq, Eq)]
pub enum Operation {
    Judge = 0,
    Input = 1,
    ReadBook = 2,
    ReadCertificate = 3,
    WriteBook = 4,
    WriteCertificate = 5,
    Covers = 6,
}

/// A file in its bytes, or the list of its fields.
#[derive(Clone, Debug, PartialEq, Eq)]
pub enum File {
    Bytes(Vec<u8>),
    List(Vec<u16>),
}

impl File {
    pub fn nothing() -> File {
        File::Bytes(Vec::new())
    }

    /// How many bytes, or how many fields.
    fn len(&self) -> usize {
        match self {
            File::Bytes(bytes) => bytes.len(),
            File::List(list) => list.len(),
        }
    }

    /// The bytes, or two bytes for each field, high byte first.
    fn spelled(&self) -> Vec<u8> {
        match self {
            File::Bytes(bytes) => bytes.clone(),
            File::List(list) => list.iter().flat_map(|field| field.to_be_bytes()).collect(),
        }
    }

    pub fn bytes(&self) -> &[u8] {
        match self {
            File::Bytes(bytes) => bytes,
            File::List(_) => panic!("a list where bytes stand"),
        }
    }

    pub fn list(&self) -> &[u16] {
        match self {
            File::List(list) => list,
            File::Bytes(_) => panic!("bytes where a list stands"),
        }
    }
}

#[derive(Clone, Debug, PartialEq, Eq)]
pub struct Vector {
    pub name: String,
    pub operation: Operation,
    /// The numbers of the work table, or the places of the output.
    pub lent: usize,
    /// The book, or the whole input.
    pub first: File,
    /// The certificate, if the operation takes one.
    pub second: File,
    /// The call, if the operation takes one.
    pub third: File,
    /// The answer that the text states.
    pub answer: String,
}

/// An answer in words, and the sum of what the call left in the memory lent to it.
#[derive(Clone, Debug, PartialEq, Eq)]
pub struct Outcome {
    pub answer: String,
    pub left: u64,
}

impl Vector {
    /// What the second implementation makes of it.
    pub fn outcome(&self) -> Outcome {
        match self.operation {
            Operation::Judge | Operation::Input => self.judged(),
            Operation::ReadBook | Operation::ReadCertificate => self.read(),
            Operation::WriteBook | Operation::WriteCertificate => self.written(),
            Operation::Covers => self.asked(),
        }
    }

    fn asked(&self) -> Outcome {
        let mut work = vec![FRESH_WORK; self.lent];
        let (book, certificate) = (self.first.bytes(), self.second.bytes());
        let coverage = second::covers(book, certificate, self.third.bytes(), &mut work);
        Outcome { answer: coverage_line(&coverage), left: sum(work) }
    }

    fn judged(&self) -> Outcome {
        let mut work = vec![FRESH_WORK; self.lent];
        let verdict = match self.operation {
            Operation::Input => second::judge_input(self.first.bytes(), &mut work),
            _ => second::judge(self.first.bytes(), self.second.bytes(), &mut work),
        };
        Outcome { answer: verdict_line(&verdict), left: sum(work) }
    }

    fn read(&self) -> Outcome {
        let mut out = vec![FRESH_FIELD; self.lent];
        let answer = match self.operation {
            Operation::ReadBook => second::read_book(self.first.bytes(), &mut out),
            _ => second::read_certificate(self.first.bytes(), self.second.bytes(), &mut out),
        };
        Outcome { answer: in_words(answer), left: sum(out) }
    }

    fn written(&self) -> Outcome {
        let mut out = vec![FRESH_BYTE; self.lent];
        let answer = match self.operation {
            Operation::WriteBook => second::write_book(self.first.list(), &mut out),
            _ => second::write_certificate(self.first.bytes(), self.second.list(), &mut out),
        };
        Outcome { answer: in_words(answer), left: sum(out) }
    }

    /// The same judgement in the framing of the program, if it is one.
    pub fn framed(&self) -> Option<Vec<u8>> {
        match self.operation {
            Operation::Input => Some(self.first.bytes().to_vec()),
            Operation::Judge => Some(frame(self.first.bytes(), self.second.bytes(), None)),
            _ => None,
        }
    }

    /// The line that the program `cases` prints for it.
    pub fn line(&self) -> String {
        let Outcome { answer, left } = self.outcome();
        format!("{} {answer} left {left}\n", self.name)
    }

    fn packed(&self) -> Vec<u8> {
        let short = |number: usize| (number as u16).to_be_bytes();
        let mut bytes = vec![self.operation as u8, self.name.len() as u8];
        bytes.extend(short(self.lent));
        bytes.extend(short(self.first.len()));
        bytes.extend(short(self.second.len()));
        if self.operation == Operation::Covers {
            bytes.extend(short(self.third.len()));
        }
        bytes.extend(self.name.as_bytes());
        bytes.extend(self.first.spelled());
        bytes.extend(self.second.spelled());
        bytes.extend(self.third.spelled());
        bytes
    }
}

/// All vectors in one file: their count, then one after the other.
pub fn pack_vectors(vectors: &[Vector]) -> Vec<u8> {
    let mut bytes = (vectors.len() as u16).to_be_bytes().to_vec();
    vectors.iter().for_each(|vector| bytes.extend(vector.packed()));
    bytes
}

/// What the program `cases` prints.
pub fn expected_output(vectors: &[Vector]) -> String {
    vectors.iter().map(Vector::line).collect()
}

/// Two bytes of length, the book and the certificate.
fn frame(book: &[u8], certificate: &[u8], length: Option<u16>) -> Vec<u8> {
    let length = length.unwrap_or(book.len().min(0xFFFF) as u16);
    [&length.to_be_bytes(), book, certificate].concat()
}

/// `filled` count, or the refusal's line.
pub fn in_words(answer: Answer) -> String {
    match answer {
        Answer::Filled(count) => format!("filled {count}"),
        Answer::Refused(refusal) => verdict_line(&Verdict::Refused(refusal)),
    }
}

/// A sum that knows places: times 31, plus the next number, modulo 65,521.
pub fn sum<T: Into<u64>>(numbers: Vec<T>) -> u64 {
    numbers.into_iter().fold(0, |sum, number| (sum * 31 + number.into() % 65_521) % 65_521)
}

/// The work table that a vector is lent if its text doesn't say.
const USUAL_WORK: usize = WORK_NUMBERS;
