//! The proved side, called by the program call.c through a header.

use crate::declared::calls;
use compare::proved::Side;
use second::{Answer, Coverage, Refusal, Verdict};
use std::io::{ErrorKind, Write};
use std::path::{Path, PathBuf};
use std::process::{Command, Stdio};

/// As call.c lists them.
pub const FUNCTIONS: [&str; 6] = [
    "gearcinder_judge",
    "gearcinder_covers",
    "gearcinder_read_book",
    "gearcinder_read_certificate",
    "gearcinder_write_book",
    "gearcinder_write_certificate",
];

/// How many numbers guard each side, as in call.c.
const GUARDS: usize = 32;

/// A language, the variable that may name its compiler, and the compiler without it.
pub struct Language {
    words: [&'static str; 3],
    variable: &'static str,
    compiler: &'static str,
}

pub const C: Language = Language { words: ["-std=c99", "-x", "c"], variable: "CC", compiler: "cc" };
pub const CPP: Language =
    Language { words: ["-std=c++11", "-x", "c++"], variable: "CXX", compiler: "c++" };

/// The program, compiled with this header in a folder of this name. None if there is no
/// compiler; none in it if the compiler refuses the header.
pub fn compiled(language: &Language, folder: &str, header: &str) -> Option<Option<FromC>> {
    let folder = Path::new(env!("CARGO_TARGET_TMPDIR")).join(folder);
    std::fs::create_dir_all(&folder).unwrap();
    std::fs::write(folder.join("gearcinder.h"), header).unwrap();
    std::fs::write(folder.join("calls.h"), calls(header)).unwrap();
    let program = folder.join("call");
    let compiler = std::env::var(language.variable).unwrap_or(language.compiler.to_string());
    let output = Command::new(compiler)
        .args(["-Wall", "-Wextra", "-Wconversion", "-Werror", "-O2", "-I"])
        .arg(&folder)
        .args(language.words)
        .arg(Path::new(env!("CARGO_MANIFEST_DIR")).join("tests/header/call.c"))
        .args(["-x", "none"])
        .arg(Path::new(env!("GEARCINDER_LIB_DIR")).join("libembed.a"))
        .arg("-o")
        .arg(&program)
        .output();
    match output {
        Err(error) if error.kind() == ErrorKind::NotFound => None,
        Err(error) => panic!("{error}"),
        Ok(output) if output.status.success() => Some(Some(FromC { program })),
        Ok(output) => {
            println!("{}", String::from_utf8_lossy(&output.stderr));
            Some(None)
        }
    }
}

/// The side that the program calls.
pub struct FromC {
    program: PathBuf,
}

impl FromC {
    /// One call without a third input.
    fn call<A: Plain, B: Plain, T: Plain>(
        &self,
        function: &str,
        first: &[A],
        second: &[B],
        lent: &mut [T],
    ) -> [u64; 5] {
        self.call_of_three(function, first, second, &NOTHING, lent)
    }

    /// One call: the numbers of its answer.
    fn call_of_three<A: Plain, B: Plain, T: Plain>(
        &self,
        function: &str,
        first: &[A],
        second: &[B],
        third: &[u8],
        lent: &mut [T],
    ) -> [u64; 5] {
        let place = FUNCTIONS.iter().position(|name| *name == function).expect("a function");
        let lengths = [place, first.len(), second.len(), third.len(), lent.len()];
        let head = lengths.map(|number| number as u64);
        let (memory, answer) = (guarded(lent), guarded(&[7u64; 5]));
        let inputs = [bytes(&head), bytes(first), bytes(second), bytes(third)].concat();
        let input = [inputs, memory.clone(), answer].concat();
        let mut child = Command::new(&self.program)
            .stdin(Stdio::piped())
            .stdout(Stdio::piped())
            .spawn()
            .expect("the program runs");
        child.stdin.take().expect("a pipe").write_all(&input).expect("it reads all");
        let output = child.wait_with_output().unwrap();
        assert!(output.status.success(), "{}", output.status);
        let (memory, answer) = output.stdout.split_at(memory.len());
        lent.copy_from_slice(&unguarded(memory));
        unguarded(answer).try_into().expect("five numbers")
    }
}

impl Side for FromC {
    fn judge(&self, book: &[u8], certificate: &[u8], work: &mut [u64]) -> Verdict {
        match self.call("gearcinder_judge", book, certificate, work) {
            [0, line, k, alpha, 0] => Verdict::Accepted { line, k, alpha },
            [1, number, w, a, b] => Verdict::Refused(Refusal::new(number as u8, w as u8, a, b)),
            numbers => panic!("{numbers:?} is no verdict"),
        }
    }

    fn covers(&self, book: &[u8], certificate: &[u8], call: &[u8], work: &mut [u64]) -> Coverage {
        match self.call_of_three("gearcinder_covers", book, certificate, call, work) {
            [0, index, 0, 0, 0] => Coverage::Covered { index },
            [1, number, w, a, b] => Coverage::Refused(Refusal::new(number as u8, w as u8, a, b)),
            numbers => panic!("{numbers:?} is no answer"),
        }
    }

    fn read_book(&self, book: &[u8], out: &mut [u16]) -> Answer {
        answer(self.call("gearcinder_read_book", book, &NOTHING, out))
    }

    fn read_certificate(&self, book: &[u8], certificate: &[u8], out: &mut [u16]) -> Answer {
        answer(self.call("gearcinder_read_certificate", book, certificate, out))
    }

    fn write_book(&self, fields: &[u16], out: &mut [u8]) -> Answer {
        answer(self.call("gearcinder_write_book", fields, &NOTHING, out))
    }

    fn write_certificate(&self, book: &[u8], fields: &[u16], out: &mut [u8]) -> Answer {
        answer(self.call("gearcinder_write_certificate", book, fields, out))
    }
}

const NOTHING: [u8; 0] = [];

fn answer(numbers: [u64; 5]) -> Answer {
    match numbers {
        [0, count, 0, 0, 0] => Answer::Filled(count as usize),
        [1, number, w, a, b] => Answer::Refused(Refusal::new(number as u8, w as u8, a, b)),
        _ => panic!("{numbers:?} is no answer"),
    }
}

/// A number whose bytes C has in memory.
trait Plain: Copy {
    fn to_bytes(self) -> Vec<u8>;
    fn of_bytes(bytes: &[u8]) -> Self;
}

macro_rules! plain {
    ($number:ty) => {
        impl Plain for $number {
            fn to_bytes(self) -> Vec<u8> {
                self.to_ne_bytes().to_vec()
            }

            fn of_bytes(bytes: &[u8]) -> $number {
                <$number>::from_ne_bytes(bytes.try_into().expect("the bytes of a number"))
            }
        }
    };
}

plain!(u8);
plain!(u16);
plain!(u64);

fn bytes<T: Plain>(numbers: &[T]) -> Vec<u8> {
    numbers.iter().flat_map(|number| number.to_bytes()).collect()
}

/// The bytes of some numbers between guards.
fn guarded<T: Plain>(numbers: &[T]) -> Vec<u8> {
    let length = GUARDS * size_of::<T>();
    [vec![0x5A; length], bytes(numbers), vec![0xA5; length]].concat()
}

/// The numbers between guards, which are as they were.
fn unguarded<T: Plain>(memory: &[u8]) -> Vec<T> {
    let length = GUARDS * size_of::<T>();
    let content = &memory[length..memory.len() - length];
    let numbers: Vec<T> = content.chunks_exact(size_of::<T>()).map(T::of_bytes).collect();
    assert!(memory == guarded(&numbers), "a guard has changed");
    numbers
}
