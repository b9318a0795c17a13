//! The command-line tool over files or standard input.

mod help;

use help::{help, misused};
use std::collections::BTreeSet;
use std::process::{Command, ExitCode};
use text::inputs::{
    book_of, certificate_of, framed, packed_book, packed_call, packed_certificate, Book, CallFrom,
};
use text::shell::{called, run_with, text_of, write_file, Failure, Outcome, DONE, UNDONE};
use text::vectors::{expected_output, pack_vectors, parse_vectors, Vector};
use text::{names_in, print_book, print_call, print_certificate, Symbols, TextError};

type Done = Result<Vec<u8>, Failure>;

fn main() -> ExitCode {
    run_with(|words| match words {
        ["judge", files @ ..] if files.len() == 2 && !files.iter().any(|word| is_help(word)) => {
            asked(files)
        }
        ["covers", book, certificate, call @ ..]
            if CallFrom::words(call).is_some() && !is_help(book) && !is_help(certificate) =>
        {
            asked(words)
        }
        _ => Ok((told(words)?, DONE)),
    })
}

/// Lets the program `gearcinder-judge`, which is built beside this one, answer; so only whoever
/// asks the judge needs the proved library.
fn asked(words: &[&str]) -> Outcome {
    let program = std::env::current_exe().map(|own| own.with_file_name("gearcinder-judge"));
    let asked = program.and_then(|judge| Command::new(judge).args(words).status());
    match asked {
        Ok(status) => Ok((Vec::new(), status.code().map_or(UNDONE, |code| code as u8))),
        Err(error) => {
            Err(Failure::undone(format!("gearcinder-judge, beside this program: {error}")))
        }
    }
}

fn is_help(word: &str) -> bool {
    matches!(word, "--help" | "-h")
}

/// What the tool says of itself, or what a command makes.
fn told(words: &[&str]) -> Done {
    match words {
        ["help"] => Ok(help(None)?.into_bytes()),
        ["help", command] => Ok(help(Some(command))?.into_bytes()),
        [word] if is_help(word) => Ok(help(None)?.into_bytes()),
        [command, rest @ ..] if rest.iter().any(|word| is_help(word)) => {
            Ok(help(Some(command))?.into_bytes())
        }
        ["--version"] => Ok(format!("gearcinder-text {}\n", env!("CARGO_PKG_VERSION")).into()),
        _ => run(words),
    }
}

fn run(words: &[&str]) -> Done {
    let (words, names) = without_names(words)?;
    match words[..] {
        ["pack-book"] => packed_book("-", &text_of("-")?),
        ["pack-book", file] => packed_book(file, &text_of(file)?),
        ["pack-certificate", book] => certificate_packed(book, "-"),
        ["pack-certificate", book, file] => certificate_packed(book, file),
        ["pack-call", book] => call_packed(book, "-"),
        ["pack-call", book, file] => call_packed(book, file),
        ["print-book"] => book_printed(names, "-"),
        ["print-book", book] => book_printed(names, book),
        ["print-certificate", book] => certificate_printed(names, book, "-"),
        ["print-certificate", book, file] => certificate_printed(names, book, file),
        ["print-call", book] => call_printed(names, book, "-"),
        ["print-call", book, file] => call_printed(names, book, file),
        ["frame", book] => frame(book, "-"),
        ["frame", book, certificate] => frame(book, certificate),
        ["pack-vectors", packed, output, ref files @ ..] if !files.is_empty() => {
            let vectors = vectors_of(files)?;
            write_file(packed, &pack_vectors(&vectors))?;
            write_file(output, expected_output(&vectors).as_bytes())?;
            Ok(Vec::new())
        }
        ["input-of", name, ref files @ ..] if !files.is_empty() => {
            let vectors = vectors_of(files)?;
            let found = vectors.iter().find(|vector| vector.name == name);
            let input = found.and_then(Vector::framed);
            input.ok_or(Failure::refused(format!("no judgement is called {name}")))
        }
        _ => Err(misused(&words)),
    }
}

/// Takes `--names TEXT`, which only the printing commands have, out of the words.
fn without_names<'a>(words: &[&'a str]) -> Result<(Vec<&'a str>, Option<&'a str>), Failure> {
    match words {
        [command, "--names", names, rest @ ..] if command.starts_with("print-") => {
            Ok(([&[*command], rest].concat(), Some(names)))
        }
        _ => match words.iter().find(|word| word.starts_with('-') && **word != "-") {
            None => Ok((words.to_vec(), None)),
            Some(_) => Err(misused(words)),
        },
    }
}

fn certificate_packed(book: &str, file: &str) -> Done {
    packed_certificate(&book_of(book)?, file, &text_of(file)?)
}

fn call_packed(book: &str, file: &str) -> Done {
    packed_call(&book_of(book)?, file, &text_of(file)?)
}

fn book_printed(names: Option<&str>, book: &str) -> Done {
    let book = book_of(book)?;
    let printed = print_book(&book.bytes, names_of(names, &book)?.as_ref());
    Ok(printed.map_err(|error| refused(&error, names, &book, &book.file))?.into_bytes())
}

fn certificate_printed(names: Option<&str>, book: &str, file: &str) -> Done {
    let book = book_of(book)?;
    let certificate = certificate_of(&book, file)?;
    let printed = print_certificate(&book.bytes, &certificate, names_of(names, &book)?.as_ref());
    Ok(printed.map_err(|error| refused(&error, names, &book, called(file)))?.into_bytes())
}

fn call_printed(names: Option<&str>, book: &str, file: &str) -> Done {
    let book = book_of(book)?;
    let call = CallFrom::File(file).packed(&book)?;
    let printed = print_call(&book.bytes, &call, names_of(names, &book)?.as_ref());
    Ok(printed.map_err(|error| refused(&error, names, &book, called(file)))?.into_bytes())
}

/// What is wrong with the names, the book or this file.
fn refused(error: &TextError, names: Option<&str>, book: &Book, file: &str) -> Failure {
    let file = match (error, names) {
        (TextError::Names(_), Some(names)) => called(names),
        _ => file,
    };
    Failure::refused(error.in_files(&book.file, file))
}

fn frame(book: &str, certificate: &str) -> Done {
    let book = book_of(book)?;
    framed(&book, &certificate_of(&book, certificate)?)
}

/// The names in that text, or those of the book if it is text itself.
fn names_of(file: Option<&str>, book: &Book) -> Result<Option<Symbols>, Failure> {
    match file {
        None => Ok(book.names.clone()),
        Some(file) => {
            let names = names_in(&text_of(file)?);
            names.map(Some).map_err(|error| Failure::refused(error.in_files(file, called(file))))
        }
    }
}

/// All vectors of these files, in order; no two have one name.
fn vectors_of(files: &[&str]) -> Result<Vec<Vector>, Failure> {
    let mut vectors: Vec<Vector> = Vec::new();
    for file in files {
        let found = parse_vectors(&text_of(file)?);
        let file = called(file);
        vectors.extend(found.map_err(|error| Failure::refused(error.in_files(file, file)))?);
    }
    let mut names = BTreeSet::new();
    match vectors.iter().find(|vector| !names.insert(vector.name.as_str())) {
        None => Ok(vectors),
        Some(again) => Err(Failure::refused(format!("two vectors are called {}", again.name))),
    }
}
