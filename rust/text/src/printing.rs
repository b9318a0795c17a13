//! From packed bytes back to text.

use crate::symbols::Symbols;
use crate::terms::variable_name;
use crate::TextError;
use second::files::{parse_book, parse_both, parse_call};
use second::{Book, Certificate, Filling, Line, Proof, Refusal, Rule, Term, Use};

type Printed = Result<String, TextError>;

/// Prints a packed rule book, with these names or names by number.
pub fn print_book(book: &[u8], names: Option<&Symbols>) -> Printed {
    let book = parse_book(book).map_err(refused)?;
    Ok(book_text(&book, &chosen(&book, names)?))
}

/// Prints a packed certificate of a packed rule book.
pub fn print_certificate(book: &[u8], certificate: &[u8], names: Option<&Symbols>) -> Printed {
    let (book, certificate) = parse_both(book, certificate).map_err(refused)?;
    Ok(certificate_text(&certificate, &chosen(&book, names)?))
}

/// Prints a packed call of a packed rule book.
pub fn print_call(book: &[u8], call: &[u8], names: Option<&Symbols>) -> Printed {
    let book = parse_book(book).map_err(refused)?;
    let call = parse_call(&book, call).map_err(refused)?;
    Ok(term_text(&call, &chosen(&book, names)?) + "\n")
}

fn refused(refusal: Refusal) -> TextError {
    TextError::Refused { refusal, place: None }
}

fn chosen(book: &Book, names: Option<&Symbols>) -> Result<Symbols, TextError> {
    match names {
        None => Ok(Symbols::by_number(&book.arities)),
        Some(names) if names.fit(&book.arities) => Ok(names.clone()),
        Some(names) => Err(TextError::unfit_names(names, &book.arities)),
    }
}

pub fn book_text(book: &Book, symbols: &Symbols) -> String {
    let mut text = symbols.statement() + "\n";
    for rule in &book.rules {
        text += &rule_text(rule, symbols);
        text += "\n";
    }
    text
}

fn rule_text(rule: &Rule, symbols: &Symbols) -> String {
    let head = term_text(&rule.head, symbols);
    let calls: Vec<String> = rule.calls.iter().map(|call| term_text(call, symbols)).collect();
    match calls.is_empty() {
        true => format!("{head}."),
        false => format!("{head} :- {}.", calls.join(", ")),
    }
}

pub fn term_text(term: &Term, symbols: &Symbols) -> String {
    let mut text = String::new();
    write_term(term, symbols, &mut text);
    text
}

fn write_term(term: &Term, symbols: &Symbols, text: &mut String) {
    match term {
        Term::Var(number) => *text += &variable_name(*number),
        Term::Fun(symbol, arguments) => {
            *text += symbols.name(*symbol);
            for (number, argument) in arguments.iter().enumerate() {
                *text += if number == 0 { "(" } else { ", " };
                write_term(argument, symbols, text);
            }
            if !arguments.is_empty() {
                *text += ")";
            }
        }
        Term::Pow { symbol, a, b, arg } => {
            *text += symbols.name(*symbol);
            if (*a, *b) != (0, 1) {
                *text += &format!("^{{{a},{b}}}");
            }
            *text += "(";
            write_term(arg, symbols, text);
            *text += ")";
        }
    }
}

pub fn certificate_text(certificate: &Certificate, symbols: &Symbols) -> String {
    let mut text = symbols.statement() + "\n";
    for (number, line) in certificate.lines.iter().enumerate() {
        text += &line_text(number, line, symbols);
    }
    let closing = &certificate.closing;
    text += &format!(
        "closing line {} k {} alpha {} {}\n",
        closing.line,
        closing.k,
        closing.alpha,
        filling_text(&closing.filling, symbols)
    );
    text
}

fn line_text(number: usize, line: &Line, symbols: &Symbols) -> String {
    let left = term_text(&line.left, symbols);
    let right = match &line.right {
        None => "empty".to_string(),
        Some(right) => term_text(right, symbols),
    };
    let (kind, reason) = match &line.proof {
        Proof::Unfold { rule, stop, filling, before, last } => {
            let filling = filling_text(filling, symbols);
            let mut reason = format!("rule {rule} stop {stop} {filling}");
            for one in before {
                reason += &format!("\n    use {}", use_text(one, symbols));
            }
            match last {
                _ if *stop == 0 => (),
                None => reason += " here",
                Some(one) => reason += &format!("\n    through {}", use_text(one, symbols)),
            }
            ("unfold", reason)
        }
        Proof::Descent { base, rule, filling } => {
            let filling = filling_text(filling, symbols);
            let base = use_text(base, symbols);
            ("descent", format!("base {base} rule {rule} {filling}"))
        }
    };
    format!("line {number}: {kind} {left} -> {right}\n    by {reason}\n")
}

fn use_text(one: &Use, symbols: &Symbols) -> String {
    let Use { line, i, j, filling } = one;
    format!("{line} ({i},{j}) {}", filling_text(filling, symbols))
}

fn filling_text(filling: &Filling, symbols: &Symbols) -> String {
    let entries: Vec<String> = filling
        .iter()
        .map(|(name, term)| format!("{} = {}", variable_name(*name), term_text(term, symbols)))
        .collect();
    match entries.is_empty() {
        true => "{}".to_string(),
        false => format!("{{ {} }}", entries.join(", ")),
    }
}
