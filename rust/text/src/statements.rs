//! The statements of books and certificates: rules, lines and the closing; and calls.

use crate::kinds::Kind;
use crate::reader::{Read, Reader};
use crate::symbols::Symbols;

/// The field list of a book's text.
pub fn book_fields(text: &str) -> Read<Reader> {
    let mut reader = Reader::new(text)?;
    reader.kind_of_a = Kind::BookA;
    let place = reader.open_count(Kind::SymbolCount);
    let table = reader.symbol_table()?;
    reader.close_count(place, table.symbols.len())?;
    for ((_, arity), mark) in table.symbols.entries().zip(&table.arities) {
        reader.put(arity, Kind::Arity, *mark);
    }
    reader.symbols = table.symbols;
    let place = reader.open_count(Kind::RuleCount);
    let mut rules = 0;
    while !reader.at_end() {
        rule(&mut reader)?;
        rules += 1;
    }
    reader.close_count(place, rules)?;
    Ok(reader)
}

/// `head.` or `head :- call, ... .`
fn rule(reader: &mut Reader) -> Read<()> {
    let place = reader.open_count(Kind::CallCount);
    reader.term_as("a rule")?;
    let mut calls = 0;
    if reader.sign_follows(":-") {
        reader.term()?;
        calls = 1;
        while reader.sign_follows(",") {
            reader.term()?;
            calls += 1;
        }
    }
    reader.expect_sign_as(".", if calls == 0 { "`:-` or `.`" } else { "`,` or `.`" })?;
    reader.close_count(place, calls)
}

/// The field list of a certificate's text that may leave its symbol list out and mean
/// this one.
pub fn certificate_fields_over(text: &str, symbols: &Symbols) -> Read<Reader> {
    let mut reader = Reader::new(text)?;
    reader.symbols = match reader.is_word("symbols") {
        true => reader.symbol_table()?.symbols,
        false => symbols.clone(),
    };
    lines_and_closing(reader)
}

/// The field list of a call's text, likewise.
pub fn call_fields_over(text: &str, symbols: &Symbols) -> Read<Reader> {
    let mut reader = Reader::new(text)?;
    reader.symbols = match reader.table_follows() {
        true => reader.symbol_table()?.symbols,
        false => symbols.clone(),
    };
    one_call(reader)
}

/// One term, and nothing behind it.
pub fn one_call(mut reader: Reader) -> Read<Reader> {
    reader.kind_of_a = Kind::CallA;
    reader.term_as("a call")?;
    match reader.at_end() {
        true => Ok(reader),
        false => reader.expected("the end behind the call"),
    }
}

pub fn lines_and_closing(mut reader: Reader) -> Read<Reader> {
    let place = reader.open_count(Kind::LineCount);
    let mut lines = 0;
    while reader.is_word("line") {
        line(&mut reader, lines)?;
        lines += 1;
    }
    reader.close_count(place, lines)?;
    if !reader.is_word("closing") {
        return reader.expected("`line` or `closing`");
    }
    closing(&mut reader)?;
    match reader.at_end() {
        true => Ok(reader),
        false => reader.expected("the end behind the closing"),
    }
}

/// `line N: unfold LEFT -> RIGHT by ...` or `line N: descent ...`
fn line(reader: &mut Reader, number: usize) -> Read<()> {
    reader.expect_word("line")?;
    if !reader.word_follows(&number.to_string()) {
        return reader.expected(format!("`{number}`, the line's own number"));
    }
    reader.expect_sign(":")?;
    let mark = reader.mark();
    let descent = reader.word_follows("descent");
    if !descent && !reader.word_follows("unfold") {
        return reader.expected("`unfold` or `descent`");
    }
    reader.put(u16::from(descent), Kind::LineKind, mark);
    reader.term()?;
    right(reader)?;
    reader.expect_word("by")?;
    match descent {
        true => descent_reason(reader),
        false => unfold_reason(reader),
    }
}

/// `-> empty` or `-> TERM`
fn right(reader: &mut Reader) -> Read<()> {
    reader.expect_sign("->")?;
    let mark = reader.mark();
    let empty = reader.word_follows("empty");
    reader.put(u16::from(!empty), Kind::RightBit, mark);
    match empty {
        true => Ok(()),
        false => reader.term_as("a term or `empty`"),
    }
}

/// `base LINE (i,j) {...} rule R {...}`
fn descent_reason(reader: &mut Reader) -> Read<()> {
    reader.expect_word("base")?;
    one_use(reader)?;
    reader.expect_word("rule")?;
    reader.number_field(Kind::DescentRule)?;
    reader.filling()
}

/// `rule R stop 0 {...}` or `rule R stop i {...} use ... use ... here` or, at the
/// end, `through LINE (i,j) {...}`
fn unfold_reason(reader: &mut Reader) -> Read<()> {
    reader.expect_word("rule")?;
    reader.number_field(Kind::Rule)?;
    reader.expect_word("stop")?;
    let stop = reader.number_field(Kind::Stop)?;
    reader.filling()?;
    if stop == 0 {
        return Ok(());
    }
    for _ in 1..stop {
        if !reader.word_follows("use") {
            return reader.expected(format!("`use`, one for each call before call {stop}"));
        }
        one_use(reader)?;
    }
    let mark = reader.mark();
    if reader.word_follows("here") {
        reader.put(0, Kind::UseBit, mark);
        return Ok(());
    }
    if !reader.word_follows("through") {
        return reader.expected("`here` or `through`");
    }
    reader.put(1, Kind::UseBit, mark);
    one_use(reader)
}

/// `LINE (i,j) {...}`
fn one_use(reader: &mut Reader) -> Read<()> {
    reader.number_field(Kind::UsedLine)?;
    reader.expect_sign("(")?;
    reader.number_field(Kind::I)?;
    reader.expect_sign(",")?;
    reader.number_field(Kind::J)?;
    reader.expect_sign(")")?;
    reader.filling()
}

/// `closing line L k K alpha A {...}`
fn closing(reader: &mut Reader) -> Read<()> {
    reader.expect_word("closing")?;
    for (word, kind) in [("line", Kind::NamedLine), ("k", Kind::K), ("alpha", Kind::Alpha)] {
        reader.expect_word(word)?;
        reader.number_field(kind)?;
    }
    reader.filling()
}
