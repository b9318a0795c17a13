//! The forms that books and certificates share: symbol list, term, filling.

use crate::kinds::Kind;
use crate::reader::{Read, Reader};
use crate::symbols::Symbols;
use crate::TextError;

/// Text nested deeper than this is not read; files hold at most 256 nodes.
const DEEPEST: usize = 2_000;

/// A symbol list, and the tokens of its names, of its arities and of its full stop.
pub struct Table {
    pub symbols: Symbols,
    pub names: Vec<usize>,
    pub arities: Vec<usize>,
    pub stop: usize,
}

impl Reader {
    /// `symbols NAME/ARITY, ... .`
    pub fn symbol_table(&mut self) -> Read<Table> {
        self.expect_word("symbols")?;
        let (mut names, mut arities) = (Vec::new(), Vec::new());
        let mut symbols = Symbols::default();
        while !self.is_sign(".") {
            if !symbols.is_empty() {
                self.expect_sign_as(",", "`,` or `.`")?;
            }
            names.push(self.mark());
            let name = self.symbol_name(&symbols)?;
            self.expect_sign("/")?;
            arities.push(self.mark());
            symbols.add(&name, self.number(Kind::Arity)?);
        }
        let stop = self.mark();
        self.expect_sign(".")?;
        Ok(Table { symbols, names, arities, stop })
    }

    /// A name that may stand in the table behind these.
    fn symbol_name(&mut self, symbols: &Symbols) -> Read<String> {
        let position = self.position_of(self.mark());
        let name = self.any_word("a symbol's name")?;
        let wrong = if name == "empty" {
            "which is taken for the empty mark"
        } else if name.starts_with(|c: char| c.is_ascii_uppercase()) {
            "which begins with a capital letter"
        } else if symbols.number_and_arity(&name).is_some() {
            "which is in the table already"
        } else {
            return Ok(name);
        };
        TextError::expected(position, "a symbol's name", format!("`{name}`, {wrong}"))
    }

    pub fn term(&mut self) -> Read<()> {
        self.term_as("a term")
    }

    /// A term; a message calls what was expected so.
    pub fn term_as(&mut self, expected: &str) -> Read<()> {
        self.node(expected, DEEPEST)
    }

    fn node(&mut self, expected: &str, depth: usize) -> Read<()> {
        let mark = self.mark();
        if depth == 0 {
            return self.expected(format!("a term at most {DEEPEST} deep"));
        }
        let name = self.any_word(expected)?;
        match variable_number(&name) {
            Some(number) => {
                self.put(0, Kind::Tag, mark);
                self.put(number, Kind::Variable, mark);
                Ok(())
            }
            None => self.application(&name, mark, depth),
        }
    }

    fn application(&mut self, name: &str, mark: usize, depth: usize) -> Read<()> {
        let position = self.position_of(mark);
        let Some((number, arity)) = self.symbols.number_and_arity(name) else {
            let known = "a symbol of the table or a variable";
            return TextError::expected(position, known, format!("`{name}`"));
        };
        let unary = arity == 1;
        self.put(if unary { 2 } else { 1 }, Kind::Tag, mark);
        self.put(number as u16, if unary { Kind::PowerSymbol } else { Kind::Symbol }, mark);
        if unary {
            self.exponent(mark)?;
        } else if self.is_sign("^") {
            let found = format!("`{name}/{arity}`");
            return TextError::expected(position, "a symbol of arity 1 before `^`", found);
        }
        self.arguments(name, arity, depth)
    }

    /// `^{a,b}`; nothing means `^{0,1}`.
    fn exponent(&mut self, mark: usize) -> Read<()> {
        let a = self.kind_of_a;
        if !self.sign_follows("^") {
            self.put(0, a, mark);
            self.put(1, Kind::B, mark);
            return Ok(());
        }
        self.expect_sign("{")?;
        self.number_field(a)?;
        self.expect_sign(",")?;
        self.number_field(Kind::B)?;
        self.expect_sign("}")
    }

    fn arguments(&mut self, name: &str, arity: u16, depth: usize) -> Read<()> {
        let has = format!("`{name}` has {}", counted(arity));
        if arity == 0 {
            return match self.is_sign("(") {
                false => Ok(()),
                true => self.expected(format!("no argument of `{name}/0`")),
            };
        }
        self.expect_sign_as("(", format!("`(` ({has})"))?;
        for number in 0..arity {
            if number > 0 {
                self.expect_sign_as(",", format!("`,` ({has})"))?;
            }
            self.node("a term", depth - 1)?;
        }
        self.expect_sign_as(")", format!("`)` ({has})"))
    }

    /// `{ X = term, ... }`
    pub fn filling(&mut self) -> Read<()> {
        let place = self.open_count(Kind::FillingCount);
        self.expect_sign("{")?;
        let mut count = 0;
        while !self.sign_follows("}") {
            if count > 0 {
                self.expect_sign_as(",", "`,` or `}`")?;
            }
            self.variable_field()?;
            self.expect_sign("=")?;
            self.term()?;
            count += 1;
        }
        self.close_count(place, count)
    }

    fn variable_field(&mut self) -> Read<()> {
        let mark = self.mark();
        let wanted = "a variable, A to Z or V0 to V63";
        let name = self.any_word(wanted)?;
        match variable_number(&name) {
            Some(number) => {
                self.put(number, Kind::FilledVariable, mark);
                Ok(())
            }
            None => TextError::expected(self.position_of(mark), wanted, format!("`{name}`")),
        }
    }
}

fn counted(arity: u16) -> String {
    match arity {
        1 => "1 argument".to_string(),
        _ => format!("{arity} arguments"),
    }
}

/// The letters A to Z are 0 to 25; V and a number is that number.
pub fn variable_number(name: &str) -> Option<u16> {
    match name.as_bytes() {
        [letter @ b'A'..=b'Z'] => Some(u16::from(letter - b'A')),
        [b'V', digits @ ..] if digits.iter().all(u8::is_ascii_digit) => name[1..].parse().ok(),
        _ => None,
    }
}

/// The name that the tool prints for a variable.
pub fn variable_name(number: u8) -> String {
    match number {
        0..=25 => char::from(b'A' + number).to_string(),
        _ => format!("V{number}"),
    }
}
