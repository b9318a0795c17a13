//! The symbol list: `symbols gt/2, s/1, 0/0.` gives each symbol its number, in
//! order from 0, and its arity.

use crate::reader::Reader;
use crate::TextError;

#[derive(Clone, Debug, Default, PartialEq, Eq)]
pub struct Symbols {
    entries: Vec<(String, u16)>,
}

impl Symbols {
    pub fn add(&mut self, name: &str, arity: u16) {
        self.entries.push((name.to_string(), arity));
    }

    pub fn len(&self) -> usize {
        self.entries.len()
    }

    pub fn is_empty(&self) -> bool {
        self.entries.is_empty()
    }

    pub fn number_and_arity(&self, name: &str) -> Option<(usize, u16)> {
        let number = self.entries.iter().position(|(entry, _)| entry == name)?;
        Some((number, self.entries[number].1))
    }

    pub fn name(&self, number: u8) -> &str {
        &self.entries[usize::from(number)].0
    }

    pub fn entries(&self) -> impl Iterator<Item = (&str, u16)> {
        self.entries.iter().map(|(name, arity)| (name.as_str(), *arity))
    }

    /// Names by number: c for constants, u for unary symbols, f for others.
    pub fn by_number(arities: &[u8]) -> Symbols {
        let mut symbols = Symbols::default();
        for (number, arity) in arities.iter().enumerate() {
            let letter = match arity {
                0 => 'c',
                1 => 'u',
                _ => 'f',
            };
            symbols.add(&format!("{letter}{number}"), u16::from(*arity));
        }
        symbols
    }

    /// Do these symbols have these arities?
    pub fn fit(&self, arities: &[u8]) -> bool {
        self.entries.iter().map(|(_, arity)| *arity).eq(arities.iter().map(|a| u16::from(*a)))
    }

    /// The table as text.
    pub fn statement(&self) -> String {
        let entries: Vec<String> =
            self.entries().map(|(name, arity)| format!("{name}/{arity}")).collect();
        match entries.is_empty() {
            true => "symbols.".to_string(),
            false => format!("symbols {}.", entries.join(", ")),
        }
    }
}

/// The symbol list at the head of any text, of a book or of a certificate.
pub fn names_in(text: &str) -> Result<Symbols, TextError> {
    Ok(Reader::new(text)?.symbol_table()?.symbols)
}
