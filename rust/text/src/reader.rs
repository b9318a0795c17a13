//! Reads the tokens of a text and collects fields, each with the place it stems from.

use crate::errors::expected_found;
use crate::kinds::Kind;
use crate::lexer::{tokens, Position, Token};
use crate::symbols::Symbols;
use crate::TextError;
use second::spell::Field;
use second::Refusal;

pub struct Reader {
    tokens: Vec<(Token, Position)>,
    at: usize,
    pub symbols: Symbols,
    /// What the a of a power is in this text: in a book and in a call it has to be 0.
    pub kind_of_a: Kind,
    pub fields: Vec<Field>,
    /// What each field is, and the number of the token that it stems from.
    origins: Vec<(Kind, usize)>,
}

pub type Read<T> = Result<T, TextError>;

impl Reader {
    pub fn new(text: &str) -> Read<Reader> {
        Ok(Reader {
            tokens: tokens(text)?,
            at: 0,
            symbols: Symbols::default(),
            kind_of_a: Kind::A,
            fields: Vec::new(),
            origins: Vec::new(),
        })
    }

    // -------------------------------------------------------- tokens

    fn token(&self) -> &Token {
        &self.tokens[self.at].0
    }

    /// The number of the token that is read next.
    pub fn mark(&self) -> usize {
        self.at
    }

    /// Where a token stands in the text.
    pub fn position_of(&self, mark: usize) -> Position {
        self.tokens[mark].1
    }

    fn advance(&mut self) {
        if self.at + 1 < self.tokens.len() {
            self.at += 1;
        }
    }

    /// Something else than this stands here.
    pub fn expected<T>(&self, expected: impl std::fmt::Display) -> Read<T> {
        TextError::expected(self.position_of(self.at), expected, self.token())
    }

    pub fn at_end(&self) -> bool {
        *self.token() == Token::End
    }

    pub fn is_sign(&self, sign: &str) -> bool {
        matches!(self.token(), Token::Sign(found) if *found == sign)
    }

    pub fn is_word(&self, word: &str) -> bool {
        matches!(self.token(), Token::Word(found) if found == word)
    }

    /// Does a symbol list follow, and not a term whose symbol is called `symbols`?
    pub fn table_follows(&self) -> bool {
        let after = self.tokens.get(self.at + 1).map(|(token, _)| token);
        self.is_word("symbols") && matches!(after, Some(Token::Word(_) | Token::Sign(".")))
    }

    /// Takes the sign if it stands here.
    pub fn sign_follows(&mut self, sign: &str) -> bool {
        let follows = self.is_sign(sign);
        if follows {
            self.advance();
        }
        follows
    }

    pub fn word_follows(&mut self, word: &str) -> bool {
        let follows = self.is_word(word);
        if follows {
            self.advance();
        }
        follows
    }

    pub fn expect_sign(&mut self, sign: &str) -> Read<()> {
        self.expect_sign_as(sign, format!("`{sign}`"))
    }

    /// Takes the sign; a message calls what was expected so.
    pub fn expect_sign_as(&mut self, sign: &str, expected: impl std::fmt::Display) -> Read<()> {
        match self.sign_follows(sign) {
            true => Ok(()),
            false => self.expected(expected),
        }
    }

    pub fn expect_word(&mut self, word: &str) -> Read<()> {
        match self.word_follows(word) {
            true => Ok(()),
            false => self.expected(format!("`{word}`")),
        }
    }

    pub fn any_word(&mut self, expected: &str) -> Read<String> {
        match self.token().clone() {
            Token::Word(word) => {
                self.advance();
                Ok(word)
            }
            _ => self.expected(expected),
        }
    }

    /// A number of 16 bits, for a field of this kind.
    pub fn number(&mut self, kind: Kind) -> Read<u16> {
        let number = match self.token() {
            Token::Word(word) if word.bytes().all(|b| b.is_ascii_digit()) => word.parse().ok(),
            _ => None,
        };
        match number {
            Some(number) => {
                self.advance();
                Ok(number)
            }
            None => self.expected(kind.expected()),
        }
    }

    // -------------------------------------------------------- fields

    pub fn put(&mut self, value: u16, kind: Kind, mark: usize) {
        self.fields.push(Field { value, width: kind.width() });
        self.origins.push((kind, mark));
    }

    /// A number that is a field.
    pub fn number_field(&mut self, kind: Kind) -> Read<u16> {
        let mark = self.mark();
        let number = self.number(kind)?;
        self.put(number, kind, mark);
        Ok(number)
    }

    /// A field whose value, a count, is known later.
    pub fn open_count(&mut self, kind: Kind) -> usize {
        self.put(0, kind, self.mark());
        self.fields.len() - 1
    }

    pub fn close_count(&mut self, place: usize, count: usize) -> Read<()> {
        let (kind, mark) = self.origins[place];
        match u16::try_from(count) {
            Ok(count) => {
                self.fields[place].value = count;
                Ok(())
            }
            Err(_) => TextError::expected(self.position_of(mark), kind.expected(), count),
        }
    }

    /// Where the field stands that the writer refuses, what it expects there and what
    /// it finds.
    pub fn place_of(&self, refusal: &Refusal) -> Option<(Position, String)> {
        let field = usize::try_from(refusal.a).ok()?;
        let (kind, mark) = *self.origins.get(field)?;
        let found = match refusal.number {
            6 => "a 257th".to_string(),
            _ if kind.is_count() => self.fields[field].value.to_string(),
            _ => self.tokens[mark].0.to_string(),
        };
        let expected = kind.expected_for(refusal.number);
        Some((self.position_of(mark), expected_found(expected, found)))
    }
}
