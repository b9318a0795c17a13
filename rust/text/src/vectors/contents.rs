//! The contents of a file while a vector is being put together: text, fields or
//! bytes, and changes of them.

use crate::errors::expected_found;
use second::spell::{pack, values, Field};

/// Fields that can still be changed one by one, or bytes.
#[derive(Clone, Debug)]
pub enum Contents {
    Fields(Vec<Field>),
    Bytes(Vec<u8>),
}

type Changed = Result<(), String>;

/// The width of a field that only a list can hold.
pub const LISTED: u32 = 16;

impl Contents {
    /// The packed file.
    pub fn bytes(&self) -> Result<Vec<u8>, String> {
        match self {
            Contents::Bytes(bytes) => Ok(bytes.clone()),
            Contents::Fields(fields) => {
                let fits = |field: &Field| field.width < LISTED && field.value >> field.width == 0;
                match fields.iter().position(|field| !fits(field)) {
                    None => Ok(pack(fields)),
                    Some(place) => Err(format!("field {place} has no such width in a file")),
                }
            }
        }
    }

    /// The list of fields.
    pub fn list(&self) -> Result<Vec<u16>, String> {
        match self {
            Contents::Fields(fields) => Ok(values(fields)),
            Contents::Bytes(_) => Err(expected_found("a list of fields", "bytes")),
        }
    }

    fn fields_mut(&mut self) -> Result<&mut Vec<Field>, String> {
        match self {
            Contents::Fields(fields) => Ok(fields),
            Contents::Bytes(_) => Err(expected_found("fields to change", "bytes")),
        }
    }

    fn bytes_mut(&mut self) -> Result<&mut Vec<u8>, String> {
        *self = Contents::Bytes(self.bytes()?);
        match self {
            Contents::Bytes(bytes) => Ok(bytes),
            Contents::Fields(_) => unreachable!("they have just been packed"),
        }
    }

    /// One change, as a line of the text says it.
    pub fn change(&mut self, words: &[&str]) -> Changed {
        match words {
            ["set", place, value] => {
                let (place, value) = (number(place)?, number(value)?);
                let field = self.fields_mut()?.get_mut(place).ok_or("there is no such field")?;
                field.value = value as u16;
            }
            ["keep", count, "fields"] => self.fields_mut()?.truncate(number(count)?),
            ["add", "fields", more @ ..] => {
                let fields = self.fields_mut()?;
                for value in more {
                    fields.push(Field { value: number(value)? as u16, width: LISTED });
                }
            }
            ["keep", count, "bytes"] => self.bytes_mut()?.truncate(number(count)?),
            ["add", "bytes", more @ ..] => self.bytes_mut()?.extend(from_hex(more)?),
            ["zeros", "to", length] => self.bytes_mut()?.resize(number(length)?, 0),
            ["flip", place] => {
                let place: usize = place.parse().map_err(|_| not_a("a bit's number", place))?;
                let byte = self.bytes_mut()?.get_mut(place / 8).ok_or("there is no such bit")?;
                *byte ^= 0x80 >> (place % 8);
            }
            _ => return Err(not_a("a change", &words.join(" "))),
        }
        Ok(())
    }
}

/// A number of 16 bits.
pub fn number(word: &str) -> Result<usize, String> {
    let number = word.parse::<u16>();
    number.map(usize::from).map_err(|_| not_a("a number from 0 to 65535", word))
}

fn not_a(expected: &str, word: &str) -> String {
    expected_found(expected, format!("`{word}`"))
}

pub fn from_hex(words: &[&str]) -> Result<Vec<u8>, String> {
    let digits: String = words.concat();
    let pairs = digits.as_bytes().chunks(2).map(|pair| {
        let pair = std::str::from_utf8(pair).ok().filter(|pair| pair.len() == 2);
        pair.and_then(|pair| u8::from_str_radix(pair, 16).ok())
    });
    let bytes = pairs.collect::<Option<Vec<u8>>>();
    bytes.ok_or_else(|| not_a("two hex digits for each byte", &words.join(" ")))
}
