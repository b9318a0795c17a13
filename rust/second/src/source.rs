//! Where fields come from: a packed file or a field list.

pub trait Source {
    /// A for a refusal of the next field: "the bit offset where the field
    /// begins", or "in the file being written, the field's number from 0".
    fn place(&self) -> u64;

    /// The next field, or nothing if it "begins or runs past the end".
    fn next(&mut self, width: u32) -> Option<u16>;

    /// Nothing but good padding is left after the last field.
    fn ends_here(&self) -> bool;
}

/// "Fields are bit-packed, most significant bit first, with no gaps."
pub struct Bits<'a> {
    bytes: &'a [u8],
    at: usize,
}

impl<'a> Bits<'a> {
    pub fn new(bytes: &'a [u8]) -> Bits<'a> {
        Bits { bytes, at: 0 }
    }

    fn length(&self) -> usize {
        self.bytes.len() * 8
    }

    fn bit(&self, at: usize) -> u16 {
        u16::from(self.bytes[at / 8] >> (7 - at % 8) & 1)
    }
}

impl Source for Bits<'_> {
    fn place(&self) -> u64 {
        self.at as u64
    }

    fn next(&mut self, width: u32) -> Option<u16> {
        let end = self.at + width as usize;
        if end > self.length() {
            return None;
        }
        let value = (self.at..end).fold(0, |value, at| value << 1 | self.bit(at));
        self.at = end;
        Some(value)
    }

    /// "After the last field come zero bits up to the next whole byte, and
    /// nothing more."
    fn ends_here(&self) -> bool {
        self.length() - self.at < 8 && (self.at..self.length()).all(|at| self.bit(at) == 0)
    }
}

/// "A field list holds one 16-bit number for each field, in file order".
pub struct List<'a> {
    fields: &'a [u16],
    at: usize,
}

impl<'a> List<'a> {
    pub fn new(fields: &'a [u16]) -> List<'a> {
        List { fields, at: 0 }
    }
}

impl Source for List<'_> {
    fn place(&self) -> u64 {
        self.at as u64
    }

    fn next(&mut self, _width: u32) -> Option<u16> {
        let value = *self.fields.get(self.at)?;
        self.at += 1;
        Some(value)
    }

    fn ends_here(&self) -> bool {
        self.at == self.fields.len()
    }
}
