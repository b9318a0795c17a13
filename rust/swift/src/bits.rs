//! A cursor over the bits of a file.

/// Why a file is refused, 3 to 7, and the bit at which the field begins.
#[derive(Clone, Copy, Debug, PartialEq, Eq)]
pub struct Fault {
    pub number: u8,
    pub at: u32,
}

impl Fault {
    pub fn new<T>(number: u8, at: u32) -> Result<T, Fault> {
        Err(Fault { number, at })
    }
}

/// "Fields are bit-packed, most significant bit first, with no gaps." A file has fewer
/// than 2^32 bits.
#[derive(Clone, Copy)]
pub struct Bits<'a> {
    bytes: &'a [u8],
    pub at: u32,
    end: u32,
}

impl<'a> Bits<'a> {
    pub fn new(bytes: &'a [u8]) -> Bits<'a> {
        Bits { bytes, at: 0, end: bytes.len() as u32 * 8 }
    }

    /// How many bits are left.
    #[inline(always)]
    pub fn left(&self) -> u32 {
        self.end - self.at
    }

    /// The bits from here on, the next one highest: 57 of them at least. Nothing if eight
    /// bytes don't follow.
    #[inline(always)]
    pub fn whole_window(&self) -> Option<u64> {
        let byte = (self.at >> 3) as usize;
        let eight = self.bytes.get(byte..byte + 8)?;
        Some(u64::from_be_bytes(eight.try_into().expect("eight bytes")) << (self.at & 7))
    }

    /// The same, with zeros behind the end of the file.
    #[inline(always)]
    pub fn window(&self) -> u64 {
        self.whole_window().unwrap_or_else(|| self.last_window())
    }

    #[cold]
    fn last_window(&self) -> u64 {
        let bytes = &self.bytes[(self.at >> 3) as usize..];
        let mut eight = [0; 8];
        eight[..bytes.len()].copy_from_slice(bytes);
        u64::from_be_bytes(eight) << (self.at & 7)
    }

    /// Takes a field: 3 if it "begins or runs past the end".
    #[inline(always)]
    pub fn take(&mut self, width: u32) -> Result<u32, Fault> {
        if self.left() < width {
            return Fault::new(3, self.at);
        }
        let value = (self.window() >> (64 - width)) as u32;
        self.at += width;
        Ok(value)
    }

    /// Takes a field: 4 if it "is outside the range".
    #[inline(always)]
    pub fn take_if(&mut self, width: u32, good: impl FnOnce(u32) -> bool) -> Result<u32, Fault> {
        let at = self.at;
        let value = self.take(width)?;
        match good(value) {
            true => Ok(value),
            false => Fault::new(4, at),
        }
    }

    /// 7 if "a padding bit is 1, or bytes or fields are left over".
    pub fn close(&self) -> Result<(), Fault> {
        match self.left() < 8 && self.window() == 0 {
            true => Ok(()),
            false => Fault::new(7, self.at),
        }
    }
}

#[cfg(test)]
mod tests {
    use super::*;

    #[test]
    fn fields_are_taken_in_order() {
        let mut bits = Bits::new(&[0b1010_0110, 0b1100_0000]);
        assert_eq!(bits.take(3), Ok(0b101));
        assert_eq!(bits.take(7), Ok(0b0011011));
        assert_eq!(bits.close(), Ok(()));
        assert_eq!(bits.take(7), Fault::new(3, 10));
        assert_eq!(bits.take_if(6, |value| value == 1), Fault::new(4, 10));
        assert_eq!(bits.take(1), Fault::new(3, 16));
    }

    #[test]
    fn what_is_left_over_is_refused() {
        let closed = |bytes: &[u8], fields: &[u32]| {
            let mut bits = Bits::new(bytes);
            assert!(fields.iter().all(|width| bits.take(*width).is_ok()));
            bits.close()
        };
        assert_eq!(closed(&[0xF0], &[4]), Ok(()));
        assert_eq!(closed(&[0xF1], &[4]), Fault::new(7, 4));
        assert_eq!(closed(&[0xF0, 0], &[4]), Fault::new(7, 4));
        assert_eq!(closed(&[0xFF; 9], &[24, 24, 24]), Ok(()));
        assert_eq!(closed(&[0; 10], &[24, 24, 24]), Fault::new(7, 72));
    }
}
