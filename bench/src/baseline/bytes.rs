//! The bytes of a book, from the left.

use super::Refusal;
use crate::sizes::LONGEST_NAME;

/// Which bytes are letters, digits or underscore.
const NAME_BYTE: [bool; 256] = {
    let mut table = [false; 256];
    let mut b = 0;
    while b < 256 {
        table[b] = (b as u8).is_ascii_alphanumeric() || b as u8 == b'_';
        b += 1;
    }
    table
};

#[inline]
pub fn is_name_byte(byte: u8) -> bool {
    NAME_BYTE[byte as usize]
}

pub struct Bytes<'b> {
    book: &'b [u8],
    pub at: usize,
}

impl<'b> Bytes<'b> {
    pub fn new(book: &'b [u8]) -> Self {
        Bytes { book, at: 0 }
    }

    pub fn at_end(&self) -> bool {
        self.at == self.book.len()
    }

    /// Whether a byte of a name is next.
    #[inline]
    pub fn at_name(&self) -> bool {
        is_name_byte(self.peek())
    }

    /// The byte at the current place; behind the book, a byte 10, which nothing but a line's end accepts.
    #[inline]
    pub fn peek(&self) -> u8 {
        self.book.get(self.at).copied().unwrap_or(b'\n')
    }

    #[inline]
    pub fn spaces(&mut self) {
        while self.peek() == b' ' {
            self.at += 1;
        }
    }

    #[inline]
    pub fn symbol(&mut self, byte: u8) -> Result<(), Refusal> {
        self.spaces();
        if self.peek() != byte {
            return Err(Refusal::Malformed);
        }
        self.at += 1;
        Ok(())
    }

    #[inline]
    pub fn end_line(&mut self) -> Result<(), Refusal> {
        self.spaces();
        if self.at_end() {
            return Err(Refusal::Malformed);
        }
        self.symbol(b'\n')
    }

    /// One to 32 name bytes.
    #[inline]
    pub fn word(&mut self) -> Result<&'b [u8], Refusal> {
        let rest = &self.book[self.at..];
        let length = rest.iter().position(|&b| !is_name_byte(b)).unwrap_or(rest.len());
        if length == 0 || length > LONGEST_NAME {
            return Err(Refusal::Malformed);
        }
        self.at += length;
        Ok(&rest[..length])
    }

    /// A word that is none of the three reserved ones.
    #[inline]
    pub fn name(&mut self) -> Result<&'b [u8], Refusal> {
        match self.word()? {
            b"type" | b"PN" | b"EB" => Err(Refusal::Malformed),
            name => Ok(name),
        }
    }
}
