//! Little-endian numbers from a reader and to a writer.

use std::io::{Read, Result, Write};

/// Takes numbers of two and four bytes; a reader that ends early is `UnexpectedEof`.
pub trait ReadLeNumber: Read {
    #[inline]
    fn read_le_u16(&mut self) -> Result<u16> {
        let mut two = [0; 2];
        self.read_exact(&mut two).map(|()| u16::from_le_bytes(two))
    }

    #[inline]
    fn read_le_u32(&mut self) -> Result<u32> {
        let mut four = [0; 4];
        self.read_exact(&mut four).map(|()| u32::from_le_bytes(four))
    }
}

impl<R: Read> ReadLeNumber for R {}

/// Puts numbers of two and four bytes; a writer that is full is `WriteZero`.
pub trait WriteLeNumber: Write {
    #[inline]
    fn write_le_u16(&mut self, number: u16) -> Result<()> {
        self.write_all(&u16::to_le_bytes(number))
    }

    #[inline]
    fn write_le_u32(&mut self, number: u32) -> Result<()> {
        self.write_all(&u32::to_le_bytes(number))
    }
}

impl<W: Write> WriteLeNumber for W {}
