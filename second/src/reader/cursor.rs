//! The bytes of a request in order.
//!
//! Document 01: "A field cut short is 4 before it is judged", at the request's length; a code "not
//! due here" is 6 and a "left-out code" is 7, both at the code.

use crate::datatype;
use crate::refusal::{self, refuse, Refusal};
use crate::wire;

/// A place in a request.
pub struct Cursor<'a> {
    bytes: &'a [u8],
    at: usize,
}

impl<'a> Cursor<'a> {
    /// The start of a request.
    pub fn new(bytes: &'a [u8]) -> Cursor<'a> {
        Cursor { bytes, at: 0 }
    }

    /// The place of the next byte.
    pub fn place(&self) -> usize {
        self.at
    }

    /// Whether all bytes are read.
    pub fn is_at_end(&self) -> bool {
        self.at == self.bytes.len()
    }

    /// The next n bytes as one field.
    pub fn take(&mut self, n: usize) -> Result<&'a [u8], Refusal> {
        match self.bytes.get(self.at..self.at + n) {
            Some(field) => {
                self.at += n;
                Ok(field)
            }
            None => refuse(refusal::ENDS_EARLY, self.bytes.len()),
        }
    }

    /// The next byte, which stays unread.
    pub fn peek(&self) -> Result<u8, Refusal> {
        match self.bytes.get(self.at) {
            Some(byte) => Ok(*byte),
            None => refuse(refusal::ENDS_EARLY, self.bytes.len()),
        }
    }

    /// The next byte.
    pub fn byte(&mut self) -> Result<u8, Refusal> {
        Ok(self.take(1)?[0])
    }

    /// The next word.
    pub fn word(&mut self) -> Result<u16, Refusal> {
        let field = self.take(2)?;
        Ok(u16::from_le_bytes([field[0], field[1]]))
    }

    /// The next four-byte number.
    pub fn four_bytes(&mut self) -> Result<u32, Refusal> {
        let field = self.take(4)?;
        Ok(u32::from_le_bytes([field[0], field[1], field[2], field[3]]))
    }

    /// The next signed eight-byte number.
    pub fn eight_bytes(&mut self) -> Result<i64, Refusal> {
        let field = self.take(8)?;
        Ok(wire::signed_eight_bytes(field, 0).expect("eight bytes"))
    }

    /// A counted name as one field.
    pub fn counted_name(&mut self) -> Result<&'a [u8], Refusal> {
        let count = usize::from(self.peek()?);
        Ok(&self.take(1 + count)?[1..])
    }

    /// A code that is one of those due: 7 for one left out, 6 for another.
    pub fn code(&mut self, due: &[u8], left_out: &[u8]) -> Result<u8, Refusal> {
        let code = self.peek()?;
        if due.contains(&code) {
            self.at += 1;
            return Ok(code);
        }
        let number = if left_out.contains(&code) { refusal::LEFT_OUT } else { refusal::NOT_DUE };
        refuse(number, self.at)
    }

    /// The scale byte of a type.
    pub fn scale(&mut self, code: u8) -> Result<i8, Refusal> {
        let place = self.at;
        let scale = wire::signed_byte(self.byte()?);
        if !datatype::is_scale_of(code, scale) {
            return refuse(refusal::OUT_OF_RANGE, place);
        }
        Ok(scale)
    }

    /// A word n from 1 to 255.
    pub fn text_size(&mut self) -> Result<u16, Refusal> {
        let place = self.at;
        let n = self.word()?;
        if !datatype::is_text_size(n) {
            return refuse(refusal::OUT_OF_RANGE, place);
        }
        Ok(n)
    }

    /// A count byte of streams or sort values, from 1 to 8.
    pub fn count(&mut self) -> Result<u8, Refusal> {
        let place = self.at;
        let count = self.byte()?;
        if !(1..=8).contains(&count) {
            return refuse(refusal::OUT_OF_RANGE, place);
        }
        Ok(count)
    }
}
