//! A request in the making: its bytes, and marks that say what stands at which place.

use crate::reader::parsed::Role;

/// What a code or field of a request is.
#[derive(Clone, Copy, Debug, PartialEq, Eq)]
pub enum Mark {
    Code(Role),
    Context,
    Message,
    Label,
    Scale,
    Size,
    Count,
    Parameter,
    Field,
    Relation,
}

/// The bytes written so far, with marks.
#[derive(Clone, Debug, Default)]
pub struct Draft {
    pub bytes: Vec<u8>,
    pub marks: Vec<(Mark, usize)>,
}

impl Draft {
    /// The places with a mark.
    pub fn places(&self, mark: Mark) -> Vec<usize> {
        let marked = self.marks.iter().filter(|(other, _)| *other == mark);
        marked.map(|(_, place)| *place).collect()
    }

    /// Marks the next place.
    fn mark(&mut self, mark: Mark) -> usize {
        let place = self.bytes.len();
        self.marks.push((mark, place));
        place
    }

    /// Bytes without a mark.
    pub fn raw(&mut self, bytes: &[u8]) {
        self.bytes.extend(bytes);
    }

    /// A code; gives its place.
    pub fn code(&mut self, role: Role, code: u8) -> usize {
        self.byte(Mark::Code(role), code)
    }

    /// A byte with a mark; gives its place.
    pub fn byte(&mut self, mark: Mark, byte: u8) -> usize {
        let place = self.mark(mark);
        self.bytes.push(byte);
        place
    }

    /// A word with a mark.
    pub fn word(&mut self, mark: Mark, word: u16) {
        self.mark(mark);
        self.bytes.extend(word.to_le_bytes());
    }

    /// A counted name with a mark at its count byte.
    pub fn name(&mut self, mark: Mark, name: &[u8]) {
        self.mark(mark);
        self.bytes.push(name.len() as u8);
        self.bytes.extend(name);
    }
}
