//! Messages.
//!
//! Document 01: "Message: 4, number byte, count word, descriptors"; "16 messages, 128 parameters a
//! message, 256 in all, 4,096 bytes a message". 8 stands at the "code; parameters: count word;
//! message bytes: descriptor", and message bytes are tested after a descriptor's fields.

use super::parsed::{Message, Role};
use super::Reader;
use crate::datatype::{self, DataType};
use crate::refusal::{self, refuse, Refusal};
use crate::wire::{self, LEFT_OUT_DESCRIPTORS, MESSAGE};

/// Most messages.
pub const MOST_MESSAGES: usize = 16;
/// Most parameters of a message.
pub const MOST_PARAMETERS: usize = 128;
/// Most parameters of all messages.
pub const MOST_PARAMETERS_IN_ALL: usize = 256;
/// Most bytes of a message.
pub const MOST_MESSAGE_BYTES: usize = 4096;

impl Reader<'_> {
    /// One message declaration.
    pub fn message(&mut self) -> Result<(), Refusal> {
        let place = self.cursor.place();
        self.due(MESSAGE)?;
        if self.parsed.messages.len() == MOST_MESSAGES {
            return refuse(refusal::TOO_MANY, place);
        }
        let number = self.new_message()?;
        let count = self.parameter_count()?;
        let mut message = Message { number, parameters: Vec::new() };
        for _ in 0..count {
            self.descriptor(&mut message)?;
        }
        self.parsed.messages.push(message);
        Ok(())
    }

    /// The number byte of a declaration: 9 if it is declared already.
    fn new_message(&mut self) -> Result<u8, Refusal> {
        let place = self.cursor.place();
        let number = self.cursor.byte()?;
        if self.message_by_number(number).is_some() {
            return refuse(refusal::WRONG_MESSAGE, place);
        }
        Ok(number)
    }

    /// The count word: 8 if there are too many parameters in the message or in all.
    fn parameter_count(&mut self) -> Result<usize, Refusal> {
        let place = self.cursor.place();
        let count = usize::from(self.cursor.word()?);
        let in_all = self.parsed.parameter_count() + count;
        if count > MOST_PARAMETERS || in_all > MOST_PARAMETERS_IN_ALL {
            return refuse(refusal::TOO_MANY, place);
        }
        Ok(count)
    }

    /// One descriptor: type code, then its scale or its n, then the bytes of the message.
    fn descriptor(&mut self, message: &mut Message) -> Result<(), Refusal> {
        let place = self.cursor.place();
        let due = wire::descriptors(self.parsed.version);
        let code = self.cursor.code(due, &LEFT_OUT_DESCRIPTORS)?;
        let scale = if datatype::has_scale(code) { self.cursor.scale(code)? } else { 0 };
        let n = if datatype::has_size(code) { self.cursor.text_size()? } else { 0 };
        message.parameters.push(DataType::new(code, scale, n));
        if message.length() > MOST_MESSAGE_BYTES {
            return refuse(refusal::TOO_MANY, place);
        }
        self.note(Role::Descriptor, code);
        Ok(())
    }

    /// The index of the message with this number.
    fn message_by_number(&self, number: u8) -> Option<usize> {
        self.parsed.messages.iter().position(|message| message.number == number)
    }

    /// A message byte: 9 at it if the message is undeclared.
    pub fn declared_message(&mut self) -> Result<usize, Refusal> {
        let place = self.cursor.place();
        let number = self.cursor.byte()?;
        match self.message_by_number(number) {
            Some(message) => Ok(message),
            None => refuse(refusal::WRONG_MESSAGE, place),
        }
    }

    /// The word of a parameter: 10 at it if the message has no such parameter.
    pub fn parameter_word(&mut self, message: usize) -> Result<usize, Refusal> {
        let place = self.cursor.place();
        let parameter = usize::from(self.cursor.word()?);
        if parameter >= self.parsed.messages[message].parameters.len() {
            return refuse(refusal::NO_PARAMETER, place);
        }
        Ok(parameter)
    }
}
