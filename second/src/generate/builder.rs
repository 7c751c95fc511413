//! A constructive generator of requests.
//!
//! It keeps what is in scope while it writes, so that its requests follow document 01's grammar and
//! scopes. A focus is a code that it prefers wherever that code may stand.

use super::dictionaries;
use super::draft::{Draft, Mark};
use super::rng::Rng;
use super::Size;
use crate::datatype::{self, DataType, Kind};
use crate::dictionary::Dictionary;
use crate::reader::parsed::{Message, Role};
use crate::wire::{
    self, ASCENDING, BEGIN, BOOLEAN, BOOLEANS, DESCENDING, DESCRIPTORS5, END, EOC, INT64,
    LITERALS5, MESSAGE, SORT, STATEMENTS, STREAMS, TARGETS, VALUES, VERSION4, VERSION5,
};

/// A code in a part of a request.
pub type Focus = (Role, u8);

/// Every code that a request may have, each in its part.
pub fn foci() -> Vec<Focus> {
    let parts: [(Role, &[u8]); 9] = [
        (Role::Statement, &STATEMENTS),
        (Role::Value, &VALUES),
        (Role::Boolean, &BOOLEANS),
        (Role::Descriptor, &DESCRIPTORS5),
        (Role::Literal, &LITERALS5),
        (Role::Target, &TARGETS),
        (Role::Stream, &STREAMS),
        (Role::Clause, &[BOOLEAN, SORT]),
        (Role::Order, &[ASCENDING, DESCENDING]),
    ];
    let pairs = parts.iter().flat_map(|(role, codes)| codes.iter().map(|code| (*role, *code)));
    pairs.collect()
}

/// A context in scope.
#[derive(Clone, Copy)]
pub struct Open {
    pub number: u8,
    pub relation: usize,
    pub is_of_for: bool,
}

/// A request in the making, and what is in scope.
pub struct Builder<'a> {
    pub rng: &'a mut Rng,
    pub dictionary: &'a Dictionary,
    pub size: Size,
    pub focus: Focus,
    pub version: u8,
    pub draft: Draft,
    /// Bytes after which only short statements and values follow.
    pub budget: usize,
    /// The deepest level that is used.
    pub depth: usize,
    pub messages: Vec<Message>,
    pub contexts: Vec<Open>,
    /// Contexts declared so far, in scope or not.
    pub declared: usize,
    pub statements: usize,
    pub updates: Vec<Open>,
    pub sends: Vec<usize>,
    pub labels: Vec<u8>,
}

/// A request of every construct that has a condition if `conditional` says so.
pub fn request(
    rng: &mut Rng,
    dictionary: &Dictionary,
    size: Size,
    focus: Focus,
    conditional: bool,
) -> Draft {
    let mut builder = Builder::new(rng, dictionary, size, focus);
    builder.write_request(conditional);
    builder.draft
}

/// A request that begins with an assignment inside a send or a store, where there is a target.
pub fn assigning(rng: &mut Rng, dictionary: &Dictionary, size: Size, focus: Focus) -> Draft {
    let mut builder = Builder::new(rng, dictionary, size, focus);
    builder.open_request();
    builder.assigning_statement(2);
    if builder.rng.one_in(3) {
        builder.statement(2);
    }
    builder.draft.raw(&[END, EOC]);
    builder.draft
}

impl<'a> Builder<'a> {
    fn new(rng: &'a mut Rng, dictionary: &'a Dictionary, size: Size, focus: Focus) -> Builder<'a> {
        let budget = match size {
            Size::Small => rng.between(30, 75),
            Size::Mixed => rng.pick(&[60, 120, 300, 900, 3000]),
        };
        let is_later = matches!(focus, (Role::Descriptor | Role::Literal, INT64));
        let version = if is_later { VERSION5 } else { rng.pick(&[VERSION4, VERSION5]) };
        let depth = if size == Size::Small { 9 } else { rng.pick(&[6, 12, 32]) };
        Builder {
            rng,
            dictionary,
            size,
            focus,
            version,
            draft: Draft::default(),
            budget,
            depth,
            messages: Vec::new(),
            contexts: Vec::new(),
            declared: 0,
            statements: 0,
            updates: Vec::new(),
            sends: Vec::new(),
            labels: Vec::new(),
        }
    }

    /// Version, begin, messages.
    fn open_request(&mut self) {
        self.draft.raw(&[self.version]);
        self.draft.code(Role::Statement, BEGIN);
        self.statements += 1;
        self.write_messages();
    }

    /// Version, begin, messages, statements, end, eoc.
    fn write_request(&mut self, conditional: bool) {
        self.open_request();
        if conditional {
            self.conditional_statement(2);
        }
        while !conditional || !self.rng.one_in(3) {
            self.statement(2);
            if !self.has_budget() || self.rng.one_in(2) {
                break;
            }
        }
        self.draft.raw(&[END, EOC]);
    }

    /// Whether the request is still short.
    pub fn has_budget(&self) -> bool {
        self.draft.bytes.len() < self.budget && self.statements < 400
    }

    /// One of the codes permitted, the focus in half of the cases.
    pub fn choose(&mut self, role: Role, permitted: &[u8]) -> u8 {
        let (focus_role, code) = self.focus;
        let may_focus = focus_role == role && permitted.contains(&code);
        if may_focus && self.rng.one_in(2) {
            return code;
        }
        self.rng.pick(permitted)
    }

    /// Some message declarations with different numbers.
    fn write_messages(&mut self) {
        let most = if self.size == Size::Small { 2 } else { self.rng.pick(&[2, 5, 16]) };
        let least = usize::from(!self.rng.one_in(8));
        for _ in 0..self.rng.between(least, most) {
            self.write_message();
        }
    }

    fn write_message(&mut self) {
        let number = self.new_message_number();
        let most = if self.size == Size::Small { 3 } else { self.rng.pick(&[3, 6, 12]) };
        let least = usize::from(!self.rng.one_in(8));
        let count = self.rng.between(least, most);
        self.draft.raw(&[MESSAGE]);
        self.draft.byte(Mark::Message, number);
        self.draft.word(Mark::Count, count as u16);
        let parameters = (0..count).map(|_| self.write_descriptor()).collect();
        self.messages.push(Message { number, parameters });
    }

    /// A message number that is not taken.
    fn new_message_number(&mut self) -> u8 {
        loop {
            let number =
                self.rng.pick(&[0, 1, 2, 3, 4, 5, 6, 7, 8, 9, 10, 11, 12, 13, 127, 128, 255]);
            if self.messages.iter().all(|message| message.number != number) {
                return number;
            }
        }
    }

    /// One descriptor.
    fn write_descriptor(&mut self) -> DataType {
        let code = self.choose(Role::Descriptor, wire::descriptors(self.version));
        self.draft.code(Role::Descriptor, code);
        let mut scale = 0;
        let mut n = 0;
        if datatype::has_scale(code) {
            scale = dictionaries::scale_of(self.rng, code);
            self.draft.byte(Mark::Scale, scale.to_le_bytes()[0]);
        }
        if datatype::has_size(code) {
            n = dictionaries::text_size(self.rng, self.size);
            self.draft.word(Mark::Size, n);
        }
        DataType::new(code, scale, n)
    }

    /// A number parameter of a message, which may be a flag.
    pub fn flags(&self, message: usize) -> Vec<usize> {
        let parameters = self.messages[message].parameters.iter().enumerate();
        let numbers = parameters.filter(|(_, data)| data.kind() == Kind::Number);
        numbers.map(|(index, _)| index).collect()
    }
}
