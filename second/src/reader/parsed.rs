//! What a reading finds: statements, messages, contexts and conditions, in reading order.

use crate::datatype::{DataType, Kind};

/// A statement. A parent is the index of another statement.
#[derive(Clone, Debug)]
pub struct Statement {
    pub place: usize,
    pub code: u8,
    pub parent: Option<usize>,
    pub end: usize,
    /// The number of an if's condition or of a for's rse condition.
    pub condition: Option<usize>,
}

/// A message with the types of its parameters.
#[derive(Clone, Debug)]
pub struct Message {
    pub number: u8,
    pub parameters: Vec<DataType>,
}

impl Message {
    /// The offset of a parameter; that behind the last one is the message's length.
    pub fn offset(&self, parameter: usize) -> usize {
        self.parameters[..parameter].iter().map(DataType::held).sum()
    }

    /// The bytes of the message.
    pub fn length(&self) -> usize {
        self.offset(self.parameters.len())
    }
}

/// A context: its number, its scope, the index of its relation in the dictionary, and the code that
/// opened it: for, store, modify, any, unique or a statistic.
#[derive(Clone, Debug)]
pub struct Context {
    pub number: u8,
    pub place: usize,
    pub start: usize,
    pub end: usize,
    pub relation: usize,
    pub opener: u8,
}

/// The kind and the scale of a value; the scale is 0 for text and date.
#[derive(Clone, Copy, Debug, PartialEq, Eq)]
pub struct Shape {
    pub kind: Kind,
    pub scale: i8,
}

impl Shape {
    /// The shape of a value of a data type.
    pub fn of(data: DataType) -> Shape {
        Shape { kind: data.kind(), scale: data.scale }
    }
}

/// A value with the place of its code.
#[derive(Clone, Debug)]
pub struct Value {
    pub place: usize,
    pub shape: Shape,
    pub form: Form,
}

/// The forms of a value. Contexts, messages, fields and parameters are indices.
#[derive(Clone, Debug)]
pub enum Form {
    /// A number literal, whose scale is the shape's.
    Number(i64),
    /// A text literal: start and end of its bytes in the request.
    Text(usize, usize),
    Field {
        context: usize,
        field: usize,
    },
    Parameter {
        message: usize,
        parameter: usize,
        flag: Option<usize>,
    },
    /// One of the operators with two values.
    Arithmetic(u8, Box<[Value; 2]>),
    Negate(Box<Value>),
    /// One of the statistics over a run, with the number that all but count have.
    Statistic(u8, Box<Selection>, Option<Box<Value>>),
}

/// A boolean with its code.
#[derive(Clone, Debug)]
pub enum Boolean {
    /// A test of values: 47 to 56, or missing 61.
    Test(u8, Vec<Value>),
    And(Box<[Boolean; 2]>),
    Or(Box<[Boolean; 2]>),
    Not(Box<Boolean>),
    /// Any 60 or unique 62 over a run.
    Over(u8, Box<Selection>),
}

/// The rse of one stream that stands in a code of a condition, with the place of that code.
#[derive(Clone, Debug)]
pub struct Selection {
    pub place: usize,
    /// The index of the stream's context.
    pub context: usize,
    pub condition: Option<Boolean>,
    /// Which of the condition's runs it goes over.
    pub run: usize,
}

/// A boolean that isn't inside another, with the indices of the contexts in scope at it, and of
/// those that go over its runs, in the order of their codes.
#[derive(Clone, Debug)]
pub struct Condition {
    pub boolean: Boolean,
    pub contexts: Vec<usize>,
    pub runs: Vec<usize>,
}

/// The from-value of an assignment with its row, the contexts in scope at it, and those that go
/// over its runs.
#[derive(Clone, Debug)]
pub struct FromValue {
    pub row: usize,
    pub value: Value,
    pub contexts: Vec<usize>,
    pub runs: Vec<usize>,
}

/// The part that a code has in a request.
#[derive(Clone, Copy, Debug, PartialEq, Eq, PartialOrd, Ord)]
pub enum Role {
    Statement,
    Descriptor,
    Value,
    Literal,
    Target,
    Boolean,
    Stream,
    Clause,
    Order,
}

/// An accepted request.
#[derive(Clone, Debug, Default)]
pub struct Parsed {
    /// 4 or 5.
    pub version: u8,
    pub statements: Vec<Statement>,
    pub messages: Vec<Message>,
    pub contexts: Vec<Context>,
    pub conditions: Vec<Condition>,
    pub from_values: Vec<FromValue>,
    /// The codes met, each with its part, for counting.
    pub codes: Vec<(Role, u8)>,
}

impl Parsed {
    /// The parameters of all messages.
    pub fn parameter_count(&self) -> usize {
        self.messages.iter().map(|message| message.parameters.len()).sum()
    }

    /// The bytes of all messages.
    pub fn message_bytes(&self) -> usize {
        self.messages.iter().map(Message::length).sum()
    }
}
