//! Values, targets and booleans of generated requests.

use super::builder::Builder;
use super::data;
use super::dictionaries;
use super::draft::Mark;
use crate::datatype::{DataType, Kind};
use crate::decimal;
use crate::reader::parsed::Role;
use crate::wire::{
    self, ADD, AND, ANY, BETWEEN, BOOLEANS, CONTAINING, COUNT, DIVIDE, FID, FIELD, INT64, LITERAL,
    MATCHING, MISSING, MULTIPLY, NEGATE, NOT, OR, PARAMETER, PARAMETER2, STARTING, STATISTICS,
    SUBTRACT, TEXT, UNIQUE, VERSION5,
};

/// A field or parameter that may be named.
#[derive(Clone, Copy, PartialEq, Eq)]
pub enum Source {
    Field { context: u8, relation: usize, field: usize },
    Parameter { message: usize, parameter: usize },
}

impl Builder<'_> {
    /// The data type of a source.
    pub fn data_type(&self, source: Source) -> DataType {
        match source {
            Source::Field { relation, field, .. } => {
                self.dictionary.relations[relation].fields[field].data
            }
            Source::Parameter { message, parameter } => {
                self.messages[message].parameters[parameter]
            }
        }
    }

    /// The fields of a context that the version may name.
    pub fn fields(&self, context: u8, relation: usize) -> Vec<Source> {
        let count = self.dictionary.relations[relation].fields.len();
        let fields = (0..count).map(|field| Source::Field { context, relation, field });
        let may_name =
            |source: &Source| self.version == VERSION5 || self.data_type(*source).code != INT64;
        fields.filter(may_name).collect()
    }

    /// The parameters of a message.
    pub fn parameters(&self, message: usize) -> Vec<Source> {
        let count = self.messages[message].parameters.len();
        (0..count).map(|parameter| Source::Parameter { message, parameter }).collect()
    }

    /// All fields and parameters in scope.
    fn sources(&self) -> Vec<Source> {
        let contexts = self.contexts.iter();
        let fields = contexts.flat_map(|open| self.fields(open.number, open.relation));
        let parameters = (0..self.messages.len()).flat_map(|message| self.parameters(message));
        fields.chain(parameters).collect()
    }

    /// The fields and parameters of a kind.
    fn sources_of(&self, kind: Kind) -> Vec<Source> {
        let mut sources = self.sources();
        sources.retain(|source| self.data_type(*source).kind() == kind);
        sources
    }

    /// The codes by which a source may be named.
    fn source_codes(&self, source: Source) -> Vec<u8> {
        match source {
            Source::Field { .. } => vec![FIELD, FID],
            Source::Parameter { message, .. } if self.flags(message).is_empty() => vec![PARAMETER],
            Source::Parameter { .. } => vec![PARAMETER, PARAMETER2],
        }
    }

    /// Writes a source as a target.
    pub fn target(&mut self, target: Source) {
        let codes = self.source_codes(target);
        let code = self.choose(Role::Target, &codes);
        self.write_source(Role::Target, code, target);
    }

    /// Writes a source by a code; gives its scale.
    fn write_source(&mut self, role: Role, code: u8, source: Source) -> i8 {
        self.draft.code(role, code);
        match source {
            Source::Field { context, relation, field } => {
                self.draft.byte(Mark::Context, context);
                self.write_field(code, relation, field);
            }
            Source::Parameter { message, parameter } => {
                self.draft.byte(Mark::Message, self.messages[message].number);
                self.draft.word(Mark::Parameter, parameter as u16);
                self.write_flag(code, message);
            }
        }
        self.data_type(source).scale
    }

    fn write_field(&mut self, code: u8, relation: usize, field: usize) {
        if code == FIELD {
            let name = &self.dictionary.relations[relation].fields[field].name;
            self.draft.name(Mark::Field, name);
        } else {
            self.draft.word(Mark::Field, field as u16);
        }
    }

    fn write_flag(&mut self, code: u8, message: usize) {
        if code == PARAMETER2 {
            let flags = self.flags(message);
            let flag = self.rng.pick(&flags);
            self.draft.word(Mark::Parameter, flag as u16);
        }
    }

    /// Writes a value of a kind that has one; gives its scale.
    pub fn value(&mut self, kind: Kind, level: usize) -> i8 {
        let sources = self.sources_of(kind);
        let mut codes = Vec::new();
        for source in &sources {
            codes.extend(self.source_codes(*source));
        }
        if kind != Kind::Date {
            codes.extend([LITERAL; 2]);
        }
        if kind == Kind::Number && level < self.depth && self.has_budget() {
            codes.extend([ADD, SUBTRACT, MULTIPLY, DIVIDE, NEGATE]);
        }
        if kind == Kind::Number && self.may_select(level) {
            codes.extend(STATISTICS);
        }
        let code = self.choose(Role::Value, &codes);
        match code {
            LITERAL => self.literal(kind),
            NEGATE => {
                self.draft.code(Role::Value, NEGATE);
                self.value(Kind::Number, level + 1)
            }
            ADD | SUBTRACT | MULTIPLY | DIVIDE => self.arithmetic(code, level),
            _ if STATISTICS.contains(&code) => self.statistic(code, level),
            _ => {
                let mut named = sources;
                named.retain(|source| self.source_codes(*source).contains(&code));
                let source = self.rng.pick(&named);
                self.write_source(Role::Value, code, source)
            }
        }
    }

    /// Writes a statistic.
    fn statistic(&mut self, code: u8, level: usize) -> i8 {
        self.draft.code(Role::Value, code);
        self.selection(level + 1);
        let scale = if code == COUNT { 0 } else { self.value(Kind::Number, level + 1) };
        self.contexts.pop();
        scale
    }

    /// Writes a literal of a kind.
    fn literal(&mut self, kind: Kind) -> i8 {
        self.draft.code(Role::Value, LITERAL);
        if kind == Kind::Text {
            self.draft.code(Role::Literal, TEXT);
            let n = dictionaries::text_size(self.rng, self.size);
            self.draft.word(Mark::Size, n);
            let text = data::text(self.rng, usize::from(n));
            self.draft.raw(&text);
            return 0;
        }
        let mut codes = wire::literals(self.version).to_vec();
        codes.retain(|code| *code != TEXT);
        let code = self.choose(Role::Literal, &codes);
        let scale = dictionaries::scale_of(self.rng, code);
        self.draft.code(Role::Literal, code);
        self.draft.byte(Mark::Scale, scale.to_le_bytes()[0]);
        let bytes = data::stored(self.rng, DataType::new(code, scale, 0), usize::MAX);
        self.draft.raw(&bytes);
        scale
    }

    /// Writes an operator with two values; another operator where this one's scale is out of range.
    fn arithmetic(&mut self, code: u8, level: usize) -> i8 {
        let place = self.draft.code(Role::Value, code);
        let left = self.value(Kind::Number, level + 1);
        let right = self.value(Kind::Number, level + 1);
        let scale = result_scale(self.version, code, left, right);
        if decimal::is_scale(i32::from(scale)) {
            return scale;
        }
        let other = self.rng.pick(&[ADD, SUBTRACT]);
        self.draft.bytes[place] = other;
        result_scale(self.version, other, left, right)
    }

    /// A kind of which there are values, one in scope rather than another.
    pub fn kind(&mut self) -> Kind {
        let mut kinds = vec![Kind::Number, Kind::Text];
        kinds.extend(self.sources().iter().map(|source| self.data_type(*source).kind()));
        self.rng.pick(&kinds)
    }

    /// Whether a code that goes over a run may stand at a level.
    fn may_select(&self, level: usize) -> bool {
        let has_streams = !self.dictionary.relations.is_empty() && self.declared < 24;
        level + 3 <= self.depth && self.has_budget() && has_streams
    }

    /// Writes a boolean.
    pub fn boolean(&mut self, level: usize) {
        let roomy = level + 2 <= self.depth && self.has_budget();
        let mut codes = BOOLEANS.to_vec();
        codes.retain(|code| roomy || !matches!(*code, AND | OR | NOT));
        codes.retain(|code| self.may_select(level) || !matches!(*code, ANY | UNIQUE));
        let code = self.choose(Role::Boolean, &codes);
        self.draft.code(Role::Boolean, code);
        match code {
            AND | OR => {
                self.boolean(level + 1);
                self.boolean(level + 1);
            }
            NOT => self.boolean(level + 1),
            ANY | UNIQUE => {
                self.selection(level + 1);
                self.contexts.pop();
            }
            _ => self.operands(code, level + 1),
        }
    }

    /// The operands of a test.
    fn operands(&mut self, code: u8, level: usize) {
        let (kind, count) = match code {
            CONTAINING | MATCHING | STARTING => (Kind::Text, 2),
            BETWEEN => (self.kind(), 3),
            MISSING => (self.kind(), 1),
            _ => (self.kind(), 2),
        };
        for _ in 0..count {
            self.value(kind, level);
        }
    }
}

/// The scale of an operator's result, in range or not.
fn result_scale(version: u8, code: u8, left: i8, right: i8) -> i8 {
    match code {
        MULTIPLY => left + right,
        DIVIDE if version == VERSION5 => left + right,
        DIVIDE => left - right,
        _ => left.min(right),
    }
}
