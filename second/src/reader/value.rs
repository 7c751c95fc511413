//! Values and targets.
//!
//! Document 01: values 21, 23, 24, 25, 41 and arithmetic 34 to 38; targets 23, 24, 25, 41, any
//! other code in their place being 6. "Arithmetic numbers ... a flag a number. Add and subtract
//! take the smaller scale, multiply the sum, divide first minus second"; 13 stands at the operator
//! or at 41. "A field target names the context of the nearest enclosing modify or store; a
//! parameter target stands inside a send of its message": 14 at the assignment, after the tests of
//! the ctx or message byte.
//!
//! Document 02, No. 9: "Accept average 27, maximum 29, minimum 30 and total 31 with an rse of one
//! stream and a number, and count 28 with an rse only, ... the scope reaching over the number";
//! "at the statistic's code 13 over text or date".
//!
//! Document 02, No. 8: "a type 16 field may stand in a dictionary but a version 4 request that names
//! it gets 13 at the field code"; in version 5 "a quotient has the sum of the two scales".

use super::parsed::{Form, Role, Shape, Value};
use super::Reader;
use crate::datatype::{self, Kind};
use crate::decimal;
use crate::refusal::{self, refuse, Refusal};
use crate::wire::{
    self, ADD, COUNT, FID, FIELD, INT64, LEFT_OUT_LITERALS, LEFT_OUT_VALUES, LITERAL, LONG,
    MULTIPLY, NEGATE, PARAMETER, PARAMETER2, SHORT, STATISTICS, SUBTRACT, TARGETS, VALUES,
    VERSION5,
};

const TEXT_SHAPE: Shape = Shape { kind: Kind::Text, scale: 0 };

/// The shape of a number.
fn number(scale: i8) -> Shape {
    Shape { kind: Kind::Number, scale }
}

impl Reader<'_> {
    /// One value at a level.
    pub fn value(&mut self, level: usize) -> Result<Value, Refusal> {
        let place = self.cursor.place();
        let code = self.cursor.code(&VALUES, &LEFT_OUT_VALUES)?;
        self.level(place, level)?;
        self.note(Role::Value, code);
        match code {
            LITERAL => self.literal(place),
            FIELD | FID => {
                let context = self.context_in_scope()?;
                self.field(place, code, context)
            }
            PARAMETER | PARAMETER2 => {
                let message = self.declared_message()?;
                self.parameter(place, code, message)
            }
            NEGATE => self.negate(place, level),
            _ if STATISTICS.contains(&code) => self.statistic(place, code, level),
            _ => self.arithmetic(place, code, level),
        }
    }

    /// The type and bytes of a literal.
    fn literal(&mut self, place: usize) -> Result<Value, Refusal> {
        let code = self.cursor.code(wire::literals(self.parsed.version), &LEFT_OUT_LITERALS)?;
        self.note(Role::Literal, code);
        if datatype::has_scale(code) {
            let shape = number(self.cursor.scale(code)?);
            let form = Form::Number(self.literal_number(code)?);
            return Ok(Value { place, shape, form });
        }
        let n = self.cursor.text_size()?;
        let start = self.cursor.place();
        self.cursor.take(usize::from(n))?;
        let form = Form::Text(start, self.cursor.place());
        Ok(Value { place, shape: TEXT_SHAPE, form })
    }

    /// The bytes of a number literal.
    fn literal_number(&mut self, code: u8) -> Result<i64, Refusal> {
        match code {
            SHORT => Ok(i64::from(wire::signed_word(self.cursor.word()?))),
            LONG => Ok(i64::from(wire::signed_four_bytes(self.cursor.four_bytes()?))),
            _ => self.cursor.eight_bytes(),
        }
    }

    /// The name or id of a field: 12 at its count byte or its word; 13 at the field's code if the
    /// version has no such type.
    fn field(&mut self, place: usize, code: u8, context: usize) -> Result<Value, Refusal> {
        let relation = &self.dictionary.relations[self.parsed.contexts[context].relation];
        let field_place = self.cursor.place();
        let found = match code {
            FIELD => relation.field_by_name(self.cursor.counted_name()?),
            _ => relation.field_by_id(self.cursor.word()?),
        };
        match found {
            Some(field) if !self.has_type(relation.fields[field].data.code) => {
                refuse(refusal::NO_FIT, place)
            }
            Some(field) => {
                let shape = Shape::of(relation.fields[field].data);
                Ok(Value { place, shape, form: Form::Field { context, field } })
            }
            None => refuse(refusal::UNKNOWN_NAME, field_place),
        }
    }

    /// Whether the request's version has a type of fields.
    fn has_type(&self, code: u8) -> bool {
        code != INT64 || self.parsed.version == VERSION5
    }

    /// The word of a parameter and, for parameter2, that of its flag.
    fn parameter(&mut self, place: usize, code: u8, message: usize) -> Result<Value, Refusal> {
        let parameter = self.parameter_word(message)?;
        let flag = match code {
            PARAMETER2 => Some(self.flag(place, message)?),
            _ => None,
        };
        let shape = Shape::of(self.parsed.messages[message].parameters[parameter]);
        Ok(Value { place, shape, form: Form::Parameter { message, parameter, flag } })
    }

    /// The flag word of a parameter2: 13 at the code if the flag isn't a number.
    fn flag(&mut self, place: usize, message: usize) -> Result<usize, Refusal> {
        let flag = self.parameter_word(message)?;
        if self.parsed.messages[message].parameters[flag].kind() != Kind::Number {
            return refuse(refusal::NO_FIT, place);
        }
        Ok(flag)
    }

    /// The operand of negate.
    fn negate(&mut self, place: usize, level: usize) -> Result<Value, Refusal> {
        let operand = self.value(level + 1)?;
        if operand.shape.kind != Kind::Number {
            return refuse(refusal::NO_FIT, place);
        }
        Ok(Value { place, shape: operand.shape, form: Form::Negate(Box::new(operand)) })
    }

    /// The rse of a statistic and its number, then the number's fit.
    fn statistic(&mut self, place: usize, code: u8, level: usize) -> Result<Value, Refusal> {
        let selection = Box::new(self.selection(place, code, level + 1)?);
        if code == COUNT {
            self.close_scope(1);
            let form = Form::Statistic(code, selection, None);
            return Ok(Value { place, shape: number(0), form });
        }
        let operand = self.value(level + 1)?;
        self.close_scope(1);
        if operand.shape.kind != Kind::Number {
            return refuse(refusal::NO_FIT, place);
        }
        let shape = operand.shape;
        Ok(Value { place, shape, form: Form::Statistic(code, selection, Some(Box::new(operand))) })
    }

    /// The two operands of an operator, then their fit.
    fn arithmetic(&mut self, place: usize, code: u8, level: usize) -> Result<Value, Refusal> {
        let left = self.value(level + 1)?;
        let right = self.value(level + 1)?;
        match result_scale(self.parsed.version, code, left.shape, right.shape) {
            Some(scale) => {
                let form = Form::Arithmetic(code, Box::new([left, right]));
                Ok(Value { place, shape: number(scale), form })
            }
            None => refuse(refusal::NO_FIT, place),
        }
    }

    /// The target of an assignment, which stands at the place `assignment`.
    pub fn target(&mut self, assignment: usize) -> Result<Value, Refusal> {
        let place = self.cursor.place();
        // Depth needs no test: the from-value stood at the same level.
        let code = self.cursor.code(&TARGETS, &[])?;
        self.note(Role::Target, code);
        if matches!(code, FIELD | FID) {
            let context = self.context_in_scope()?;
            if self.scope.updates.last() != Some(&context) {
                return refuse(refusal::WRONG_STATEMENT, assignment);
            }
            return self.field(place, code, context);
        }
        let message = self.declared_message()?;
        if !self.scope.sends.contains(&self.parsed.messages[message].number) {
            return refuse(refusal::WRONG_STATEMENT, assignment);
        }
        self.parameter(place, code, message)
    }
}

/// The scale of an operator's result, or nothing if the operands don't fit.
fn result_scale(version: u8, code: u8, left: Shape, right: Shape) -> Option<i8> {
    if left.kind != Kind::Number || right.kind != Kind::Number {
        return None;
    }
    let (first, second) = (i32::from(left.scale), i32::from(right.scale));
    let scale = match code {
        ADD | SUBTRACT => first.min(second),
        MULTIPLY => first + second,
        _ if version == VERSION5 => first + second,
        _ => first - second,
    };
    i8::try_from(scale).ok().filter(|_| decimal::is_scale(scale))
}
