//! Booleans.
//!
//! Document 01: "Comparisons and between want one kind, 53–55 text"; an operator's fit is tested
//! after its last operand, and 13 stands at the operator. Conditions, "those not inside another
//! boolean", are kept in reading order with the contexts in scope.
//!
//! Document 02, No. 4: "Accept any 60 and unique 62, each with an rse of one stream whose contexts
//! are in scope inside it"; "Booleans inside an rse of this sort have no number of their own."

use super::parsed::{Boolean, Condition, Role, Value};
use super::Reader;
use crate::datatype::Kind;
use crate::refusal::{self, refuse, Refusal};
use crate::wire::{
    AND, ANY, BETWEEN, BOOLEANS, CONTAINING, LEFT_OUT_BOOLEANS, MATCHING, MISSING, NOT, OR,
    STARTING, UNIQUE,
};

impl Reader<'_> {
    /// A boolean that isn't inside another; gives its number.
    pub fn condition(&mut self, level: usize) -> Result<usize, Refusal> {
        let contexts = self.scope.contexts.clone();
        let boolean = self.boolean(level)?;
        let runs = std::mem::take(&mut self.runs);
        self.parsed.conditions.push(Condition { boolean, contexts, runs });
        Ok(self.parsed.conditions.len() - 1)
    }

    /// One boolean at a level.
    pub fn boolean(&mut self, level: usize) -> Result<Boolean, Refusal> {
        let place = self.cursor.place();
        let code = self.cursor.code(&BOOLEANS, &LEFT_OUT_BOOLEANS)?;
        self.level(place, level)?;
        self.note(Role::Boolean, code);
        match code {
            AND => Ok(Boolean::And(self.two_booleans(level + 1)?)),
            OR => Ok(Boolean::Or(self.two_booleans(level + 1)?)),
            NOT => Ok(Boolean::Not(Box::new(self.boolean(level + 1)?))),
            ANY | UNIQUE => {
                let selection = self.selection(place, code, level + 1)?;
                self.close_scope(1);
                Ok(Boolean::Over(code, Box::new(selection)))
            }
            _ => self.test(place, code, level + 1),
        }
    }

    /// The sides of and, or.
    fn two_booleans(&mut self, level: usize) -> Result<Box<[Boolean; 2]>, Refusal> {
        let left = self.boolean(level)?;
        let right = self.boolean(level)?;
        Ok(Box::new([left, right]))
    }

    /// A test of one, two or three values, then their fit.
    fn test(&mut self, place: usize, code: u8, level: usize) -> Result<Boolean, Refusal> {
        let count = match code {
            MISSING => 1,
            BETWEEN => 3,
            _ => 2,
        };
        let mut operands = Vec::new();
        for _ in 0..count {
            operands.push(self.value(level)?);
        }
        if !operands_fit(code, &operands) {
            return refuse(refusal::NO_FIT, place);
        }
        Ok(Boolean::Test(code, operands))
    }
}

/// Whether the operands of a test are of one kind, and text where it must be.
fn operands_fit(code: u8, operands: &[Value]) -> bool {
    let kind = operands[0].shape.kind;
    let wants_text = matches!(code, CONTAINING | MATCHING | STARTING);
    let one_kind = operands.iter().all(|operand| operand.shape.kind == kind);
    one_kind && (!wants_text || kind == Kind::Text)
}
