//! Scope and greatest sizes.
//!
//! Document 01, "Scope and kind": "Context numbers, message numbers and label numbers are three
//! countings"; "Store and modify contain no send or receive". "Depth and count are tested at a code
//! before its fields": 8 at the code.

use super::parsed::{Context, Role, Statement};
use super::Reader;
use crate::refusal::{self, refuse, Refusal};
use crate::wire::{FOR, RECEIVE, SEND};

/// Most levels of statements, values and booleans.
pub const GREATEST_DEPTH: usize = 32;
/// Most statements.
pub const MOST_STATEMENTS: usize = 512;
/// Most context declarations.
pub const MOST_CONTEXTS: usize = 32;

/// What encloses the present place.
#[derive(Default)]
pub struct Scope {
    /// Indices of the contexts in scope, in declaration order.
    pub contexts: Vec<usize>,
    /// Indices of the contexts of the enclosing stores and modifies.
    pub updates: Vec<usize>,
    /// Message numbers of the enclosing sends.
    pub sends: Vec<u8>,
    /// Numbers of the enclosing labels.
    pub labels: Vec<u8>,
}

impl Reader<'_> {
    /// 8 at a code whose level is too deep.
    pub fn level(&self, place: usize, level: usize) -> Result<(), Refusal> {
        if level > GREATEST_DEPTH {
            return refuse(refusal::TOO_MANY, place);
        }
        Ok(())
    }

    /// Enters a statement whose code is read: 8, then the 14 of a send or receive.
    pub fn open_statement(
        &mut self,
        place: usize,
        code: u8,
        parent: Option<usize>,
        level: usize,
    ) -> Result<usize, Refusal> {
        self.level(place, level)?;
        let row = self.parsed.statements.len();
        if row == MOST_STATEMENTS {
            return refuse(refusal::TOO_MANY, place);
        }
        let is_conversation = matches!(code, SEND | RECEIVE);
        if is_conversation && !self.scope.updates.is_empty() {
            return refuse(refusal::WRONG_STATEMENT, place);
        }
        self.parsed.statements.push(Statement { place, code, parent, end: 0, condition: None });
        self.note(Role::Statement, code);
        Ok(row)
    }

    /// Sets the place after a statement, which is the present one.
    pub fn close_statement(&mut self, row: usize) {
        self.parsed.statements[row].end = self.cursor.place();
    }

    /// 8 at the code of a context declaration beyond the last allowed.
    pub fn room_for_context(&self, place: usize) -> Result<(), Refusal> {
        if self.parsed.contexts.len() == MOST_CONTEXTS {
            return refuse(refusal::TOO_MANY, place);
        }
        Ok(())
    }

    /// The index of the context in scope with this number.
    fn context_by_number(&self, number: u8) -> Option<usize> {
        let mut in_scope = self.scope.contexts.iter().copied();
        in_scope.find(|context| self.parsed.contexts[*context].number == number)
    }

    /// A ctx byte that names a context in scope: 11 at it if there is none.
    pub fn context_in_scope(&mut self) -> Result<usize, Refusal> {
        let place = self.cursor.place();
        let number = self.cursor.byte()?;
        match self.context_by_number(number) {
            Some(context) => Ok(context),
            None => refuse(refusal::WRONG_CONTEXT, place),
        }
    }

    /// A ctx byte that names a context of a for: 11 at it, then 14 at the statement.
    pub fn context_of_for(&mut self, statement: usize) -> Result<usize, Refusal> {
        let context = self.context_in_scope()?;
        if self.parsed.contexts[context].opener != FOR {
            return refuse(refusal::WRONG_STATEMENT, statement);
        }
        Ok(context)
    }

    /// A ctx byte that declares a context: 11 at it if it is in scope, or if one declared from
    /// `first` on has its number.
    pub fn new_context(&mut self, first: usize) -> Result<u8, Refusal> {
        let place = self.cursor.place();
        let number = self.cursor.byte()?;
        let mut siblings = self.parsed.contexts[first..].iter();
        let taken = siblings.any(|context| context.number == number)
            || self.context_by_number(number).is_some();
        if taken {
            return refuse(refusal::WRONG_CONTEXT, place);
        }
        Ok(number)
    }

    /// Declares a context that a code opens; its scope is set later.
    pub fn declare(&mut self, number: u8, place: usize, relation: usize, opener: u8) -> usize {
        let context = Context { number, place, start: 0, end: 0, relation, opener };
        self.parsed.contexts.push(context);
        self.parsed.contexts.len() - 1
    }

    /// Brings the contexts declared from `first` on into scope, here.
    pub fn open_scope(&mut self, first: usize) {
        let place = self.cursor.place();
        for context in first..self.parsed.contexts.len() {
            self.parsed.contexts[context].start = place;
            self.scope.contexts.push(context);
        }
    }

    /// Ends the scope of the last n contexts, here.
    pub fn close_scope(&mut self, n: usize) {
        let place = self.cursor.place();
        let rest = self.scope.contexts.len() - n;
        for context in self.scope.contexts.split_off(rest) {
            self.parsed.contexts[context].end = place;
        }
    }

    /// Keeps a code that was met.
    pub fn note(&mut self, role: Role, code: u8) {
        self.parsed.codes.push((role, code));
    }
}
