//! Statements.
//!
//! Document 01, "Grammar of a request", with the 14s of "Scope and kind": "Erase and modify name a
//! context from a for", "Leave stands inside a label of its number". "A 14 that hangs on a ctx,
//! message or label byte follows that byte's own tests and precedes all later ones."

use super::parsed::FromValue;
use super::Reader;
use crate::refusal::{self, refuse, Refusal};
use crate::wire::{
    ASSIGNMENT, BEGIN, END, ERASE, FOR, HANDLER, IF, LABEL, LEAVE, LEFT_OUT_STATEMENTS, LOOP,
    MODIFY, RECEIVE, SELECT, SEND, STATEMENTS, STORE,
};

impl Reader<'_> {
    /// One statement at a level.
    pub fn statement(&mut self, parent: usize, level: usize) -> Result<(), Refusal> {
        let place = self.cursor.place();
        let code = self.cursor.code(&STATEMENTS, &LEFT_OUT_STATEMENTS)?;
        let row = self.open_statement(place, code, Some(parent), level)?;
        match code {
            ASSIGNMENT => self.assignment(row, place, level)?,
            BEGIN => self.begin(row, level)?,
            ERASE => self.erase(place)?,
            FOR => self.for_loop(row, level)?,
            IF => self.if_statement(row, level)?,
            LOOP | HANDLER => self.statement(row, level + 1)?,
            MODIFY => self.modify(row, place, level)?,
            RECEIVE => self.receive(row, level)?,
            SELECT => self.select(row, level)?,
            SEND => self.send(row, level)?,
            STORE => self.store(row, level)?,
            LABEL => self.label(row, level)?,
            LEAVE => self.leave(place)?,
            other => unreachable!("statement code {other} was not due"),
        }
        self.close_statement(row);
        Ok(())
    }

    /// Value, then target, then their fit.
    fn assignment(&mut self, row: usize, place: usize, level: usize) -> Result<(), Refusal> {
        let value = self.value(level + 1)?;
        let runs = std::mem::take(&mut self.runs);
        let to = self.target(place)?;
        if value.shape.kind != to.shape.kind {
            return refuse(refusal::NO_FIT, place);
        }
        let contexts = self.scope.contexts.clone();
        self.parsed.from_values.push(FromValue { row, value, contexts, runs });
        Ok(())
    }

    /// Any number of statements, 255.
    fn begin(&mut self, row: usize, level: usize) -> Result<(), Refusal> {
        while self.cursor.peek()? != END {
            self.statement(row, level + 1)?;
        }
        self.due(END)
    }

    fn erase(&mut self, place: usize) -> Result<(), Refusal> {
        self.context_of_for(place)?;
        Ok(())
    }

    /// Rse, then a statement in the scope of its contexts.
    fn for_loop(&mut self, row: usize, level: usize) -> Result<(), Refusal> {
        let streams = self.rse(row, level + 1)?;
        self.statement(row, level + 1)?;
        self.close_scope(streams);
        Ok(())
    }

    /// Boolean, statement, then 255 or a second statement.
    fn if_statement(&mut self, row: usize, level: usize) -> Result<(), Refusal> {
        self.condition_of(row, level + 1)?;
        self.statement(row, level + 1)?;
        if self.cursor.peek()? == END {
            return self.due(END);
        }
        self.statement(row, level + 1)
    }

    /// The condition of an if or of a for's rse, kept in the statement's row.
    pub fn condition_of(&mut self, row: usize, level: usize) -> Result<(), Refusal> {
        let number = self.condition(level)?;
        self.parsed.statements[row].condition = Some(number);
        Ok(())
    }

    /// From-ctx of a for, new to-ctx, and a statement in its scope.
    fn modify(&mut self, row: usize, place: usize, level: usize) -> Result<(), Refusal> {
        self.room_for_context(place)?;
        let from = self.context_of_for(place)?;
        let number = self.new_context(self.parsed.contexts.len())?;
        let relation = self.parsed.contexts[from].relation;
        let context = self.declare(number, place, relation, MODIFY);
        self.update(row, context, level)
    }

    /// Stream, and a statement in the scope of its context.
    fn store(&mut self, row: usize, level: usize) -> Result<(), Refusal> {
        let context = self.stream(self.parsed.contexts.len(), STORE)?;
        self.update(row, context, level)
    }

    /// The substatement of a store or modify.
    fn update(&mut self, row: usize, context: usize, level: usize) -> Result<(), Refusal> {
        self.open_scope(context);
        self.scope.updates.push(context);
        self.statement(row, level + 1)?;
        self.scope.updates.pop();
        self.close_scope(1);
        Ok(())
    }

    /// Message, then a statement.
    fn receive(&mut self, row: usize, level: usize) -> Result<(), Refusal> {
        self.declared_message()?;
        self.statement(row, level + 1)
    }

    /// Message, then a statement in which its parameters are targets.
    fn send(&mut self, row: usize, level: usize) -> Result<(), Refusal> {
        let message = self.declared_message()?;
        self.scope.sends.push(self.parsed.messages[message].number);
        self.statement(row, level + 1)?;
        self.scope.sends.pop();
        Ok(())
    }

    /// One or more receive statements of different messages, 255.
    fn select(&mut self, row: usize, level: usize) -> Result<(), Refusal> {
        let mut selected = Vec::new();
        let mut due: &[u8] = &[RECEIVE];
        loop {
            let place = self.cursor.place();
            if self.cursor.code(due, &[])? == END {
                return Ok(());
            }
            let receive = self.open_statement(place, RECEIVE, Some(row), level + 1)?;
            let message_place = self.cursor.place();
            let message = self.declared_message()?;
            if selected.contains(&message) {
                return refuse(refusal::WRONG_MESSAGE, message_place);
            }
            selected.push(message);
            self.statement(receive, level + 2)?;
            self.close_statement(receive);
            due = &[RECEIVE, END];
        }
    }

    /// Number, then a statement that it labels.
    fn label(&mut self, row: usize, level: usize) -> Result<(), Refusal> {
        let number = self.cursor.byte()?;
        self.scope.labels.push(number);
        self.statement(row, level + 1)?;
        self.scope.labels.pop();
        Ok(())
    }

    /// Number of an enclosing label: 14 at the leave if there is none.
    fn leave(&mut self, place: usize) -> Result<(), Refusal> {
        let number = self.cursor.byte()?;
        if !self.scope.labels.contains(&number) {
            return refuse(refusal::WRONG_STATEMENT, place);
        }
        Ok(())
    }
}
