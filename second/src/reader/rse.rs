//! Record selection expressions.
//!
//! Document 01: "Rse: 67, stream count, streams, at most one each of boolean 71 and sort 70 (count,
//! then 72 or 73 before each value) in either order, 255. Stream: relation 74, counted name, ctx;
//! or rid 75, id word, ctx." "A context of an rse is in scope from the byte after its last stream".
//!
//! Document 02, No. 4, on the rse of a code that goes over a run: "8 at a stream count of 2 to 8".

use super::parsed::{Boolean, Role, Selection};
use super::Reader;
use crate::refusal::{self, refuse, Refusal};
use crate::wire::{
    ASCENDING, BOOLEAN, DESCENDING, END, FOR, LEFT_OUT_CLAUSES, LEFT_OUT_STREAMS, RELATION, RSE,
    SORT, STREAMS,
};

impl Reader<'_> {
    /// The rse of a for with its row; its values and its boolean are at `level`. Gives the number
    /// of streams, whose contexts are left in scope.
    pub fn rse(&mut self, row: usize, level: usize) -> Result<usize, Refusal> {
        self.due(RSE)?;
        let count = self.cursor.count()?;
        let first = self.parsed.contexts.len();
        for _ in 0..count {
            self.stream(first, FOR)?;
        }
        self.open_scope(first);
        self.clauses(Some(row), level)?;
        Ok(usize::from(count))
    }

    /// The rse of one stream of a code that goes over a run; its values and its boolean are at
    /// `level`. Its context is left in scope.
    pub fn selection(
        &mut self,
        place: usize,
        code: u8,
        level: usize,
    ) -> Result<Selection, Refusal> {
        let run = self.runs.len();
        // The context that the stream declares, if it does.
        let context = self.parsed.contexts.len();
        self.runs.push(context);
        self.due(RSE)?;
        let count_place = self.cursor.place();
        if self.cursor.count()? != 1 {
            return refuse(refusal::TOO_MANY, count_place);
        }
        self.stream(context, code)?;
        self.open_scope(context);
        let condition = self.clauses(None, level)?;
        Ok(Selection { place, context, condition, run })
    }

    /// One stream of what a code opens; contexts declared from `first` on are of the same rse.
    pub fn stream(&mut self, first: usize, opener: u8) -> Result<usize, Refusal> {
        let place = self.cursor.place();
        let code = self.cursor.code(&STREAMS, &LEFT_OUT_STREAMS)?;
        self.room_for_context(place)?;
        let relation = self.relation(code)?;
        let number = self.new_context(first)?;
        self.note(Role::Stream, code);
        Ok(self.declare(number, place, relation, opener))
    }

    /// The name or id of a relation: 12 at its count byte or its word.
    fn relation(&mut self, code: u8) -> Result<usize, Refusal> {
        let place = self.cursor.place();
        let found = match code {
            RELATION => self.dictionary.relation_by_name(self.cursor.counted_name()?),
            _ => self.dictionary.relation_by_id(self.cursor.word()?),
        };
        match found {
            Some(relation) => Ok(relation),
            None => refuse(refusal::UNKNOWN_NAME, place),
        }
    }

    /// Clauses up to the 255; one that was read is not due again. The boolean is the condition of a
    /// for with its row; another has no number and is given back.
    fn clauses(&mut self, row: Option<usize>, level: usize) -> Result<Option<Boolean>, Refusal> {
        let mut due = vec![END, BOOLEAN, SORT];
        let mut boolean = None;
        loop {
            let code = self.cursor.code(&due, &LEFT_OUT_CLAUSES)?;
            match (code, row) {
                (END, _) => return Ok(boolean),
                (BOOLEAN, Some(row)) => self.condition_of(row, level)?,
                (BOOLEAN, None) => boolean = Some(self.boolean(level)?),
                _ => self.sort(level)?,
            }
            self.note(Role::Clause, code);
            due.retain(|other| *other != code);
        }
    }

    /// The sort count and its values, whose codes have no run.
    fn sort(&mut self, level: usize) -> Result<(), Refusal> {
        let count = self.cursor.count()?;
        let runs = std::mem::take(&mut self.runs);
        for _ in 0..count {
            let order = self.cursor.code(&[ASCENDING, DESCENDING], &[])?;
            self.note(Role::Order, order);
            self.value(level)?;
        }
        self.runs = runs;
        Ok(())
    }
}
