//! Statements and record selection expressions of generated requests.

use super::builder::{Builder, Open};
use super::draft::Mark;
use super::values::Source;
use super::Size;
use crate::reader::parsed::Role;
use crate::wire::{
    ASCENDING, ASSIGNMENT, BEGIN, BOOLEAN, DESCENDING, END, ERASE, FOR, HANDLER, IF, LABEL, LEAVE,
    LOOP, MODIFY, RECEIVE, RELATION, RSE, SELECT, SEND, SORT, STATEMENTS, STORE, STREAMS,
};

impl Builder<'_> {
    /// Writes a statement that may stand here.
    pub fn statement(&mut self, level: usize) {
        let mut codes = STATEMENTS.to_vec();
        codes.retain(|code| self.may_stand(*code, level));
        let code = self.choose(Role::Statement, &codes);
        self.write_statement(code, level);
    }

    /// Writes a for with a boolean, or an if.
    pub fn conditional_statement(&mut self, level: usize) {
        let enclosing = self.rng.pick(&[IF, FOR, FOR, FOR]);
        if enclosing == FOR && self.may_stand(FOR, level) {
            self.open(FOR);
            self.for_loop(level, true);
        } else {
            self.open(IF);
            self.if_statement(level);
        }
    }

    /// Writes a send or a store of an assignment.
    pub fn assigning_statement(&mut self, level: usize) {
        let may_send = !self.messages.is_empty() && self.rng.one_in(2);
        if may_send || self.dictionary.relations.is_empty() {
            self.open(SEND);
            return self.conversation(SEND, level);
        }
        self.open(STORE);
        let open = self.stream(false, &[]);
        self.contexts.push(open);
        self.updates.push(open);
        let code = if self.targets().is_empty() { BEGIN } else { ASSIGNMENT };
        self.write_statement(code, level + 1);
        self.updates.pop();
        self.contexts.pop();
    }

    /// Whether a statement may stand here and leaves room for what it holds.
    fn may_stand(&self, code: u8, level: usize) -> bool {
        let roomy = level + 3 <= self.depth && self.has_budget();
        let has_streams = !self.dictionary.relations.is_empty() && self.declared < 24;
        let may_converse = !self.messages.is_empty() && self.updates.is_empty();
        match code {
            BEGIN => true,
            LEAVE => !self.labels.is_empty(),
            ERASE => !self.contexts_of_for().is_empty(),
            ASSIGNMENT => level < self.depth && !self.targets().is_empty(),
            FOR | STORE => roomy && has_streams,
            MODIFY => roomy && has_streams && !self.contexts_of_for().is_empty(),
            SEND | RECEIVE | SELECT => roomy && may_converse,
            _ => roomy,
        }
    }

    /// Writes the code of a statement.
    fn open(&mut self, code: u8) {
        self.draft.code(Role::Statement, code);
        self.statements += 1;
    }

    fn write_statement(&mut self, code: u8, level: usize) {
        self.open(code);
        match code {
            ASSIGNMENT => self.assignment(level),
            BEGIN => self.begin(level),
            ERASE => {
                self.context_of_for();
            }
            FOR => self.for_loop(level, false),
            IF => self.if_statement(level),
            LOOP | HANDLER => self.statement(level + 1),
            MODIFY => self.modify(level),
            RECEIVE | SEND => self.conversation(code, level),
            SELECT => self.select(level),
            STORE => self.store(level),
            LABEL => self.label(level),
            LEAVE => {
                let label = self.rng.pick(&self.labels);
                self.draft.byte(Mark::Label, label);
            }
            other => unreachable!("statement code {other} is not written"),
        }
    }

    /// The fields and parameters that an assignment may have as its target here.
    fn targets(&self) -> Vec<Source> {
        let update = self.updates.last();
        let fields = update.map(|open| self.fields(open.number, open.relation));
        let parameters = self.sends.iter().flat_map(|message| self.parameters(*message));
        fields.unwrap_or_default().into_iter().chain(parameters).collect()
    }

    fn assignment(&mut self, level: usize) {
        let targets = self.targets();
        let target = self.rng.pick(&targets);
        self.value(self.data_type(target).kind(), level + 1);
        self.target(target);
    }

    fn begin(&mut self, level: usize) {
        while level < self.depth && self.has_budget() && !self.rng.one_in(3) {
            self.statement(level + 1);
        }
        self.draft.raw(&[END]);
    }

    /// The contexts in scope that are of a for.
    fn contexts_of_for(&self) -> Vec<Open> {
        self.contexts.iter().copied().filter(|open| open.is_of_for).collect()
    }

    /// Writes a ctx byte of a for.
    fn context_of_for(&mut self) -> Open {
        let contexts = self.contexts_of_for();
        let open = self.rng.pick(&contexts);
        self.draft.byte(Mark::Context, open.number);
        open
    }

    fn for_loop(&mut self, level: usize, conditional: bool) {
        let outer = self.contexts.len();
        self.draft.raw(&[RSE]);
        let streams = self.stream_count();
        self.draft.byte(Mark::Count, streams as u8);
        let mut opened = Vec::new();
        for _ in 0..streams {
            let open = self.stream(true, &opened);
            opened.push(open);
        }
        self.contexts.extend(opened);
        self.clauses(level + 1, conditional);
        self.statement(level + 1);
        self.contexts.truncate(outer);
    }

    /// The rse of one stream of a code that goes over a run; its context is left in scope.
    pub fn selection(&mut self, level: usize) {
        self.draft.raw(&[RSE]);
        self.draft.byte(Mark::Count, 1);
        let open = self.stream(false, &[]);
        self.contexts.push(open);
        self.clauses(level, false);
    }

    fn stream_count(&mut self) -> usize {
        match self.size {
            Size::Small => self.rng.pick(&[1, 1, 1, 1, 1, 2]),
            Size::Mixed => self.rng.pick(&[1, 1, 1, 2, 3, 8]),
        }
    }

    /// Writes a stream with a context number that is free.
    fn stream(&mut self, is_of_for: bool, siblings: &[Open]) -> Open {
        let code = self.choose(Role::Stream, &STREAMS);
        let relation = self.rng.below(self.dictionary.relations.len());
        self.draft.code(Role::Stream, code);
        if code == RELATION {
            let name = &self.dictionary.relations[relation].name;
            self.draft.name(Mark::Relation, name);
        } else {
            self.draft.word(Mark::Relation, self.dictionary.relations[relation].id);
        }
        let number = self.new_context(siblings);
        Open { number, relation, is_of_for }
    }

    /// Writes a ctx byte that is free.
    fn new_context(&mut self, siblings: &[Open]) -> u8 {
        loop {
            let mixed = self.rng.byte();
            let number = self.rng.pick(&[0, 1, 2, 3, 255, mixed]);
            let mut taken = self.contexts.iter().chain(siblings);
            if taken.all(|open| open.number != number) {
                self.draft.byte(Mark::Context, number);
                self.declared += 1;
                return number;
            }
        }
    }

    /// A boolean and a sort, in either order, or one or none of them.
    fn clauses(&mut self, level: usize, conditional: bool) {
        let boolean = conditional || !self.rng.one_in(4);
        let sort = self.rng.one_in(4) || self.focus.0 == Role::Order;
        let boolean_first = self.rng.one_in(2);
        if boolean && boolean_first {
            self.boolean_clause(level);
        }
        if sort {
            self.sort_clause(level);
        }
        if boolean && !boolean_first {
            self.boolean_clause(level);
        }
        self.draft.raw(&[END]);
    }

    fn boolean_clause(&mut self, level: usize) {
        self.draft.code(Role::Clause, BOOLEAN);
        self.boolean(level);
    }

    fn sort_clause(&mut self, level: usize) {
        self.draft.code(Role::Clause, SORT);
        let most = if self.size == Size::Small { 2 } else { 8 };
        let count = self.rng.between(1, most);
        self.draft.byte(Mark::Count, count as u8);
        for _ in 0..count {
            let order = self.choose(Role::Order, &[ASCENDING, DESCENDING]);
            self.draft.code(Role::Order, order);
            let kind = self.kind();
            self.value(kind, level);
        }
    }

    fn if_statement(&mut self, level: usize) {
        self.boolean(level + 1);
        self.statement(level + 1);
        if self.rng.one_in(2) {
            self.draft.raw(&[END]);
        } else {
            self.statement(level + 1);
        }
    }

    fn modify(&mut self, level: usize) {
        let from = self.context_of_for();
        let number = self.new_context(&[]);
        self.update(Open { number, relation: from.relation, is_of_for: false }, level);
    }

    fn store(&mut self, level: usize) {
        let open = self.stream(false, &[]);
        self.update(open, level);
    }

    /// The substatement of a store or modify.
    fn update(&mut self, open: Open, level: usize) {
        self.contexts.push(open);
        self.updates.push(open);
        self.statement(level + 1);
        self.updates.pop();
        self.contexts.pop();
    }

    /// The message and substatement of a send or receive.
    fn conversation(&mut self, code: u8, level: usize) {
        let message = self.rng.below(self.messages.len());
        self.draft.byte(Mark::Message, self.messages[message].number);
        if code == RECEIVE {
            return self.statement(level + 1);
        }
        self.sends.push(message);
        self.statement(level + 1);
        self.sends.pop();
    }

    /// Receives of different messages, in the order of their declaration.
    fn select(&mut self, level: usize) {
        let first = self.rng.below(self.messages.len());
        let most = self.messages.len().min(first + 3);
        for message in first..self.rng.between(first + 1, most) {
            self.open(RECEIVE);
            self.draft.byte(Mark::Message, self.messages[message].number);
            self.statement(level + 2);
        }
        self.draft.raw(&[END]);
    }

    fn label(&mut self, level: usize) {
        let number = self.rng.pick(&[0, 0, 1, 2, 255]);
        self.draft.byte(Mark::Label, number);
        self.labels.push(number);
        self.statement(level + 1);
        self.labels.pop();
    }
}
