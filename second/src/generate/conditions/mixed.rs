//! Conditions at random over few values, which are edges more often than not.

use super::sheet::{
    cstring, date, int64, long, reading, short, text, varying, Sheet, Stored, Where,
};
use super::texts::SEARCHES;
use super::COMPARISONS;
use crate::datatype::Kind;
use crate::generate::assemble::operator;
use crate::generate::data;
use crate::generate::rng::Rng;
use crate::generate::Case;
use crate::wire::{ADD, AND, BETWEEN, DIVIDE, MISSING, MULTIPLY, NEGATE, NOT, OR, SUBTRACT};

/// A condition in the making.
struct Maker<'a> {
    rng: &'a mut Rng,
    sheet: Sheet,
}

/// A condition over values of few fields and parameters. Its scales may not fit.
pub fn condition(rng: &mut Rng) -> Case {
    let sheet = if rng.one_in(2) { Sheet::default() } else { Sheet::version_5() };
    let mut maker = Maker { rng, sheet };
    let boolean = maker.boolean(2);
    maker.sheet.case(&boolean)
}

impl Maker<'_> {
    /// A boolean of at most so many levels above its tests.
    fn boolean(&mut self, levels: usize) -> Vec<u8> {
        if levels == 0 || self.rng.one_in(2) {
            return self.test();
        }
        let first = self.boolean(levels - 1);
        if self.rng.one_in(3) {
            return operator(NOT, &[&first]);
        }
        let code = self.rng.pick(&[AND, OR]);
        let second = self.boolean(levels - 1);
        operator(code, &[&first, &second])
    }

    /// A test of values of one kind.
    fn test(&mut self) -> Vec<u8> {
        let kind = self.rng.pick(&[Kind::Number, Kind::Number, Kind::Text, Kind::Date]);
        let mut codes = COMPARISONS.to_vec();
        codes.extend([BETWEEN, BETWEEN, MISSING]);
        if kind == Kind::Text {
            codes.extend(SEARCHES.repeat(2));
        }
        let code = self.rng.pick(&codes);
        let count = match code {
            BETWEEN => 3,
            MISSING => 1,
            _ => 2,
        };
        let operands: Vec<Vec<u8>> = (0..count).map(|_| self.value(kind, 2)).collect();
        [vec![code], operands.concat()].concat()
    }

    /// A value of a kind; a number may be the result of operators, at most so many levels deep.
    fn value(&mut self, kind: Kind, levels: usize) -> Vec<u8> {
        if kind != Kind::Number || levels == 0 || !self.rng.one_in(4) {
            return self.stored(kind);
        }
        let first = self.value(kind, levels - 1);
        let code = self.rng.pick(&[ADD, SUBTRACT, MULTIPLY, DIVIDE, NEGATE]);
        if code == NEGATE {
            return operator(code, &[&first]);
        }
        let second = self.value(kind, levels - 1);
        operator(code, &[&first, &second])
    }

    /// A literal, a field or a parameter; missing once in seven times.
    fn stored(&mut self, kind: Kind) -> Vec<u8> {
        let places = [Where::Literal, Where::Field, Where::Field, Where::Parameter, Where::Flagged];
        let first = usize::from(kind == Kind::Date);
        let place = self.rng.pick(&places[first..]);
        let stored = match kind {
            Kind::Number => self.number(place),
            Kind::Text => self.text(place),
            Kind::Date => self.date(),
        };
        let missing = place != Where::Literal && self.rng.one_in(7);
        self.sheet.value(place, &stored, missing)
    }

    /// A short, a long, in a field a reading, or in version 5 a 64-bit integer.
    fn number(&mut self, place: Where) -> Stored {
        if self.sheet.is_version_5() && self.rng.one_in(3) {
            let scale = self.rng.pick(&[0, 0, -1, -9, -10, -18]);
            return int64(scale, data::int64(self.rng));
        }
        let scale = self.rng.pick(&[0, 0, 0, -1, -2, -9]);
        match self.rng.below(5) {
            0 | 1 => short(scale, data::short(self.rng)),
            2 if place == Where::Field => {
                reading(scale, self.rng.pick(&[0, 300, 32_768, 65_534, 65_535, 65_535, 65_535]))
            }
            _ => long(scale, data::long(self.rng)),
        }
    }

    /// A text of one of the three types; a literal is of the first.
    fn text(&mut self, place: Where) -> Stored {
        let n = self.rng.between(1, 3);
        let bytes = data::text(self.rng, n);
        let malformed = self.rng.one_in(6);
        match self.rng.below(4) {
            0 if place != Where::Literal => {
                let length = if malformed { n + 1 } else { self.rng.between(0, n) };
                varying(length as u16, &bytes)
            }
            1 if place != Where::Literal && malformed => cstring(&bytes),
            1 if place != Where::Literal => cstring(&[&bytes[..], &[0]].concat()),
            _ => text(&bytes),
        }
    }

    /// A date whose day is often that of another.
    fn date(&mut self) -> Stored {
        let day = self.rng.pick(&[0, -1, -1, i32::MIN]);
        date(day, self.rng.pick(&[0, 1, 1 << 31, u32::MAX]))
    }
}
