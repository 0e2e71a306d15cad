//! Typed requests: a line of look-ups by their registers' names, in place of a sheet's own.

use crate::linked::{self, Detail, PLACES, SHEET_PLACES};
use crate::reading::{said, Sheet};
use crate::{answered, route, with_rows, Answer, Refusal, Route, TABLE};
use std::ops::Range;

/// A typed request, as `depot=7 cond=1 : state(machine cond) stock(depot machine)`: givens, a colon, and
/// look-ups, parted by one space each, as are the variables in brackets. A line without givens starts
/// with the colon. Variables are numbered by their first appearance.
///
/// The registers are those of a sheet, whose givens and look-ups do not matter, and their names stand in
/// a second line, one for each in their order, parted by one space. Each of these has the refusals of the
/// sheet first, then 31, then those of the line: see [`Refusal`].
#[derive(Debug, Clone, Copy, PartialEq, Eq)]
pub struct Typed<'a> {
    /// The sheet whose registers are reused.
    pub sheet: &'a [u8],
    /// The second line: the registers' names.
    pub names: &'a [u8],
    /// The typed line.
    pub line: &'a [u8],
}

/// The part of a typed line that is handed back with a refusal of it: the name that begins at the detail
/// of 20 to 25, or an empty part there. For any other number, and a detail beyond the line, an empty part
/// at its beginning. Contract: `tokens::part_of`, handed on by `export::ebbcandle_faulty_name`.
pub fn faulty_name(line: &[u8], number: u32, detail: Detail) -> Range<usize> {
    let (place, length) = linked::faulty_name(line, number, detail);
    place..place + length
}

impl<'a> Typed<'a> {
    /// A typed request of a sheet, the registers' names and the line, both as text or as bytes.
    pub fn new(
        sheet: &'a [u8],
        names: &'a (impl AsRef<[u8]> + ?Sized),
        line: &'a (impl AsRef<[u8]> + ?Sized),
    ) -> Typed<'a> {
        Typed {
            sheet,
            names: names.as_ref(),
            line: line.as_ref(),
        }
    }

    /// The request as the sheet that would say it, or its refusal: one of the sheet's own, 12, 20 to 25,
    /// or 31.
    ///
    /// Promised: [`Sheet::to_bytes`] of what is read gives a sheet that reads and answers alike.
    /// Contract: `typed::read_typed`, handed on by `export::ebbcandle_read_typed`.
    pub fn read(&self) -> Result<Sheet, Refusal> {
        let mut out = [0; SHEET_PLACES];
        let number = linked::read_typed(self.sheet, self.names, self.line, &mut out);
        answered(number, out[1])?;
        Ok(said(&out))
    }

    /// The answer with the registers' rows, the list left in the first of two lent tables: as
    /// [`answer_into`](crate::answer_into) of the sheet that would say the request. Contract:
    /// `chain::answer_typed`, handed on by `export::ebbcandle_answer_typed`.
    pub fn answer_into(
        &self,
        words: &[u32],
        first: &mut [u32],
        second: &mut [u32],
    ) -> Result<Route, Refusal> {
        let Typed { sheet, names, line } = self;
        let mut out = [0; PLACES];
        let number = linked::answer_typed(sheet, names, line, words, first, second, &mut out);
        route(number, &out)
    }

    /// The answer with the registers' rows: as [`answer`](crate::answer) of the sheet that would say the
    /// request.
    pub fn answer(&self, words: &[u32]) -> Result<Answer, Refusal> {
        let (mut first, mut second) = (vec![0; TABLE], vec![0; TABLE]);
        let route = self.answer_into(words, &mut first, &mut second)?;
        let variables = self.read().map_or(0, |sheet| sheet.variables());
        Ok(with_rows(route, &first, variables))
    }

    /// Whether a route exists: `Ok`, or the refusal of [`read`](Typed::read), or refusal 4 with the
    /// look-ups that are answerable in no order. Contract: `chain::check_typed`, by
    /// `export::ebbcandle_check_typed`.
    pub fn check_route(&self) -> Result<(), Refusal> {
        let (number, detail) = linked::check_typed(self.sheet, self.names, self.line);
        answered(number, detail)
    }

    /// Place and length, in the line, of the name that a refusal of this request tells: see
    /// [`faulty_name`].
    pub fn place(&self, refusal: Refusal) -> Range<usize> {
        faulty_name(self.line, refusal.number, refusal.detail)
    }

    /// That name: the very word of the line, or nothing where no name begins there.
    pub fn part(&self, refusal: Refusal) -> &'a str {
        std::str::from_utf8(&self.line[self.place(refusal)]).expect("lower-case letters")
    }
}
