//! Ebbcandle for Rust: an order of look-ups by the CHAIN method, the calls that each needs, and the
//! joined list; or a refusal with its number.
//!
//! Each function hands its slices to an operation of the library, which is proved to give exactly
//! what its contract says, for every input, and hands back the numbers as owned values. The
//! translation between numbers and values is this package's own, and is tested, not proved.

mod builder;
pub mod explain;
pub mod fields;
pub mod linked;
mod reading;
pub mod steps;
mod typed;
mod writing;

pub use builder::{NoRule, SheetBuilder};
pub use reading::{read_sheet, LookUp, Register, Sheet};
pub use typed::{faulty_name, Typed};

use linked::{Detail, PLACES};
use std::fmt;

/// A lent table has at least this many words: 512 rows of 16.
pub const TABLE: usize = 8_192;

/// A row of the list takes this many words.
pub const ROW: usize = 16;

/// Row data holds at most this many words.
pub const MOST_WORDS: usize = 16_384;

/// The words that whole groups of four bytes make, highest first; a left-over makes none.
fn whole_words(data: &[u8]) -> Vec<u32> {
    let word = |b: &[u8]| u32::from_be_bytes([b[0], b[1], b[2], b[3]]);
    data.chunks_exact(4).map(word).collect()
}

/// The words that the bytes of `data.bin` make: four bytes each, highest first. A left-over of fewer
/// than four bytes is refusal 3, as one word too many. Where the sheet is refused too, the answer to
/// both files is that refusal: see [`answer_bytes`].
pub fn words_of(data: &[u8]) -> Result<Vec<u32>, Refusal> {
    if data.len() % 4 != 0 {
        return Err(Refusal {
            number: 3,
            detail: 0,
        });
    }
    Ok(whole_words(data))
}

/// One step of the route: look-up and rule from 0, its calls, the rows of the list after it, and what is
/// charged for it.
#[derive(Debug, Clone, Copy, PartialEq, Eq)]
pub struct Step {
    /// The look-up that is asked, from 0.
    pub lookup: usize,
    /// The rule that it is asked by, from 0.
    pub rule: usize,
    /// The calls that it needs.
    pub calls: usize,
    /// The rows of the list after it.
    pub rows: usize,
    /// The rows sent: the register's different rows that agree with some call on the must-give columns,
    /// joined or not, those left out of the look-up for a 0 included.
    pub sent: usize,
    /// Its charge: p for each call and q for each row sent. [`answer`] charges 1 and 0.
    pub charge: usize,
}

/// A refusal: the first number that fits, in the order of this table, and its detail.
///
/// | number | what is wrong | detail |
/// |---|---|---|
/// | 1 | a lent table has fewer than 8,192 words; of [`State::choose`](steps::State::choose) also: the list of calls has fewer than 3,072 | 0 |
/// | 5 | of [`steps`] alone: a step was refused with 5 before | that step, from 1 |
/// | 17 | of [`answer_charged`] alone: p or q is above 1,000 | 0 |
/// | 2 | the sheet ends early | the first bit of the field that is not whole |
/// | 7 | the version is not 1 | 0, its first bit |
/// | 8 | registers or look-ups are not from 1 to 12, columns not from 1 to 6, or rules not from 1 to 8; of the writing also variables not from 1 to 16 | the first bit of that number |
/// | 9 | a look-up names a register or a variable that is not in the sheet | the first bit of that number |
/// | 10 | a variable is neither given nor in a look-up | the lowest such variable |
/// | 11 | a padding bit is 1, or else a byte follows | the first padding bit, or else the first bit of that byte |
/// | 12 | a given value is 0, which means not known | the first bit of that value |
/// | 31 | of typed requests alone, as are 20 to 25: the second line is not one name for each register | 0 |
/// | 12 | a given value in the line is 0 | where it begins |
/// | 20 | a byte that no token has, or a number with a leading zero | its place, or where the number begins |
/// | 21 | a token, or the line's end, is out of place | where it begins |
/// | 22 | a name is not a register's | where it begins |
/// | 23 | a look-up has not one variable for each of its register's columns | the closing bracket's place |
/// | 24 | a variable's name has over 12 letters, a number is over 4,294,967,295, or the name is a 17th variable's or begins a 13th look-up | where it begins |
/// | 25 | a name is given twice | where the second begins |
/// | 3 | the row data ends early, has words left over, a row count above 512, or over 16,384 words | 0 |
/// | 4 | no order of the look-ups is a route | bit i: look-up i is never answerable |
/// | 15 | of [`State::take`](steps::State::take) alone, as are 32 and 16: the step is not from 1 to the number of look-ups, or is not yet chosen | 0 |
/// | 32 | what was sent is not whole rows, or over 512 | 0 |
/// | 16 | a row was sent that no call asked for | 0 |
/// | 5 | a step yields more than 512 rows | the step, from 1 |
/// | 6 | of the count alone: the variable is above 15, the rows are above 512, or the table is too short | 0 |
/// | 13 | of the writing alone: the buffer is shorter than the sheet | the bytes that the sheet has |
///
/// 2 and 7 to 12 are refusals of the sheet: of its faults the first one in reading order is told. Bits are
/// counted from 0. 12 and 20 to 25 are those of a typed line: of its faults the first one in the line is
/// told, and at one place the lowest number; places are bytes, from 0, and [`Typed::part`] has the name
/// there. [`explain::refusal`] says a refusal in words, [`explain::typed`] that of a typed request, and
/// [`explain::step`] that of a step chosen or taken; [`fields::fields`] has a sheet's fields with their places.
#[derive(Debug, Clone, Copy, PartialEq, Eq)]
pub struct Refusal {
    /// Why it is refused.
    pub number: u32,
    /// Where, or which.
    pub detail: Detail,
}

/// The route, with its list left in the table that was lent.
#[derive(Debug, Clone, PartialEq, Eq)]
pub struct Route {
    /// The steps, in order.
    pub steps: Vec<Step>,
    /// The calls of all steps.
    pub calls: usize,
    /// The charge of all steps.
    pub charge: usize,
    /// How many rows the list has.
    pub rows: usize,
}

/// The route and the joined list.
#[derive(Debug, Clone, PartialEq, Eq)]
pub struct Answer {
    /// The steps, in order.
    pub steps: Vec<Step>,
    /// The calls of all steps.
    pub calls: usize,
    /// The charge of all steps.
    pub charge: usize,
    /// The rows, ascending, each once: one value for each of the sheet's variables.
    pub rows: Vec<Vec<u32>>,
}

/// `Ok` where the number is 0.
fn answered(number: u32, detail: Detail) -> Result<(), Refusal> {
    match number {
        0 => Ok(()),
        number => Err(Refusal { number, detail }),
    }
}

/// The route that the places of an answer have, or its refusal.
fn route(number: u32, places: &[usize; PLACES]) -> Result<Route, Refusal> {
    answered(number, places[1])?;
    let steps = places[6..].chunks_exact(6).take(places[2]);
    Ok(Route {
        steps: steps
            .map(|step| Step {
                lookup: step[0],
                rule: step[1],
                calls: step[2],
                rows: step[3],
                sent: step[4],
                charge: step[5],
            })
            .collect(),
        calls: places[3],
        charge: places[5],
        rows: places[4],
    })
}

/// The route with the rows of its list, which the table holds, one value for each of so many variables.
fn with_rows(route: Route, table: &[u32], variables: usize) -> Answer {
    let rows = table.chunks_exact(ROW).take(route.rows);
    Answer {
        steps: route.steps,
        calls: route.calls,
        charge: route.charge,
        rows: rows.map(|row| row[..variables].to_vec()).collect(),
    }
}

/// The answer to a sheet with the registers' rows, the list left in the first of two lent tables.
///
/// Promised, answered or refused: the number is the first that fits. Answered: each step is
/// CHAIN's choice on the list so far, with its exact calls; the first table holds the rows, 16
/// words each, and zeros up to word 8,192, the second zeros up to there. Refused: under 5 both hold
/// zeros up to word 8,192, else both stay as they came. Words beyond 8,192 always stay.
/// Contract: `chain::answer`, handed on by `export::ebbcandle_answer`.
pub fn answer_into(
    sheet: &[u8],
    words: &[u32],
    first: &mut [u32],
    second: &mut [u32],
) -> Result<Route, Refusal> {
    let mut out = [0; PLACES];
    let number = linked::answer(sheet, words, first, second, &mut out);
    route(number, &out)
}

/// The answer to a sheet with the registers' rows where a call is charged p and a row sent q, from 0 to
/// 1,000 each, the list left in the first of two lent tables: as [`answer_into`], which is this at 1 and
/// 0, but each step has the lowest charge, p for each of its calls and q for each row sent.
///
/// Promised: the total charge is at most n times that of the dearest single look-up of any route.
/// Refusal 17 where p or q is above 1,000, behind 1 and before the sheet is read; then both tables stay as they came.
/// Contract: `chain::answer_charged`, handed on by `export::ebbcandle_answer_charged`.
pub fn answer_charged(
    sheet: &[u8],
    words: &[u32],
    p: usize,
    q: usize,
    first: &mut [u32],
    second: &mut [u32],
) -> Result<Route, Refusal> {
    let mut out = [0; PLACES];
    let number = linked::answer_charged(sheet, words, p, q, first, second, &mut out);
    route(number, &out)
}

/// The answer to a sheet with the registers' rows.
///
/// 0 means not known. A variable that is given, or stands in more than one column over all look-ups,
/// is never 0: a register row with 0 in such a column does not match that look-up. Other variables may
/// be 0.
///
/// Promised: an answer's rows are exactly the combinations that keep the given values and satisfy
/// every look-up, each once, ascending; its calls cost at most n times the dearest single look-up
/// of any route. A refusal is the sheet's, 3, 4 or 5, the first that fits.
/// Contracts: `chain::answer` and `sheet::read_sheet`, which gives the number of variables.
pub fn answer(sheet: &[u8], words: &[u32]) -> Result<Answer, Refusal> {
    let mut first = vec![0; TABLE];
    let mut second = vec![0; TABLE];
    let route = answer_into(sheet, words, &mut first, &mut second)?;
    let variables = read_sheet(sheet).map_or(0, |sheet| sheet.variables());
    Ok(with_rows(route, &first, variables))
}

/// The answer to the contents of `sheet.bin` and `data.bin`: what the program prints for these files.
/// A left-over of fewer than four bytes of row data is refusal 3, unless the sheet is refused.
pub fn answer_bytes(sheet: &[u8], data: &[u8]) -> Result<Answer, Refusal> {
    match words_of(data) {
        Ok(words) => answer(sheet, &words),
        Err(left_over) => Err(read_sheet(sheet).err().unwrap_or(left_over)),
    }
}

/// Whether a route exists for a sheet: `Ok`, or the sheet's refusal, or refusal 4 with the look-ups
/// that are answerable in no order. Contract: `chain::check_route`, by `export::ebbcandle_check_route`.
pub fn check_route(sheet: &[u8]) -> Result<(), Refusal> {
    let (number, detail) = linked::check_route(sheet);
    answered(number, detail)
}

/// The number of different values of one variable over the first rows of a table. 0 means not known
/// and is left out, whatever the variable and the table. Refusal 6 where the variable is above 15, the
/// rows are above 512, or the table has fewer than 16 words for each. Contract: `count::count`, by
/// `export::ebbcandle_count`.
pub fn count(table: &[u32], rows: usize, variable: usize) -> Result<usize, Refusal> {
    let (number, values) = linked::count(table, rows, variable);
    answered(number, 0).map(|()| values)
}

/// The lines that the program prints for an answer.
impl fmt::Display for Answer {
    fn fmt(&self, f: &mut fmt::Formatter<'_>) -> fmt::Result {
        for (place, step) in self.steps.iter().enumerate() {
            let Step {
                lookup,
                rule,
                calls,
                rows,
                ..
            } = step;
            writeln!(
                f,
                "step {} lookup {lookup} rule {rule} calls {calls} rows {rows}",
                place + 1
            )?;
        }
        writeln!(f, "calls {}", self.calls)?;
        for row in &self.rows {
            f.write_str("row")?;
            for value in row {
                write!(f, " {value}")?;
            }
            f.write_str("\n")?;
        }
        Ok(())
    }
}

/// The line that the program prints for a refusal.
impl fmt::Display for Refusal {
    fn fmt(&self, f: &mut fmt::Formatter<'_>) -> fmt::Result {
        writeln!(f, "refused {} {}", self.number, self.detail)
    }
}

impl std::error::Error for Refusal {}
