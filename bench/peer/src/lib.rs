//! The same operations as the library's, written for speed and without proofs: hash sets count the
//! calls and find the rows sent, hash indexes join, the lent tables are the work area, and the rows
//! are sorted once, behind the last join.

mod chain;
mod hash;
mod join;
mod places;
mod sheet;

use chain::{Prices, Run};
pub use places::PLACES as SHEET_PLACES;

/// A list row: one word a variable.
pub type Row = [u32; 16];

/// A lent table has at least this many words.
pub const TABLE: usize = 8_192;

/// The list holds at most this many rows at every step.
pub const LIMIT: usize = 512;

/// One step of the route.
#[derive(Debug, Clone, Copy, Default, PartialEq, Eq)]
pub struct Step {
    pub lookup: usize,
    pub rule: usize,
    pub calls: usize,
    pub rows: usize,
    pub sent: usize,
    pub charge: usize,
}

/// The answer's numbers; under a refusal only `number` and `detail` can be other than zero.
#[derive(Debug, Clone, Copy, Default, PartialEq, Eq)]
pub struct Answer {
    pub number: u32,
    pub detail: u32,
    pub steps: [Step; 12],
    pub made: usize,
    pub calls: usize,
    pub charge: usize,
    pub rows: usize,
}

fn refused(number: u32, detail: u32) -> Answer {
    Answer {
        number,
        detail,
        ..Answer::default()
    }
}

/// The whole operation where calls alone are charged.
pub fn answer(sheet: &[u8], words: &[u32], first: &mut [u32], second: &mut [u32]) -> Answer {
    answer_charged(sheet, words, 1, 0, first, second)
}

/// A call, and a row sent, is charged at most this.
const MOST_CHARGED: usize = 1_000;

/// The whole operation: the numbers come back, and the rows stand in the first table.
pub fn answer_charged(
    sheet: &[u8],
    words: &[u32],
    p: usize,
    q: usize,
    first: &mut [u32],
    second: &mut [u32],
) -> Answer {
    if first.len() < TABLE || second.len() < TABLE {
        return refused(1, 0);
    }
    if p > MOST_CHARGED || q > MOST_CHARGED {
        return refused(17, 0);
    }
    let request = match sheet::read(sheet) {
        Ok(request) => request,
        Err(fault) => return refused(fault.number, fault.detail),
    };
    let Some(parts) = chain::parts(&request, words) else {
        return refused(3, 0);
    };
    let open = request.never_answerable();
    if open != 0 {
        return refused(4, u32::from(open));
    }
    let (first, second) = (&mut first[..TABLE], &mut second[..TABLE]);
    let answer = Run::new(&request, Prices { p, q }, parts, first, second).route();
    if answer.number != 0 {
        first.fill(0);
    }
    first[16 * answer.rows..].fill(0);
    second.fill(0);
    answer
}

/// The route check: number and detail.
pub fn check_route(sheet: &[u8]) -> (u32, u32) {
    let request = match sheet::read(sheet) {
        Ok(request) => request,
        Err(fault) => return (fault.number, fault.detail),
    };
    match request.never_answerable() {
        0 => (0, 0),
        open => (4, u32::from(open)),
    }
}

/// What a sheet says: 0 or the number of its refusal, with its numbers in the places.
pub fn read_sheet(sheet: &[u8], out: &mut [usize; SHEET_PLACES]) -> u32 {
    match sheet::read(sheet) {
        Ok(request) => {
            places::put(&request, out);
            out[1] = 8 * sheet.len();
            0
        }
        Err(fault) => {
            *out = [0; SHEET_PLACES];
            out[0] = fault.number as usize;
            out[1] = fault.detail as usize;
            fault.number
        }
    }
}

/// The sheet that the places say, written to the beginning of the buffer: 0, 0 and its bytes; or number
/// and detail of a refusal, and 0. A word over 32 bits is not taken.
pub fn write_sheet(places: &[usize; SHEET_PLACES], buffer: &mut [u8]) -> (u32, usize, usize) {
    if !places::words_fit(places) {
        return (u32::MAX, 0, 0);
    }
    match places::write(places, buffer) {
        Ok(bytes) => (0, 0, bytes),
        Err(fault) => (fault.number, fault.detail as usize, 0),
    }
}

/// The count: its number, and the different values of one variable over the table's first rows,
/// without 0.
pub fn count(table: &[u32], rows: usize, variable: usize) -> (u32, usize) {
    if variable > 15 || rows > LIMIT || table.len() < 16 * rows {
        return (6, 0);
    }
    let (list, _) = table[..16 * rows].as_chunks();
    (0, chain::values(list, variable))
}
