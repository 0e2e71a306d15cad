//! What comes back: the answer, both lent tables, the route check and the count.

use crate::route::{Prices, Row, Step};
use crate::sheet::{Fault, Request};
use crate::{data, route, sheet};
use std::collections::BTreeSet;

/// A lent table has at least this many words.
pub const TABLE: usize = 8_192;

/// The list that the tool builds holds at most this many rows at every step.
pub const LIMIT: usize = 512;

/// A call, and a row sent, is charged at most this.
pub const MOST_CHARGED: u64 = 1_000;

/// p or q is above its limit.
pub const OVERCHARGED: u32 = 17;

/// The answer, or a refusal: then only `number` and `detail` can be other than zero.
#[derive(Debug, Clone, PartialEq, Eq)]
pub struct Answer {
    pub number: u32,
    pub detail: u32,
    pub steps: Vec<Step>,
    /// The total of the steps' calls.
    pub calls: u64,
    /// The total of the steps' charges.
    pub charge: u64,
    /// The list at the end, ascending.
    pub rows: Vec<Row>,
    /// The number of variables of the sheet, for printing.
    pub variables: usize,
}

impl Answer {
    /// A refusal with its detail.
    pub fn refused(number: u32, detail: u32) -> Answer {
        Answer {
            number,
            detail,
            steps: Vec::new(),
            calls: 0,
            charge: 0,
            rows: Vec::new(),
            variables: 0,
        }
    }
}

/// A set of look-ups as bits, bit i for look-up i.
fn as_bits(lookups: &BTreeSet<usize>) -> u32 {
    lookups.iter().map(|lookup| 1 << lookup).sum()
}

/// Whether p or q is above its limit.
fn overcharged(prices: Prices) -> bool {
    prices.p > MOST_CHARGED || prices.q > MOST_CHARGED
}

/// The whole operation, where calls alone are charged. The lengths are those of the two lent tables.
pub fn answer(sheet: &[u8], words: &[u32], first_len: usize, second_len: usize) -> Answer {
    answer_charged(sheet, words, Prices::CALLS, first_len, second_len)
}

/// The whole operation at these prices. The lengths are those of the two lent tables.
pub fn answer_charged(
    sheet: &[u8],
    words: &[u32],
    prices: Prices,
    first_len: usize,
    second_len: usize,
) -> Answer {
    let read = || sheet::read(sheet);
    answered(read, words, prices, first_len, second_len)
}

/// The answer to what is read: a request, or its fault. Reading it comes behind 1 and 17.
pub(crate) fn answered(
    read: impl Fn() -> Result<Request, Fault>,
    words: &[u32],
    prices: Prices,
    first_len: usize,
    second_len: usize,
) -> Answer {
    if first_len < TABLE || second_len < TABLE {
        return Answer::refused(1, 0);
    }
    if overcharged(prices) {
        return Answer::refused(OVERCHARGED, 0);
    }
    let request = match read() {
        Ok(request) => request,
        Err(fault) => return Answer::refused(fault.number, fault.detail),
    };
    let Some(registers) = data::read(&request, words) else {
        return Answer::refused(3, 0);
    };
    let never = route::never_answerable(&request);
    if !never.is_empty() {
        return Answer::refused(4, as_bits(&never));
    }
    match route::chain(&request, &registers, prices, LIMIT) {
        Err(step) => Answer::refused(5, step),
        Ok((steps, list)) => Answer {
            number: 0,
            detail: 0,
            calls: steps.iter().map(|step| step.calls).sum(),
            charge: steps.iter().map(|step| step.charge).sum(),
            steps,
            rows: list.into_iter().collect(),
            variables: request.givens.len(),
        },
    }
}

/// Makes both lent tables what they are after this answer. Any answer and any tables are taken:
/// only the first 8,192 words of a table ever change, and only under the numbers 0 and 5.
pub fn tables(answer: &Answer, first: &mut [u32], second: &mut [u32]) {
    if answer.number != 0 && answer.number != 5 {
        return;
    }
    for word in first.iter_mut().take(TABLE) {
        *word = 0;
    }
    for word in second.iter_mut().take(TABLE) {
        *word = 0;
    }
    if answer.number == 0 {
        let values = answer.rows.iter().flatten();
        for (word, value) in first.iter_mut().take(TABLE).zip(values) {
            *word = *value;
        }
    }
}

/// The route check: number and detail.
pub fn check_route(sheet: &[u8]) -> (u32, u32) {
    checked(sheet::read(sheet))
}

/// The route check of what was read: a request, or its fault.
pub(crate) fn checked(read: Result<Request, Fault>) -> (u32, u32) {
    let request = match read {
        Ok(request) => request,
        Err(fault) => return (fault.number, fault.detail),
    };
    let never = route::never_answerable(&request);
    if never.is_empty() {
        (0, 0)
    } else {
        (4, as_bits(&never))
    }
}

/// The count: its number, and the different values of one variable over the table's first rows.
/// 0 means "not known" and is left out, whatever the variable and the table.
pub fn count(table: &[u32], rows: usize, variable: usize) -> (u32, u32) {
    if variable > 15 || rows > LIMIT || table.len() < 16 * rows {
        return (6, 0);
    }
    let mut values: BTreeSet<u32> = (0..rows).map(|row| table[16 * row + variable]).collect();
    values.remove(&0);
    (0, values.len() as u32)
}

/// The steps of any route at these prices, given as look-ups with their rules in order, with no limit
/// on rows. The beginning of a route is taken too. `None` where p or q, the sheet or the row data is
/// refused, or a look-up or rule can't be used at its place.
pub fn route_steps(
    sheet: &[u8],
    words: &[u32],
    prices: Prices,
    picks: &[(usize, usize)],
) -> Option<Vec<Step>> {
    if overcharged(prices) {
        return None;
    }
    let request = sheet::read(sheet).ok()?;
    let registers = data::read(&request, words)?;
    route::steps_of(&request, &registers, prices, picks)
}
