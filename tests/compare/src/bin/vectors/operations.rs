//! The files that are known, and for each the function that holds the library to one of its lines.
//! Another file needs an entry and such a function.

use crate::fields::fields;
use crate::line::{bytes, list, lists, number, values};
use crate::steps::steps;
use crate::tables::{holding, lent, lent_bytes};
use crate::typed::typed;
use compare::answers::numbers;
use compare::dice::Dice;
use compare::difference::{agree, difference};
use compare::places::places;
use compare::written::differences;
use compare::PLACES;
use second::fields::Outcome;
use second::Prices;
use std::iter::repeat;

/// The number that both give, `None` for a line that is left out, or what is malformed or differs.
pub type Held = Result<Option<usize>, String>;

/// Holds the library to a line, with noise from these dice in what is lent.
pub type Hold = fn(&str, &mut Dice) -> Held;

/// The files that are known.
pub const KNOWN: &[(&str, Hold)] = &[
    ("answer-i-ii.txt", answer),
    ("check-i-ii.txt", check_route),
    ("count-ii.txt", count),
    ("charges.txt", answer_charged),
    ("write.txt", write),
    ("typed.txt", typed),
    ("steps.txt", steps),
    ("answer-i.txt", answer_without_zeros),
    ("check-i.txt", check_route_without_zeros),
];

/// Why lines of a file are left out.
pub const LEFT_OUT: &str =
    "0 may play a part in them, and the file is from before 0 meant not known";

/// The fields of a line that has an answer.
const ANSWER: [&str; 9] = [
    "sheet", "words", "first", "second", "number", "detail", "steps", "calls", "rows",
];

/// The fields of a line that has an answer with p and q.
const CHARGED: [&str; 12] = [
    "sheet", "words", "first", "second", "p", "q", "number", "detail", "steps", "calls", "charge",
    "rows",
];

/// The fields of a line that has a route check.
const CHECK: [&str; 3] = ["sheet", "number", "detail"];

/// A lent table of the answer has so many words; what stands beyond stays.
const TABLE: usize = 8_192;

/// Places behind the answer's numbers, which stay.
const BEYOND: usize = 3;

/// What a line says that the answer gives. A step is look-up, rule, calls, rows after it, rows sent and
/// charge.
struct Answer {
    number: usize,
    detail: usize,
    steps: Vec<[usize; 6]>,
    calls: usize,
    charge: usize,
    rows: Vec<[u32; 16]>,
}

impl Answer {
    /// The answer's numbers as the library puts them, in places that held 18,446,744,073,709,551,615.
    fn places(&self) -> Vec<usize> {
        let counts = [self.steps.len(), self.calls, self.rows.len(), self.charge];
        let mut places = [&[self.number, self.detail][..], &counts].concat();
        places.extend(self.steps.iter().flatten());
        let end = places.len().max(PLACES);
        places.resize(end, 0);
        places.resize(end + BEYOND, usize::MAX);
        places
    }

    /// Both tables after the call.
    fn tables(&self, first: &[u32], second: &[u32]) -> (Vec<u32>, Vec<u32>) {
        match self.number {
            0 | 5 => (
                holding(first, &self.rows.concat(), TABLE),
                holding(second, &[], TABLE),
            ),
            _ => (first.to_vec(), second.to_vec()),
        }
    }
}

/// Holds an answer of the library to this: every number, and every word of both tables.
fn hold(
    theirs: &Answer,
    (mut first, mut second): (Vec<u32>, Vec<u32>),
    call: impl FnOnce(&mut [u32], &mut [u32], &mut [usize]) -> u32,
) -> Vec<String> {
    let (their_first, their_second) = theirs.tables(&first, &second);
    let mut places = vec![usize::MAX; PLACES + BEYOND];
    let told = call(&mut first, &mut second, &mut places);
    vec![
        difference("number", &[told as usize], &[theirs.number]),
        difference("numbers", &places, &theirs.places()),
        difference("first table", &first, &their_first),
        difference("second table", &second, &their_second),
    ]
}

/// The answer: every number, and every word of both tables. The charge is the calls. A line does not say
/// the rows sent: those are the second program's.
fn answer(line: &str, dice: &mut Dice) -> Held {
    let [sheet, words, first, second, told, detail, steps, calls, rows] = values(line, ANSWER)?;
    let (sheet, words) = (bytes(sheet)?, list::<u32>(words)?);
    let lent = (lent(first, dice)?, lent(second, dice)?);
    let steps: Vec<[usize; 4]> = lists(steps)?;
    let sent = second::answer(&sheet, &words, lent.0.len(), lent.1.len()).steps;
    let sent = sent.iter().map(|step| step.sent as usize);
    let with = |(step, sent): ([usize; 4], usize)| {
        let [lookup, rule, calls, rows] = step;
        [lookup, rule, calls, rows, sent, calls]
    };
    let theirs = Answer {
        number: number(told)?,
        detail: number(detail)?,
        steps: steps
            .into_iter()
            .zip(sent.chain(repeat(0)))
            .map(with)
            .collect(),
        calls: number(calls)?,
        charge: number(calls)?,
        rows: lists(rows)?,
    };
    agree(hold(&theirs, lent, |first, second, out| {
        compare::answer(&sheet, &words, first, second, out)
    }))?;
    Ok(Some(theirs.number))
}

/// The answer with p and q, by the library and by the second program: every number, and every word of
/// both tables.
fn answer_charged(line: &str, dice: &mut Dice) -> Held {
    let [sheet, words, first, second, p, q, told, detail, steps, calls, charge, rows] =
        values(line, CHARGED)?;
    let theirs = Answer {
        number: number(told)?,
        detail: number(detail)?,
        steps: lists(steps)?,
        calls: number(calls)?,
        charge: number(charge)?,
        rows: lists(rows)?,
    };
    let (sheet, words) = (bytes(sheet)?, list::<u32>(words)?);
    let (p, q): (usize, usize) = (number(p)?, number(q)?);
    let lent = (lent(first, dice)?, lent(second, dice)?);
    let prices = Prices {
        p: p as u64,
        q: q as u64,
    };
    let second = second::answer_charged(&sheet, &words, prices, lent.0.len(), lent.1.len());
    let mut found = hold(&theirs, lent, |first, second, out| {
        compare::answer_charged(&sheet, &words, p, q, first, second, out)
    });
    let places = [numbers(&second), vec![usize::MAX; BEYOND]].concat();
    found.extend([
        difference("the second program", &places, &theirs.places()),
        difference("the second program's rows", &second.rows, &theirs.rows),
    ]);
    agree(found)?;
    Ok(Some(theirs.number))
}

/// The route check: number and detail.
fn check_route(line: &str, _: &mut Dice) -> Held {
    let [sheet, told, detail] = values(line, CHECK)?;
    let theirs: (usize, usize) = (number(told)?, number(detail)?);
    let ours = compare::check_route(&bytes(sheet)?);
    agree(vec![
        difference("number", &[ours.0 as usize], &[theirs.0]),
        difference("detail", &[ours.1], &[theirs.1]),
    ])?;
    Ok(Some(theirs.0))
}

/// The count: its number, and the different values.
fn count(line: &str, _: &mut Dice) -> Held {
    let names = ["table", "rows", "variable", "number", "values"];
    let [table, rows, variable, told, different] = values(line, names)?;
    let theirs: (usize, usize) = (number(told)?, number(different)?);
    let ours = compare::count(&list::<u32>(table)?, number(rows)?, number(variable)?);
    agree(vec![
        difference("number", &[ours.0 as usize], &[theirs.0]),
        difference("values", &[ours.1], &[theirs.1]),
    ])?;
    Ok(Some(theirs.0))
}

/// The fields of a line that has a sheet to write.
const WRITE: [&str; 11] = [
    "registers",
    "variables",
    "lookups",
    "register",
    "given",
    "value",
    "lookup",
    "length",
    "number",
    "detail",
    "bytes",
];

/// Writing, by the library and by the second program: number, detail, the bytes written, and every
/// byte of the buffer.
fn write(line: &str, dice: &mut Dice) -> Held {
    let [registers, variables, lookups, register, given, value, lookup, length, told, detail, sheet] =
        values(line, WRITE)?;
    let fields = fields([
        registers, variables, lookups, register, given, value, lookup,
    ])?;
    let sheet = bytes(sheet)?;
    let theirs = Outcome {
        number: number(told)?,
        detail: number(detail)?,
        bytes: sheet.len(),
    };
    let before = lent_bytes(length, dice)?;
    let behind = before.get(sheet.len()..).unwrap_or_default();
    let after = [&sheet, behind].concat();
    let mut found = differences(&places(&fields, dice), &before, theirs, &after);
    let mut buffer = before;
    let second = second::fields::write(&fields, &mut buffer);
    found.push(difference("the second program", &[second], &[theirs]));
    found.push(difference("the second program's buffer", &buffer, &after));
    agree(found)?;
    Ok(Some(theirs.number as usize))
}

/// Whether 32 bits in a row are zero. Without them no given value is 0.
fn may_give_zero(sheet: &[u8]) -> bool {
    let mut bits = sheet
        .iter()
        .flat_map(|byte| (0..8).rev().map(move |place| byte >> place & 1));
    let mut zeros = 0;
    bits.any(|bit| {
        zeros = if bit == 0 { zeros + 1 } else { 0 };
        zeros == 32
    })
}

/// The answer, where neither a given value nor a word of the row data is 0.
fn answer_without_zeros(line: &str, dice: &mut Dice) -> Held {
    let [sheet, words, ..] = values(line, ANSWER)?;
    if may_give_zero(&bytes(sheet)?) || list::<u32>(words)?.contains(&0) {
        return Ok(None);
    }
    answer(line, dice)
}

/// The route check, where no given value is 0.
fn check_route_without_zeros(line: &str, dice: &mut Dice) -> Held {
    let [sheet, ..] = values(line, CHECK)?;
    if may_give_zero(&bytes(sheet)?) {
        return Ok(None);
    }
    check_route(line, dice)
}
