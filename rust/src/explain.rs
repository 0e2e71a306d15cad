//! A refusal in words, one sentence each. The words are tested, not proved; the sheet's fields and
//! its fault are those that the proved reading gives.

use crate::fields::{fields, Field, Name};
use crate::linked::Detail;
use crate::reading::{read_sheet, LookUp, Sheet};
use crate::{answer_bytes, check_route, whole_words, Refusal, Typed, MOST_WORDS};
use std::collections::BTreeSet;

/// A register has at most this many rows.
const MOST_ROWS: u32 = 512;

/// The same words with a capital letter in front.
fn capital(words: &str) -> String {
    let (first, rest) = words.split_at(1);
    first.to_uppercase() + rest
}

/// What a sheet has of these, numbered from 0 up to the last.
fn has(what: &str, last: u32) -> String {
    match last {
        0 => format!("the sheet has {what} 0 alone"),
        last => format!("the sheet has {what}s 0 to {last}"),
    }
}

/// What is wrong with a field by the number of the refusal.
fn bad_field(number: u32, field: Field) -> Option<String> {
    let Field { name, place, .. } = field;
    let (least, most) = (field.least, field.most);
    Some(match (number, name, field.value) {
        (2, ..) => format!(
            "The sheet ends early, in {name}: the field that starts at bit {place} is not whole."
        ),
        (7, ..) => format!(
            "{}, at bit {place}, is not {most}.",
            capital(&name.to_string())
        ),
        (8, ..) => format!(
            "{}, at bit {place}, is not from {least} to {most}.",
            capital(&name.to_string())
        ),
        (9, Name::Register { lookup }, Some(value)) => format!(
            "Look-up {lookup} names register {value} at bit {place}, and {}.",
            has("register", most)
        ),
        (9, Name::Variable { lookup, column }, Some(value)) => format!(
            "Look-up {lookup}, column {column}, names variable {value} at bit {place}, and {}.",
            has("variable", most)
        ),
        (11, Name::Padding, _) => {
            format!("The padding, from bit {place} up to a full byte, is not zero.")
        }
        (11, Name::Extra, _) => {
            format!("The sheet ends before bit {place}, and a byte follows.")
        }
        (12, Name::Value { variable }, _) => {
            format!(
                "Variable {variable} is given 0 at bit {place}, and 0 means not known: a register row \
                 with 0 there is left out, but a given 0 is refused."
            )
        }
        _ => return None,
    })
}

/// What is wrong with a sheet that has this refusal, and in which field.
fn bad_sheet(refusal: Refusal, sheet: &[u8]) -> Option<String> {
    let Refusal { number, detail } = refusal;
    if number == 10 {
        return Some(format!(
            "Variable {detail} is neither given nor in a look-up."
        ));
    }
    let mut fields = fields(sheet).into_iter();
    bad_field(number, fields.find(|field| field.place == detail)?)
}

/// Which rule of the row data broke, first in reading order. The bytes are those of `data.bin`.
fn row_data(sheet: &Sheet, data: &[u8]) -> String {
    let words = whole_words(data);
    if words.len() > MOST_WORDS {
        return "The row data has over 16,384 words.".to_string();
    }
    let mut at = 0;
    for (place, register) in sheet.registers.iter().enumerate() {
        let Some(&count) = words.get(at) else {
            return format!("The row data ends early: register {place} has no row count.");
        };
        if count > MOST_ROWS {
            return format!("The row count of register {place}, {count}, is above 512.");
        }
        at += 1 + count as usize * register.columns;
        if at > words.len() {
            return format!("The row data ends early: register {place} lacks rows.");
        }
    }
    match (words.len() - at, data.len() % 4) {
        (0, bytes) => format!("Bytes are left over behind the row data's last word: {bytes}."),
        (more, _) => format!("Words are left over behind the last register's rows: {more}."),
    }
}

/// The variables that a rule must be given and that are never known, with their columns.
fn lacks(lookup: &LookUp, rule: &[bool], known: &BTreeSet<usize>) -> String {
    let columns = rule.iter().zip(&lookup.variables).enumerate();
    let lacking: Vec<String> = columns
        .filter(|(_, (must, variable))| **must && !known.contains(variable))
        .map(|(column, (_, variable))| format!("variable {variable} in column {column}"))
        .collect();
    lacking.join(" and ")
}

/// The look-ups that are never answerable, and what each of their rules lacks.
fn no_route(sheet: &Sheet, detail: Detail) -> String {
    let never = |place: usize| detail >> place & 1 == 1;
    let mut known: BTreeSet<usize> = (0..sheet.variables())
        .filter(|variable| sheet.given[*variable].is_some())
        .collect();
    for (place, lookup) in sheet.lookups.iter().enumerate() {
        if !never(place) {
            known.extend(&lookup.variables);
        }
    }
    let asked: Vec<String> = sheet
        .lookups
        .iter()
        .enumerate()
        .filter(|(place, _)| never(*place))
        .map(|(place, lookup)| {
            let rules = sheet.registers[lookup.register].rules.iter().enumerate();
            let rules: Vec<String> = rules
                .map(|(number, rule)| {
                    format!("rule {number} lacks {}", lacks(lookup, rule, &known))
                })
                .collect();
            format!("look-up {place} can never be asked ({})", rules.join("; "))
        })
        .collect();
    format!("No order of the look-ups is a route: {}.", asked.join(", "))
}

/// A refusal of the program for these contents of `sheet.bin` and `data.bin`, in one sentence. For a
/// refusal of the sheet, and for 4, the row data changes nothing. A refusal that these contents don't
/// have is said to be none of theirs.
pub fn refusal(refusal: Refusal, sheet: &[u8], data: &[u8]) -> String {
    let Refusal { number, detail } = refusal;
    let theirs = || answer_bytes(sheet, data) == Err(refusal);
    let sentence = match (number, read_sheet(sheet)) {
        (1, _) => Some("A lent table has fewer than 8,192 words.".to_string()),
        (17, _) => Some("What a call or a row sent is charged is above 1,000.".to_string()),
        (_, Err(found)) if found == refusal => bad_sheet(refusal, sheet),
        (4, Ok(said)) if check_route(sheet) == Err(refusal) => Some(no_route(&said, detail)),
        (3, Ok(said)) if theirs() => Some(row_data(&said, data)),
        (5, Ok(_)) if theirs() => Some(format!("Step {detail} of the route yields over 512 rows.")),
        _ => None,
    };
    sentence.unwrap_or_else(|| "The files are not those that were refused.".to_string())
}

/// What is wrong with a name that is over its limit, by how many letters it has.
fn over(name: &str, place: Detail) -> String {
    match name.len() {
        0 => format!("The number at byte {place} is over 4,294,967,295."),
        letters @ 13.. => format!("The name at byte {place} has {letters} letters, over 12."),
        _ => format!("`{name}`, at byte {place}, is the 17th variable or begins the 13th look-up."),
    }
}

/// What is wrong with a line that has this refusal, with the very word where it is a name.
fn bad_line(refusal: Refusal, request: &Typed) -> Option<String> {
    let Refusal { number, detail } = refusal;
    let name = request.part(refusal);
    Some(match (number, name) {
        (12, _) => format!("A given value, at byte {detail}, is 0, and 0 means not known."),
        (20, _) => format!("At byte {detail} stands a byte that no token has, or a leading zero."),
        (21, _) if detail == request.line.len() => "The line ends out of place.".to_string(),
        (21, "") => format!("What begins at byte {detail} is out of place."),
        (21, name) => format!("The name `{name}`, at byte {detail}, is out of place."),
        (22, name) => format!("`{name}`, at byte {detail}, is the name of no register."),
        (23, _) => format!(
            "The look-up that closes at byte {detail} has not one variable for each column."
        ),
        (24, name) => over(name, detail),
        (25, name) => format!("`{name}` is given twice, again at byte {detail}."),
        _ => return None,
    })
}

/// A refusal of a typed request, with these bytes of row data, in one sentence. One that the request
/// does not have is said to be none of its.
pub fn typed(refusal: Refusal, request: &Typed, data: &[u8]) -> String {
    // a short table is told before all that is wrong with the sheet and the lines
    if refusal.number == 1 {
        return self::refusal(refusal, request.sheet, data);
    }
    let sentence = match (read_sheet(request.sheet), request.read()) {
        (Err(_), _) => return self::refusal(refusal, request.sheet, data),
        (_, Err(found)) if found != refusal => None,
        (_, Err(Refusal { number: 31, .. })) => {
            Some("The second line is not one name for each register.".to_string())
        }
        (_, Err(_)) => bad_line(refusal, request),
        (_, Ok(said)) => return self::refusal(refusal, &said.to_bytes().unwrap_or_default(), data),
    };
    sentence.unwrap_or_else(|| "The lines are not those that were refused.".to_string())
}

/// A refusal of choosing or taking a step, in one sentence. One of starting is that of a route check, which
/// [`refusal`] says.
pub fn step(refusal: Refusal) -> String {
    let Refusal { number, detail } = refusal;
    match number {
        1 => "A lent table has fewer than 8,192 words, or the list of calls fewer than 3,072."
            .to_string(),
        5 => format!("Step {detail} yields over 512 rows, and no step follows."),
        15 => "The step is not yet chosen, or the request has no such step.".to_string(),
        16 => "A row was sent that no call asked for.".to_string(),
        32 => "What was sent is not whole rows, or is over 512 rows.".to_string(),
        _ => "No step is refused so.".to_string(),
    }
}
