//! The fields of a sheet as a line of expected results has them. What is not listed is f or 0.

use crate::line::{list, malformed, number};
use second::fields::{Fields, LookupFields, RegisterFields};

/// Entries parted by this mark, each read into a place of the room.
fn entries<T>(
    word: &str,
    mark: char,
    room: &mut [T],
    entry: impl Fn(&str) -> Result<T, String>,
) -> Result<(), String> {
    if word == "-" {
        return Ok(());
    }
    let words: Vec<&str> = word.split(mark).collect();
    if words.len() > room.len() {
        return malformed(format!("{} entries, over {}", words.len(), room.len()));
    }
    for (place, word) in room.iter_mut().zip(words) {
        *place = entry(word)?;
    }
    Ok(())
}

/// A rule: up to 6 marks, b or f.
fn rule(word: &str) -> Result<[bool; 6], String> {
    let mut rule = [false; 6];
    let plain = word.bytes().all(|mark| matches!(mark, b'b' | b'f'));
    if !plain || word.is_empty() || word.len() > rule.len() {
        return malformed(format!("no rule: {word:?}"));
    }
    for (place, mark) in rule.iter_mut().zip(word.bytes()) {
        *place = mark == b'b';
    }
    Ok(rule)
}

/// A register: its columns, its number of rules, and up to 8 rules.
fn register(word: &str) -> Result<RegisterFields, String> {
    let parts: Vec<&str> = word.split(':').collect();
    let [columns, rule_count, marks] = parts[..] else {
        return malformed(format!("no register: {word:?}"));
    };
    let mut rules = [[false; 6]; 8];
    entries(marks, ',', &mut rules, rule)?;
    Ok(RegisterFields {
        columns: number(columns)?,
        rule_count: number(rule_count)?,
        rules,
    })
}

/// A look-up: its register, and up to 6 variables.
fn lookup(word: &str) -> Result<LookupFields, String> {
    let numbers = list::<usize>(word)?;
    let [register, listed @ ..] = &numbers[..] else {
        return malformed(format!("no look-up: {word:?}"));
    };
    let mut variables = [0; 6];
    match variables.get_mut(..listed.len()) {
        None => return malformed(format!("{} variables, over 6", listed.len())),
        Some(places) => places.copy_from_slice(listed),
    }
    Ok(LookupFields {
        register: *register,
        variables,
    })
}

/// 16 marks, 0 or 1.
fn given(word: &str) -> Result<[bool; 16], String> {
    let mark = |mark: u8| match mark {
        b'0' => Some(false),
        b'1' => Some(true),
        _ => None,
    };
    let marks: Option<Vec<bool>> = word.bytes().map(mark).collect();
    match marks.map(<[bool; 16]>::try_from) {
        Some(Ok(given)) => Ok(given),
        _ => malformed(format!("not 16 marks: {word:?}")),
    }
}

/// 16 values.
fn values(word: &str) -> Result<[u32; 16], String> {
    match list(word)?.try_into() {
        Ok(values) => Ok(values),
        Err(_) => malformed(format!("not 16 numbers: {word:?}")),
    }
}

/// The fields of a line: the three counts, the registers, marks and values of the variables, and the
/// look-ups.
pub fn fields(words: [&str; 7]) -> Result<Fields, String> {
    let [registers, variables, lookups, register_words, marks, numbers, lookup_words] = words;
    let mut fields = Fields {
        register_count: number(registers)?,
        variable_count: number(variables)?,
        lookup_count: number(lookups)?,
        given: given(marks)?,
        values: values(numbers)?,
        ..Fields::default()
    };
    entries(register_words, ';', &mut fields.registers, register)?;
    entries(lookup_words, ';', &mut fields.lookups, lookup)?;
    Ok(fields)
}
