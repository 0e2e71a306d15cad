//! Typed requests: a line of expected results, and what the library and the second program give.

use crate::line::{any_lists, bytes, lists, malformed, number, values};
use crate::operations::Held;
use compare::dice::Dice;
use compare::difference::{agree, difference};
use compare::typed::{check_typed, faulty_name, readings};
use second::sheet::{Fault, Lookup, Request};
use second::typed::{self, Typed};

/// The fields of a line that has a typed request.
const TYPED: [&str; 9] = [
    "sheet",
    "names",
    "line",
    "number",
    "detail",
    "part",
    "variables",
    "given",
    "lookups",
];

/// The given values of so many variables, up to 16.
fn givens(variables: usize, given: &str) -> Result<Vec<Option<u32>>, String> {
    if variables > 16 {
        return malformed(format!("{variables} variables, over 16"));
    }
    let mut givens = vec![None; variables];
    for [variable, value] in lists::<u32, 2>(given)? {
        match givens.get_mut(variable as usize) {
            Some(place @ None) => *place = Some(value),
            _ => return malformed(format!("no variable, or given twice: {variable}")),
        }
    }
    Ok(givens)
}

/// The look-ups, up to 12, each as its register and 1 to 6 variables.
fn lookups(word: &str) -> Result<Vec<Lookup>, String> {
    let lookup = |numbers: Vec<usize>| match &numbers[..] {
        [register, variables @ ..] if (1..=6).contains(&variables.len()) => Ok(Lookup {
            register: *register,
            variables: variables.to_vec(),
        }),
        _ => malformed(format!("no look-up: {numbers:?}")),
    };
    let all = any_lists(word)?;
    if all.len() > 12 {
        return malformed(format!("{} look-ups, over 12", all.len()));
    }
    all.into_iter().map(lookup).collect()
}

/// What a line says that reading gives: the request, with the registers of the sheet, or the refusal.
fn expected(
    sheet: &[u8],
    fault: Fault,
    words: [&str; 3],
) -> Result<Result<Request, Fault>, String> {
    let [variables, given, named] = words;
    let request = Request {
        registers: second::sheet::read(sheet).map_or(Vec::new(), |request| request.registers),
        givens: givens(number(variables)?, given)?,
        lookups: lookups(named)?,
    };
    match fault.number {
        0 if fault.detail == 0 => Ok(Ok(request)),
        0 => malformed(format!("read with detail {}", fault.detail)),
        _ if words == ["0", "-", "-"] => Ok(Err(fault)),
        _ => malformed(format!("refused, and says {words:?}")),
    }
}

/// The part of a line: place and length, or `-` for an empty one.
fn part(word: &str) -> Result<Option<(usize, usize)>, String> {
    match lists::<usize, 2>(word)?[..] {
        [] => Ok(None),
        [[place, length]] if length > 0 => Ok(Some((place, length))),
        _ => malformed(format!("no part: {word:?}")),
    }
}

/// A part as a line of expected results tells it.
fn told((place, length): (usize, usize)) -> Option<(usize, usize)> {
    (length > 0).then_some((place, length))
}

/// The sheet, the second line and the line.
fn request(words: [&str; 3]) -> Result<Typed, String> {
    let [sheet, names, line] = words;
    Ok(Typed {
        sheet: bytes(sheet)?,
        names: bytes(names)?,
        line: bytes(line)?,
    })
}

/// Reading, by the library and by the second program: number, detail, the part that is handed back and
/// all that the request says. The route check of a refused request tells the same.
pub fn typed(line: &str, _: &mut Dice) -> Held {
    let [sheet, names, typed_line, told_number, detail, part_word, rest @ ..] =
        values(line, TYPED)?;
    let typed = request([sheet, names, typed_line])?;
    let fault = Fault {
        number: number(told_number)?,
        detail: number(detail)?,
    };
    let theirs = expected(&typed.sheet, fault, rest)?;
    let their_part = part(part_word)?;
    let place = fault.detail as usize;
    let our_part = faulty_name(&typed.line, fault.number, place);
    let second = typed::read_typed(&typed.sheet, &typed.names, &typed.line);
    let second_part = typed::part(&typed.line, fault.number, place);
    let mut found = readings(&typed, &theirs);
    if theirs.is_err() {
        let checked = (fault.number, place);
        found.push(difference(
            "route check",
            &[check_typed(&typed)],
            &[checked],
        ));
    }
    found.extend([
        difference("part", &[told(our_part)], &[their_part]),
        difference("the second program", &[second], &[theirs]),
        difference(
            "the second program's part",
            &[told(second_part)],
            &[their_part],
        ),
    ]);
    agree(found)?;
    Ok(Some(fault.number as usize))
}
