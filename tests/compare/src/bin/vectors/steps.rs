//! Requests that are answered step by step: a line of expected results, and what the library and the
//! second program give.

use crate::line::{bytes, list, malformed, number, values};
use crate::operations::Held;
use crate::tables::{holding, lent as lent_words};
use compare::dice::Dice;
use compare::difference::{agree, difference};
use compare::steps::{call, code, differences, numbers, start};
use second::steps::{Act, Call, Lent, CALL_WORDS, STATE_BYTES};

/// The fields of a line that has a play.
const STEPS: [&str; 12] = [
    "sheet", "acts", "step", "sent", "sizes", "start", "cases", "numbers", "details", "values",
    "calls", "rows",
];

/// A lent table has so many words; what stands beyond stays.
const TABLE: usize = 8_192;

/// Places behind the numbers of a case, which stay.
const BEYOND: usize = 2;

/// What a line says of one call: its case with number, detail and values, the words of the list of calls,
/// and those of the list.
struct Told {
    case: usize,
    number: usize,
    detail: usize,
    values: Vec<usize>,
    calls: Vec<u32>,
    rows: Vec<u32>,
}

/// The entries of fields that have one for each call, call by call.
fn entries<const N: usize>(fields: [&str; N]) -> Result<Vec<[&str; N]>, String> {
    let split = fields.map(|field| field.split(';').collect::<Vec<_>>());
    let count = split[0].len();
    if let Some(other) = split.iter().find(|entries| entries.len() != count) {
        return malformed(format!("{count} entries, and {}", other.len()));
    }
    let entry = |place| std::array::from_fn(|field| split[field][place]);
    Ok((0..count).map(entry).collect())
}

/// A call, from its act, step number, words and sizes.
fn one_call([act, step, sent, sizes]: [&str; 4]) -> Result<Call, String> {
    let sizes = list(sizes)?;
    let (act, sizes) = match (act, &sizes[..]) {
        ("choose", [first, second, calls]) if step == "-" && sent == "-" => {
            (Act::Choose, [*first, *second, *calls])
        }
        ("take", [first, second]) => {
            let (step, sent) = (number(step)?, list(sent)?);
            (Act::Take { step, sent }, [*first, *second, 0])
        }
        _ => return malformed(format!("no call: {act} {step} {sizes:?}")),
    };
    Ok(Call { act, sizes })
}

/// What is told of a call.
fn one_told([case, told, detail, values, calls, rows]: [&str; 6]) -> Result<Told, String> {
    let values: Vec<usize> = list(values)?;
    let count = match case {
        "calls" => 3,
        "taken" => 6,
        _ => 0,
    };
    match code(case) {
        Some(code) if values.len() == count => Ok(Told {
            case: code,
            number: number(told)?,
            detail: number(detail)?,
            values,
            calls: list(calls)?,
            rows: list(rows)?,
        }),
        Some(_) => malformed(format!("not {count} values: {values:?}")),
        None => malformed(format!("no case: {case:?}")),
    }
}

impl Told {
    /// The numbers of the case as the library puts them, and places behind them that stay.
    fn places(&self) -> Vec<usize> {
        let mut places = vec![self.number, self.detail, self.case];
        places.extend(&self.values);
        places.resize(9, 0);
        places.resize(9 + BEYOND, usize::MAX);
        places
    }

    /// Both tables and the list of calls after the call; the state stays as it was.
    fn after(&self, before: &Lent) -> Lent {
        let mut after = before.clone();
        let taken = code("taken") == Some(self.case);
        if taken || self.number == 5 {
            let rows = if taken { &self.rows[..] } else { &[] };
            after.first = holding(&before.first, rows, TABLE);
            after.second = holding(&before.second, &[], TABLE);
        }
        if code("calls") == Some(self.case) {
            after.calls = holding(&before.calls, &self.calls, CALL_WORDS);
        }
        after
    }
}

/// The words of the list in the first table, if a step is taken and none was refused with 5.
fn listed(lent: &Lent) -> &[u32] {
    let state = lent.read();
    match state.answered > 0 && state.over == 0 {
        true => &lent.first[..16 * usize::from(state.rows)],
        false => &[],
    }
}

/// What is lent: tables that are long enough for all calls, filled with noise.
fn lent(calls: &[Call], dice: &mut Dice) -> Result<Lent, String> {
    let mut longest = |place: usize, least: usize| {
        let sizes = calls.iter().map(|call| call.sizes[place]);
        let length = sizes.max().unwrap_or(0).max(least);
        lent_words(&length.to_string(), dice)
    };
    Ok(Lent {
        first: longest(0, TABLE)?,
        second: longest(1, TABLE)?,
        calls: longest(2, CALL_WORDS)?,
        state: vec![255; STATE_BYTES + BEYOND],
    })
}

/// A call by the library and by the second program: every number, the state, which is the second
/// program's, and every word.
fn hold(one: &Call, told: &Told, ours: &mut Lent, second: &mut Lent) -> Vec<String> {
    let mut theirs = told.after(second);
    let mut out = vec![usize::MAX; 9 + BEYOND];
    let given = call(one, ours, &mut out);
    let case = second.call(one);
    theirs.state = second.state.clone();
    let mut places = numbers(&case);
    places.resize(9 + BEYOND, usize::MAX);
    let mut found = vec![
        difference("number", &[given as usize], &[told.number]),
        difference("numbers", &out, &told.places()),
    ];
    found.extend(differences(ours, &theirs));
    found.extend([
        difference("rows", listed(ours), &told.rows),
        difference("the second program", &places, &told.places()),
        difference(
            "the second program's first table",
            &second.first,
            &theirs.first,
        ),
        difference(
            "the second program's second table",
            &second.second,
            &theirs.second,
        ),
        difference(
            "the second program's list of calls",
            &second.calls,
            &theirs.calls,
        ),
    ]);
    found
}

/// What a line says: the sheet, number and detail of starting, and each call with what is told of it.
struct Line {
    sheet: Vec<u8>,
    start: (usize, usize),
    calls: Vec<Call>,
    told: Vec<Told>,
}

/// Reads a line. Where starting is refused it has no calls.
fn read(line: &str) -> Result<Line, String> {
    let [sheet, acts, step, sent, sizes, start, rest @ ..] = values(line, STEPS)?;
    let [number, detail] = list::<usize>(start)?[..] else {
        return malformed(format!("no start: {start:?}"));
    };
    let mut read = Line {
        sheet: bytes(sheet)?,
        start: (number, detail),
        calls: Vec::new(),
        told: Vec::new(),
    };
    let made = [acts, step, sent, sizes];
    if number != 0 {
        return match (made, rest) {
            (["-", "-", "-", "-"], ["-", "-", "-", "-", "-", "-"]) => Ok(read),
            _ => malformed("refused, and has calls".to_string()),
        };
    }
    let (made, rest) = (entries(made)?, entries(rest)?);
    if made.len() != rest.len() {
        return malformed(format!("{} calls, and {} cases", made.len(), rest.len()));
    }
    read.calls = made.into_iter().map(one_call).collect::<Result<_, _>>()?;
    read.told = rest.into_iter().map(one_told).collect::<Result<_, _>>()?;
    Ok(read)
}

/// What differs where the request is started; the state is the second program's.
fn hold_start(line: &Line, ours: &mut Lent, second: &mut Lent) -> Vec<String> {
    let (number, detail) = start(&line.sheet, &mut ours.state);
    let told = (number as usize, detail);
    let (number, detail) = second.start(&line.sheet);
    let second_told = (number as usize, detail as usize);
    vec![
        difference("start", &[told], &[line.start]),
        difference("state", &ours.state, &second.state),
        difference("the second program's start", &[second_told], &[line.start]),
    ]
}

/// Starting, and each call of a play, by the library and by the second program.
pub fn steps(line: &str, dice: &mut Dice) -> Held {
    let line = read(line)?;
    let mut ours = lent(&line.calls, dice)?;
    let mut second = ours.clone();
    agree(hold_start(&line, &mut ours, &mut second))?;
    let mut last = line.start.0;
    for ((call, told), place) in line.calls.iter().zip(&line.told).zip(1..) {
        let found = hold(call, told, &mut ours, &mut second);
        agree(found).map_err(|text| format!("call {place}: {text}"))?;
        if told.number > 0 {
            last = told.number;
        }
    }
    Ok(Some(last))
}
