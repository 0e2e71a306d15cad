//! Reads lines of expected results for requests that are answered step by step, and prints each with
//! what the second program gives for its sheet and its calls. So what is printed for a file that agrees
//! is the file: `steps <steps.txt | cmp - steps.txt`.

use second::steps::{Act, Call, Case, Lent, CALL_WORDS, STATE_BYTES};
use std::io::{BufRead, Write};

/// What the tables and the list of calls are filled with before the first call.
const FILL: u32 = 4_294_967_295;

/// Bytes from hex, `-` for none.
fn bytes(word: &str) -> Option<Vec<u8>> {
    let byte = |place| u8::from_str_radix(word.get(place..place + 2)?, 16).ok();
    match word {
        "-" => Some(Vec::new()),
        _ => (0..word.len()).step_by(2).map(byte).collect(),
    }
}

/// Numbers, `-` for none.
fn numbers<T: std::str::FromStr>(word: &str) -> Option<Vec<T>> {
    match word {
        "-" => Some(Vec::new()),
        _ => word.split(',').map(|number| number.parse().ok()).collect(),
    }
}

/// These numbers, `-` for none.
fn told<T: ToString>(numbers: &[T]) -> String {
    match numbers {
        [] => "-".to_string(),
        _ => {
            let numbers: Vec<String> = numbers.iter().map(T::to_string).collect();
            numbers.join(",")
        }
    }
}

/// A call from what is said of it.
fn call([act, step, sent, sizes]: [&str; 4]) -> Option<Call> {
    let sizes: Vec<usize> = numbers(sizes)?;
    match (act, &sizes[..]) {
        ("choose", [first, second, calls]) => Some(Call {
            act: Act::Choose,
            sizes: [*first, *second, *calls],
        }),
        ("take", [first, second]) => Some(Call {
            act: Act::Take {
                step: step.parse().ok()?,
                sent: numbers(sent)?,
            },
            sizes: [*first, *second, 0],
        }),
        _ => None,
    }
}

/// The calls of a line, from its second to its fifth field.
fn calls(fields: [&str; 4]) -> Option<Vec<Call>> {
    let [acts, step, sent, sizes] = fields.map(|field| field.split(';').collect::<Vec<_>>());
    if [step.len(), sent.len(), sizes.len()] != [acts.len(); 3] {
        return None;
    }
    let one = |i: usize| call([acts[i], step[i], sent[i], sizes[i]]);
    (0..acts.len()).map(one).collect()
}

/// Tables and a list of calls that are long enough for all calls.
fn lent(calls: &[Call]) -> Lent {
    let longest = |place: usize, least: usize| {
        let sizes = calls.iter().map(|call| call.sizes[place]);
        vec![FILL; sizes.max().unwrap_or(0).max(least)]
    };
    Lent {
        state: vec![255; STATE_BYTES],
        first: longest(0, 8_192),
        second: longest(1, 8_192),
        calls: longest(2, CALL_WORDS),
    }
}

/// The words of the list of calls that were written for a case, without the zeros behind them.
fn listed(lent: &Lent, case: &Case) -> Vec<u32> {
    match (case, lent.read().chosen(&lent.first)) {
        (Case::Calls { calls, .. }, Some(chosen)) => {
            let musts = chosen.marks.iter().filter(|must| **must).count();
            lent.calls[..calls * musts].to_vec()
        }
        _ => Vec::new(),
    }
}

/// The words of the list in the first table, if a step is taken and none was refused with 5.
fn rows(lent: &Lent) -> &[u32] {
    let state = lent.read();
    let rows = match state.answered > 0 && state.over == 0 {
        true => usize::from(state.rows),
        false => 0,
    };
    &lent.first[..16 * rows]
}

/// What comes back: number and detail of starting, and what each call gives.
fn outcome(sheet: &[u8], calls: impl FnOnce() -> Option<Vec<Call>>) -> Option<String> {
    let mut lent = lent(&[]);
    let (number, detail) = lent.start(sheet);
    let mut fields: [Vec<String>; 6] = Default::default();
    if number == 0 {
        let calls = calls()?;
        lent = self::lent(&calls);
        lent.start(sheet);
        for call in calls {
            let case = lent.call(&call);
            let told = [
                case.name().to_string(),
                case.number().to_string(),
                case.detail().to_string(),
                told(&case.values()),
                told(&listed(&lent, &case)),
                told(rows(&lent)),
            ];
            for (field, told) in fields.iter_mut().zip(told) {
                field.push(told);
            }
        }
    }
    let [cases, numbers, details, values, calls, rows] = fields.map(|field| match field[..] {
        [] => "-".to_string(),
        _ => field.join(";"),
    });
    Some(format!(
        "start={number},{detail} cases={cases} numbers={numbers} details={details} \
         values={values} calls={calls} rows={rows}"
    ))
}

/// What goes in, as a line says it, with what comes back.
fn line(line: &str) -> Option<String> {
    let names = ["sheet=", "acts=", "step=", "sent=", "sizes="];
    let fields: Vec<&str> = line.split(' ').take(names.len()).collect();
    let mut values = names
        .iter()
        .zip(&fields)
        .map(|(name, field)| field.strip_prefix(name));
    let mut value = || values.next()?;
    let sheet = bytes(value()?)?;
    let said = [value()?, value()?, value()?, value()?];
    let outcome = outcome(&sheet, || calls(said))?;
    Some(format!("{} {outcome}", fields.join(" ")))
}

fn main() -> Result<(), String> {
    let mut out = std::io::stdout().lock();
    for given in std::io::stdin().lock().lines() {
        let given = given.map_err(|error| error.to_string())?;
        let told = line(&given).ok_or(format!("no calls: {given}"))?;
        writeln!(out, "{told}").map_err(|error| error.to_string())?;
    }
    out.flush().map_err(|error| error.to_string())
}
