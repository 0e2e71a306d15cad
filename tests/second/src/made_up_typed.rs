//! Made-up typed requests from a seed: sound lines with names of all lengths, and lines, second lines
//! and sheets that are changed in each way. With them goes row data.

use crate::edited::{Way, NAMES_WAYS, WAYS};
use crate::made_up::{with_lines, Dice, Made};
use crate::sheet::{Lookup, Register, Request};
use crate::typed::{self, written, written_names, Typed};
use crate::{broken, write};

/// A typed request, the row data of its sheet's registers, what kind of case it is, and how it was
/// changed.
#[derive(Debug, Clone, PartialEq, Eq)]
pub struct Case {
    pub typed: Typed,
    pub words: Vec<u32>,
    pub kind: &'static str,
    pub changes: Vec<&'static str>,
    /// The typed request before it was changed, which is sound.
    pub before: Typed,
}

/// A kind: its name, its weight and what changes a sound case.
type Kind = (&'static str, usize, fn(&mut Dice, &mut Case, &Request));

const KINDS: &[Kind] = &[
    ("sound", 16, |_, _, _| {}),
    ("changed", 46, |d, case, _| change_line(d, case)),
    ("changed-twice", 18, |d, case, _| {
        change_line(d, case);
        change_line(d, case);
    }),
    ("names", 6, |d, case, _| change_names(d, case)),
    ("names-and-line", 4, |d, case, _| {
        change_names(d, case);
        change_line(d, case);
    }),
    ("names-exchanged", 2, |d, case, _| exchange_names(d, case)),
    ("sheet", 3, break_sheet),
    ("sheet-and-names", 2, |d, case, sheet| {
        break_sheet(d, case, sheet);
        change_names(d, case);
    }),
    ("sheet-and-line", 2, |d, case, sheet| {
        break_sheet(d, case, sheet);
        change_line(d, case);
    }),
    ("noise", 3, |d, case, _| noise(d, case)),
];

/// The names of all kinds.
pub fn kinds() -> Vec<&'static str> {
    KINDS.iter().map(|(kind, _, _)| *kind).collect()
}

/// The names of all ways in which a line, and a second line, is changed.
pub fn changes() -> Vec<&'static str> {
    let ways = WAYS.iter().chain(NAMES_WAYS);
    ways.map(|(name, _, _)| *name).collect()
}

/// The case of this seed.
pub fn case(seed: u64) -> Case {
    let mut dice = Dice::new(seed);
    let d = &mut dice;
    let made = more_given(d);
    let registers = names(d, made.request.registers.len(), &[]);
    let variables = names(d, made.request.givens.len(), &registers);
    let sheet = match d.once_in(2) {
        true => made.request.clone(),
        false => other_request(d, &made.request.registers),
    };
    let typed = Typed {
        sheet: write::sheet(&sheet),
        names: written_names(&registers),
        line: written(&made.request, &registers, &variables),
    };
    let mut case = Case {
        before: typed.clone(),
        typed,
        words: words(d, &made),
        kind: "",
        changes: Vec::new(),
    };
    let (kind, change) = d.kind(KINDS);
    case.kind = kind;
    change(d, &mut case, &sheet);
    case
}

// ---------------------------------------------------------------- sound requests

/// A sound request with its lines; at times half of its variables are given, and further ones that
/// stand in no look-up.
fn more_given(d: &mut Dice) -> Made {
    let mut made = with_lines(d);
    let givens = &mut made.request.givens;
    let value = |d: &mut Dice| *d.pick(&[1, 2, 3, 7, 10, 100, 4_294_967_295]);
    if d.once_in(5) {
        for given in givens.iter_mut().filter(|given| given.is_none()) {
            *given = d.once_in(2).then(|| value(d));
        }
    }
    if d.once_in(5) {
        let count = d.from(givens.len(), 16);
        givens.resize_with(count, || Some(value(d)));
    }
    made
}

/// Row data of these lines; at times a word is missing or left over.
fn words(d: &mut Dice, made: &Made) -> Vec<u32> {
    let mut words = write::words(&made.rows);
    match d.from(1, 24) {
        1 => drop(words.pop()),
        2 => words.push(0),
        _ => {}
    }
    words
}

/// A sound request over the same registers, of which only these are to be taken: other variables,
/// other givens, other look-ups.
fn other_request(d: &mut Dice, registers: &[Register]) -> Request {
    let variables = d.from(1, 16);
    let lookup = |d: &mut Dice| {
        let register = d.from(0, registers.len() - 1);
        let columns = registers[register].columns;
        Lookup {
            register,
            variables: (0..columns).map(|_| d.from(0, variables - 1)).collect(),
        }
    };
    let lookups: Vec<Lookup> = (0..d.from(1, 12)).map(|_| lookup(d)).collect();
    let stands = |variable| (lookups.iter()).any(|lookup| lookup.variables.contains(&variable));
    let given = |variable| (!stands(variable) || d.once_in(4)).then(|| d.from(1, 9) as u32);
    let givens = (0..variables).map(given).collect();
    Request {
        registers: registers.to_vec(),
        givens,
        lookups,
    }
}

/// Words that stores use, some of which begin as others do.
const WORDS: [&str; 24] = [
    "depot",
    "machine",
    "cond",
    "truck",
    "stock",
    "state",
    "carrier",
    "r",
    "ro",
    "row",
    "rows",
    "shelf",
    "c",
    "co",
    "con",
    "yard",
    "team",
    "link",
    "a",
    "z",
    "x",
    "oo",
    "o",
    "kkkkkkkkkkkk",
];

/// So many letters of these.
fn letters(d: &mut Dice, of: &[u8], count: usize) -> String {
    (0..count).map(|_| char::from(*d.pick(of))).collect()
}

/// A name in this style, of 1 to 12 letters.
fn name(d: &mut Dice, style: usize, stem: &str) -> String {
    let all = b"abcdefghijklmnopqrstuvwxyz";
    let length = d.from(1, 12);
    match style {
        // One letter.
        1 => letters(d, all, 1),
        // Words.
        2 | 3 => d.pick(&WORDS).to_string(),
        // Beginnings of one name of 12 letters, and those with another last letter.
        4 => match d.once_in(3) {
            true => stem[..length - 1].to_string() + &letters(d, all, 1),
            false => stem[..length].to_string(),
        },
        // 12 letters, of which one differs.
        5 => {
            let place = length - 1;
            stem[..place].to_string() + &letters(d, all, 1) + &stem[place + 1..]
        }
        // Few letters, the first and the last.
        6 => letters(d, b"az", length),
        _ => letters(d, all, length),
    }
}

/// So many different names. Once in three times one of `others` may be among them.
fn names(d: &mut Dice, count: usize, others: &[String]) -> Vec<String> {
    let style = d.from(1, 7);
    let stem = letters(d, b"abcdefghijklmnopqrstuvwxyz", 12);
    let shared = !others.is_empty() && d.once_in(3);
    let mut names: Vec<String> = Vec::new();
    let mut tries = 0;
    while names.len() < count {
        // Not every style has as many names.
        tries += 1;
        let style = if tries > 200 { 7 } else { style };
        let name = match shared && d.once_in(2) {
            true => d.pick(others).clone(),
            false => name(d, style, &stem),
        };
        if !names.contains(&name) {
            names.push(name);
        }
    }
    names
}

// ---------------------------------------------------------------- changed requests

/// Bytes changed in one of these ways, and its name. A way is tried a few times before another.
fn changed(
    d: &mut Dice,
    ways: &[(&'static str, usize, Way)],
    bytes: &[u8],
) -> (&'static str, Vec<u8>) {
    loop {
        let (name, way) = d.kind(ways);
        if let Some(other) = (0..4).find_map(|_| way(d, bytes)) {
            return (name, other);
        }
    }
}

fn change_line(d: &mut Dice, case: &mut Case) {
    let (name, line) = changed(d, WAYS, &case.typed.line);
    case.typed.line = line;
    case.changes.push(name);
}

fn change_names(d: &mut Dice, case: &mut Case) {
    let (name, names) = changed(d, NAMES_WAYS, &case.typed.names);
    case.typed.names = names;
    case.changes.push(name);
}

/// The names of the second line in another order: the same names for other registers.
fn exchange_names(d: &mut Dice, case: &mut Case) {
    let mut names: Vec<&[u8]> = case.typed.names.split(|byte| *byte == b' ').collect();
    d.shuffle(&mut names);
    case.typed.names = names.join(&b' ');
}

/// The sheet of this request, broken in some way.
fn break_sheet(d: &mut Dice, case: &mut Case, sheet: &Request) {
    case.typed.sheet = broken::any(d, sheet);
}

/// Tokens of the line and others in any order.
fn noise(d: &mut Dice, case: &mut Case) {
    let pool: [&[u8]; 12] = [
        b" ", b" ", b"=", b":", b"(", b")", b"a", b"stock", b"7", b"0", b"07", b"A",
    ];
    let tokens = typed::tokens(&case.before.line);
    let mut line = Vec::new();
    for _ in 0..d.from(0, 12) {
        let token = match d.once_in(2) {
            true => d.pick(&tokens).text,
            false => *d.pick(&pool),
        };
        line.extend(token);
    }
    case.typed.line = line;
}

// ---------------------------------------------------------------- in words

/// The case in words: its kind, its changes, both lines as text, and the line of expected results.
pub fn in_words(case: &Case) -> String {
    let Case {
        typed,
        words,
        kind,
        changes,
        ..
    } = case;
    format!(
        "kind {kind} {}\nsecond line \"{}\"\nline \"{}\"\n{}\nrow data {words:?}\n",
        changes.join(" "),
        typed.names.escape_ascii(),
        typed.line.escape_ascii(),
        typed::in_words(typed),
    )
}
