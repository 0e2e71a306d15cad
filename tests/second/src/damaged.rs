//! Changes between two calls: of the state's bytes, and of words of the tables and of the list of calls.

use crate::made_up::Dice;
use crate::route::{known, Row};
use crate::sheet::Request;
use crate::steps::{Lent, State, SHEET_BYTES, STATE_BYTES};
use std::collections::BTreeSet;

/// A change of a byte of the state, or of a word of a table or of the list of calls.
#[derive(Debug, Clone, Copy, PartialEq, Eq)]
pub enum Change {
    State { place: usize, byte: u8 },
    First { place: usize, word: u32 },
    Second { place: usize, word: u32 },
    Calls { place: usize, word: u32 },
}

impl Change {
    /// Makes the change.
    pub fn make(self, lent: &mut Lent) {
        match self {
            Change::State { place, byte } => lent.state[place] = byte,
            Change::First { place, word } => lent.first[place] = word,
            Change::Second { place, word } => lent.second[place] = word,
            Change::Calls { place, word } => lent.calls[place] = word,
        }
    }
}

/// What is handed over, and earlier states.
pub(crate) struct Sight<'a> {
    pub(crate) lent: &'a Lent,
    pub(crate) earlier: &'a [Vec<u8>],
}

/// How something is changed; `None` where that can't be.
pub(crate) type Way = fn(&mut Dice, &Sight) -> Option<Vec<Change>>;

/// Each way with its name and weight.
pub(crate) const WAYS: &[(&str, usize, Way)] = &[
    ("state-byte", 4, state_byte),
    ("sheet-bit", 2, sheet_bit),
    ("behind-the-sheet", 2, behind_the_sheet),
    ("bytes", 2, |d, s| field(d, s, bytes)),
    ("answered", 6, |d, s| field(d, s, answered)),
    ("rows", 6, |d, s| field(d, s, rows)),
    ("chosen", 5, |d, _| {
        Some(vec![state(198, *d.pick(&[0, 1, 2, 128, 255]))])
    }),
    ("pick", 6, |d, s| field(d, s, pick)),
    ("over", 1, |d, s| field(d, s, over)),
    ("earlier-state", 5, earlier_state),
    ("all-bytes", 1, |d, _| {
        Some(
            (0..STATE_BYTES)
                .map(|place| state(place, d.next() as u8))
                .collect(),
        )
    }),
    ("known-word", 8, |d, s| list_word(d, s, true)),
    ("unknown-word", 5, |d, s| list_word(d, s, false)),
    ("rows-exchanged", 4, rows_exchanged),
    ("row-repeated", 4, row_repeated),
    ("behind-the-list", 3, behind_the_list),
    ("any-first-table", 1, any_first_table),
    ("second-table", 3, |d, s| {
        let place = d.from(0, s.lent.second.len() - 1);
        Some(vec![Change::Second { place, word: 7 }])
    }),
    ("list-of-calls", 3, |d, s| {
        let place = d.from(0, s.lent.calls.len() - 1);
        Some(vec![Change::Calls { place, word: 7 }])
    }),
];

/// A byte of the state.
fn state(place: usize, byte: u8) -> Change {
    Change::State { place, byte }
}

/// A word of the first table.
fn first(place: usize, word: u32) -> Change {
    Change::First { place, word }
}

/// All bytes of a state.
fn whole(bytes: &[u8]) -> Vec<Change> {
    let places = (0..STATE_BYTES).zip(bytes);
    places.map(|(place, byte)| state(place, *byte)).collect()
}

/// Changes a field of the state.
fn field(d: &mut Dice, sight: &Sight, change: fn(&mut Dice, &mut State)) -> Option<Vec<Change>> {
    let mut state = sight.lent.read();
    change(d, &mut state);
    Some(whole(&state.to_bytes()))
}

fn state_byte(d: &mut Dice, _: &Sight) -> Option<Vec<Change>> {
    let place = d.from(0, STATE_BYTES - 1);
    Some(vec![state(place, d.next() as u8)])
}

/// The bytes of the sheet that count.
fn sheet_bytes(sight: &Sight) -> usize {
    usize::from(sight.lent.read().bytes).min(SHEET_BYTES)
}

fn sheet_bit(d: &mut Dice, sight: &Sight) -> Option<Vec<Change>> {
    let bytes = sheet_bytes(sight);
    if bytes == 0 {
        return None;
    }
    let place = d.from(0, bytes - 1);
    Some(vec![state(
        place,
        sight.lent.state[place] ^ 1 << d.from(0, 7),
    )])
}

fn behind_the_sheet(d: &mut Dice, sight: &Sight) -> Option<Vec<Change>> {
    let bytes = sheet_bytes(sight);
    if bytes == SHEET_BYTES {
        return None;
    }
    Some(vec![state(d.from(bytes, SHEET_BYTES - 1), d.next() as u8)])
}

fn bytes(d: &mut Dice, state: &mut State) {
    let bytes = state.bytes;
    let one = [bytes.wrapping_sub(1), bytes.wrapping_add(1)][d.from(0, 1)];
    state.bytes = *d.pick(&[one, 0, 193, 194, 255]);
}

/// Look-ups that are answered or not, also such as the request does not have.
fn answered(d: &mut Dice, state: &mut State) {
    let lookups = state.request().lookups.len();
    match d.from(1, 6) {
        1 => state.answered = d.next() as u16,
        2 => state.answered = u16::MAX,
        3 => state.answered = 0,
        4 => state.answered ^= 1 << d.from(lookups.min(15), 15),
        _ => state.answered ^= 1 << d.from(0, lookups.max(1) - 1),
    }
}

fn rows(d: &mut Dice, state: &mut State) {
    let rows = state.rows;
    let one = [rows.wrapping_sub(1), rows.wrapping_add(1)][d.from(0, 1)];
    state.rows = *d.pick(&[one, one, one, 0, 512, 513, 65_535, 4_096]);
}

/// Another look-up or rule, which there may be or not.
fn pick(d: &mut Dice, state: &mut State) {
    let any = |d: &mut Dice| *d.pick(&[0, 1, 2, 3, 7, 11, 12, 16, 255]);
    if !d.once_in(3) {
        state.lookup = any(d);
    }
    if d.once_in(2) {
        state.rule = any(d);
    }
    state.chosen |= d.once_in(2);
}

fn over(d: &mut Dice, state: &mut State) {
    state.over = *d.pick(&[1, 2, 12, 13, 255]);
}

fn earlier_state(d: &mut Dice, sight: &Sight) -> Option<Vec<Change>> {
    match sight.earlier {
        [] => None,
        earlier => Some(whole(&d.pick(earlier)[..STATE_BYTES])),
    }
}

// ---------------------------------------------------------------- the list

/// The rows that the state counts, up to 512.
fn list_rows(sight: &Sight) -> usize {
    usize::from(sight.lent.read().rows).min(512)
}

/// The variables that are known in the state, and those that are not.
fn variables(sight: &Sight) -> (Vec<usize>, Vec<usize>) {
    let state = sight.lent.read();
    let request = state.request();
    let known = known(&request, &state.answered(&request));
    (0..16).partition(|variable| known.contains(variable))
}

/// A word of the list, at a variable that is known or not.
fn list_word(d: &mut Dice, sight: &Sight, at_known: bool) -> Option<Vec<Change>> {
    let (known, others) = variables(sight);
    let variables = if at_known { known } else { others };
    let rows = list_rows(sight);
    if rows == 0 || variables.is_empty() {
        return None;
    }
    let place = 16 * d.from(0, rows - 1) + *d.pick(&variables);
    let word = sight.lent.first[place];
    let others = [word.wrapping_add(1), word.wrapping_sub(1), 0, 1, u32::MAX];
    Some(vec![first(place, *d.pick(&others))])
}

/// The words of a row of the list, put in the place of another.
fn put_row(row: usize, words: &[u32]) -> Vec<Change> {
    let places = (16 * row..).zip(words);
    places.map(|(place, word)| first(place, *word)).collect()
}

fn row<'a>(sight: &Sight<'a>, row: usize) -> &'a [u32] {
    &sight.lent.first[16 * row..16 * row + 16]
}

fn rows_exchanged(d: &mut Dice, sight: &Sight) -> Option<Vec<Change>> {
    let rows = list_rows(sight);
    if rows < 2 {
        return None;
    }
    let one = d.from(0, rows - 2);
    let other = if d.once_in(2) { one + 1 } else { rows - 1 };
    let changes = [
        put_row(one, row(sight, other)),
        put_row(other, row(sight, one)),
    ];
    Some(changes.concat())
}

fn row_repeated(d: &mut Dice, sight: &Sight) -> Option<Vec<Change>> {
    let rows = list_rows(sight);
    if rows < 2 {
        return None;
    }
    let one = d.from(0, rows - 2);
    Some(put_row(one + 1, row(sight, one)))
}

/// A word of the first table behind the list.
fn behind_the_list(d: &mut Dice, sight: &Sight) -> Option<Vec<Change>> {
    let length = sight.lent.first.len();
    let list = 16 * list_rows(sight);
    if list >= length {
        return None;
    }
    let near = d.from(list, (list + 20).min(length - 1));
    let far = d.from(list.max(8_180), length - 1);
    Some(vec![first(*d.pick(&[near, far]), 7)])
}

fn any_first_table(d: &mut Dice, sight: &Sight) -> Option<Vec<Change>> {
    let most = *d.pick(&[1, 4, u32::MAX as usize]);
    let places = 0..sight.lent.first.len();
    Some(
        places
            .map(|place| first(place, d.from(0, most) as u32))
            .collect(),
    )
}

// ---------------------------------------------------------------- forged states

/// A state of this sheet that no play came to, and a list for it: some look-ups are answered, the list
/// has any ascending rows with 0 at variables that are not known, and any step may be chosen.
pub(crate) fn forged(d: &mut Dice, lent: &Lent, request: &Request) -> Vec<Change> {
    let mut state = lent.read();
    let lookups = request.lookups.len();
    state.answered = (d.next() & d.next()) as u16;
    if !d.once_in(3) {
        state.answered &= (1 << lookups) - 1;
    }
    let known = known(request, &state.answered(request));
    let list = forged_list(d, request, &known);
    state.rows = list.len() as u16;
    if list.len() == 512 && d.once_in(3) {
        state.rows = *d.pick(&[513, 514, 1_024, 65_535]);
    }
    state.chosen = d.once_in(2);
    if state.chosen {
        let lookup = d.from(0, lookups - 1);
        let rules = &request.registers[request.lookups[lookup].register].rules;
        (state.lookup, state.rule) = (lookup as u8, d.from(0, rules.len() - 1) as u8);
    }
    let rows = list.iter().enumerate();
    let rows = rows.flat_map(|(place, row)| put_row(place, row));
    whole(&state.to_bytes()).into_iter().chain(rows).collect()
}

fn forged_list(d: &mut Dice, request: &Request, known: &BTreeSet<usize>) -> BTreeSet<Row> {
    let count = *d.pick(&[0, 1, 2, 3, 4, 6, 9, 40, 512, 512]);
    let values = if count > 9 { 60 } else { 3 };
    let as_given = !d.once_in(4);
    let mut row = |_| {
        let mut row = [0; 16];
        for variable in known {
            let given = request.givens[*variable].filter(|_| as_given);
            row[*variable] = given.unwrap_or_else(|| d.from(0, values) as u32);
        }
        row
    };
    // there may not be as many rows
    let rows: BTreeSet<Row> = (0..2 * count).map(&mut row).collect();
    rows.into_iter().take(count).collect()
}
