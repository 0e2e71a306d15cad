//! Typed requests: the library's operations, and what differs from what is expected of them. No other
//! file of the comparison calls the library for them.

use crate::answers::{lent, numbers};
use crate::dice::Dice;
use crate::difference::difference;
use crate::places::said;
use crate::{read_sheet, Detail, NO_ROOM, PLACES, SHEET_PLACES};
use ebbcandle::linked;
use second::sheet::{Fault, Request};
use second::typed::{self, Typed};
use second::{tables, write, Answer};

/// Reads a typed request into the first places of `out`, as a sheet is read.
pub fn read_typed(typed: &Typed, out: &mut [usize]) -> u32 {
    linked::read_typed(&typed.sheet, &typed.names, &typed.line, out)
}

/// The answer to a typed request, as that to a sheet.
pub fn answer_typed(
    typed: &Typed,
    words: &[u32],
    first: &mut [u32],
    second: &mut [u32],
    out: &mut [usize],
) -> u32 {
    let Typed { sheet, names, line } = typed;
    linked::answer_typed(sheet, names, line, words, first, second, out)
}

/// The route check of a typed request: number and detail.
pub fn check_typed(typed: &Typed) -> (u32, Detail) {
    linked::check_typed(&typed.sheet, &typed.names, &typed.line)
}

/// Place and length of the part of the line that is handed back.
pub fn faulty_name(line: &[u8], number: u32, detail: usize) -> (usize, usize) {
    let part = ebbcandle::faulty_name(line, number, detail);
    (part.start, part.len())
}

/// Number and detail of what was read.
pub fn refusal(read: &Result<Request, Fault>) -> (u32, u32) {
    match read {
        Ok(_) => (0, 0),
        Err(fault) => (fault.number, fault.detail),
    }
}

/// What differs where a typed request is read: the number, and every place. Two places behind the last
/// stay as they came.
pub fn readings(typed: &Typed, expected: &Result<Request, Fault>) -> Vec<String> {
    let mut ours = vec![usize::MAX; SHEET_PLACES + 2];
    let number = read_typed(typed, &mut ours);
    let (their_number, detail) = refusal(expected);
    let mut theirs = vec![their_number as usize, detail as usize];
    if let Ok(request) = expected {
        theirs.extend(said(request));
    }
    theirs.resize(SHEET_PLACES, 0);
    theirs.resize(SHEET_PLACES + 2, usize::MAX);
    vec![
        difference("number", &[number], &[their_number]),
        difference("numbers of the reading", &ours, &theirs),
    ]
}

/// What differs where a sound typed request is read and the sheet that says the same: nothing but the
/// detail.
pub fn same_sheet(typed: &Typed, request: &Request) -> Vec<String> {
    let mut ours = vec![0; SHEET_PLACES];
    let mut theirs = vec![0; SHEET_PLACES];
    read_typed(typed, &mut ours);
    let number = read_sheet(&write::sheet(request), &mut theirs);
    vec![
        difference("the same sheet", &[number], &[0]),
        difference("the same sheet's numbers", &ours[2..], &theirs[2..]),
    ]
}

/// Numbers to ask for a part with: those that hand one back, those next to them, and others.
const NUMBERS: [u32; 18] = [
    0,
    1,
    2,
    4,
    11,
    12,
    13,
    19,
    20,
    21,
    22,
    23,
    24,
    25,
    26,
    31,
    256 + 21,
    u32::MAX,
];

/// What differs in the part that is handed back: for this fault, and for any number at places where a
/// token begins, at the end, and behind it.
pub fn parts(line: &[u8], (number, detail): (u32, u32), dice: &mut Dice) -> Vec<String> {
    let places: Vec<usize> = typed::tokens(line).iter().map(|token| token.at).collect();
    let mut asked = vec![(number, detail as usize)];
    for _ in 0..4 {
        let place = places[dice.below(places.len())];
        asked.push((NUMBERS[dice.below(NUMBERS.len())], place));
    }
    let behind = [line.len() + 1, line.len() + 2, usize::MAX - 1, usize::MAX];
    asked.push((20 + dice.below(6) as u32, behind[dice.below(4)]));
    let differs = |(number, place): (u32, usize)| {
        let what = format!("part for {number} at {place}");
        let ours = faulty_name(line, number, place);
        difference(&what, &[ours], &[typed::part(line, number, place)])
    };
    asked.into_iter().map(differs).collect()
}

/// What differs in the answer with tables of these lengths: every number, and every word of both tables.
/// With it goes the second program's answer.
pub fn answers(
    typed: &Typed,
    words: &[u32],
    lengths: (usize, usize),
    dice: &mut Dice,
) -> (Vec<String>, Answer) {
    let (mut first, mut second) = (lent(lengths.0, dice), lent(lengths.1, dice));
    let (mut their_first, mut their_second) = (first.clone(), second.clone());
    let theirs = typed::answer_typed(typed, words, lengths.0, lengths.1);
    tables(&theirs, &mut their_first, &mut their_second);
    let beyond = dice.below(3);
    let mut our_numbers = vec![usize::MAX; PLACES + beyond];
    let mut their_numbers = numbers(&theirs);
    their_numbers.resize(PLACES + beyond, usize::MAX);
    let number = answer_typed(typed, words, &mut first, &mut second, &mut our_numbers);
    let found = vec![
        difference("number of the answer", &[number], &[theirs.number]),
        difference("numbers of the answer", &our_numbers, &their_numbers),
        difference("first table", &first, &their_first),
        difference("second table", &second, &their_second),
    ];
    (found, theirs)
}

/// What differs in the route check.
pub fn checks(typed: &Typed) -> String {
    let (number, detail) = typed::check_typed(typed);
    let theirs = (number, detail as Detail);
    difference("route check", &[check_typed(typed)], &[theirs])
}

/// Too few places are told before all else, and nothing is written.
pub fn without_room(typed: &Typed, words: &[u32], dice: &mut Dice) -> Vec<String> {
    let few = |most: usize, dice: &mut Dice| [dice.below(most), most - 1][dice.below(2)];
    let (reading, answer) = (few(SHEET_PLACES, dice), few(PLACES, dice));
    let mut out = vec![7; reading];
    let number = read_typed(typed, &mut out);
    let (first, second) = (lent(8_192, dice), lent(8_192, dice));
    let (mut our_first, mut our_second) = (first.clone(), second.clone());
    let mut numbers = vec![7; answer];
    let answered = answer_typed(typed, words, &mut our_first, &mut our_second, &mut numbers);
    vec![
        difference("without room", &[number, answered], &[NO_ROOM; 2]),
        difference("reading without room", &out, &vec![7; reading]),
        difference("answer without room", &numbers, &vec![7; answer]),
        difference("first table without room", &our_first, &first),
        difference("second table without room", &our_second, &second),
    ]
}
