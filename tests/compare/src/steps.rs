//! Requests that are answered step by step: the library's operations, and what differs from what is
//! expected of them. No other file of the comparison calls the library for them.

use crate::dice::Dice;
use crate::difference::difference;
use crate::{answer, NO_ROOM, PLACES};
use ebbcandle::linked::{self, Detail, STATE_BYTES, TURN_PLACES};
use second::data::Rows;
use second::made_up_steps::Play;
use second::sheet::Request;
use second::steps::{Act, Call, Case, Lent};

/// Starts a request by the library: number and detail.
pub fn start(sheet: &[u8], state: &mut [u8]) -> (u32, Detail) {
    linked::start(sheet, state)
}

/// Runs a call by the library: its number. The numbers of the case go to `out`.
pub fn call(call: &Call, lent: &mut Lent, out: &mut [usize]) -> u32 {
    let [first, second, calls] = call.sizes;
    let (state, calls) = (&mut lent.state[..], &mut lent.calls[..calls]);
    let (first, second) = (&mut lent.first[..first], &mut lent.second[..second]);
    match &call.act {
        Act::Choose => linked::choose(state, first, second, calls, out),
        Act::Take { step, sent } => linked::take(sent, *step as usize, state, first, second, out),
    }
}

/// The number that stands for a case.
pub fn code(name: &str) -> Option<usize> {
    let names = ["refused", "calls", "all-taken", "taken", "already"];
    names.iter().position(|other| *other == name)
}

/// The numbers of a case as the library puts them.
pub fn numbers(case: &Case) -> Vec<usize> {
    let code = code(case.name()).expect("a case");
    let mut numbers = vec![case.number() as usize, case.detail() as usize, code];
    numbers.extend(case.values().iter().map(|value| *value as usize));
    numbers.resize(TURN_PLACES, 0);
    numbers
}

/// What differs in what was handed over.
pub fn differences(ours: &Lent, theirs: &Lent) -> Vec<String> {
    vec![
        difference("state", &ours.state, &theirs.state),
        difference("first table", &ours.first, &theirs.first),
        difference("second table", &ours.second, &theirs.second),
        difference("list of calls", &ours.calls, &theirs.calls),
    ]
}

/// What differs where a request is started: number, detail and every byte of the state.
pub fn starts(sheet: &[u8], ours: &mut Lent, theirs: &mut Lent) -> (Vec<String>, u32) {
    let (number, detail) = theirs.start(sheet);
    let told = start(sheet, &mut ours.state);
    let mut found = vec![difference("start", &[told], &[(number, detail as Detail)])];
    found.extend(differences(ours, theirs));
    (found, number)
}

/// What differs in a call: the number, every number of the case, the state, and every word. Places
/// behind the last stay as they came. With it goes the second program's case.
pub fn calls(
    one: &Call,
    ours: &mut Lent,
    theirs: &mut Lent,
    dice: &mut Dice,
) -> (Vec<String>, Case) {
    let fill = usize::MAX - dice.below(2);
    let mut out = vec![fill; TURN_PLACES + dice.below(3)];
    let number = call(one, ours, &mut out);
    let case = theirs.call(one);
    let mut expected = numbers(&case);
    expected.resize(out.len(), fill);
    let mut found = vec![
        difference("number", &[number], &[case.number()]),
        difference("numbers", &out, &expected),
    ];
    found.extend(differences(ours, theirs));
    (found, case)
}

/// Fewer than so many, at times by one.
fn few(most: usize, dice: &mut Dice) -> usize {
    [dice.below(most), most - 1][dice.below(2)]
}

/// A state with too few bytes, and too few places, are told before all else, and nothing is written.
pub fn without_room(one: &Call, lent: &Lent, dice: &mut Dice) -> Vec<String> {
    let mut found = Vec::new();
    let (bytes, places) = (few(STATE_BYTES, dice), few(TURN_PLACES, dice));
    for (bytes, places) in [(bytes, TURN_PLACES), (STATE_BYTES, places), (bytes, places)] {
        let mut before = lent.clone();
        before.state.truncate(bytes);
        let (mut ours, mut out) = (before.clone(), vec![7; places]);
        let number = call(one, &mut ours, &mut out);
        found.push(difference("without room", &[number], &[NO_ROOM]));
        found.push(difference("places without room", &out, &vec![7; places]));
        found.extend(differences(&ours, &before));
    }
    found
}

/// The same where a request is started: the detail stays too.
pub fn start_without_room(sheet: &[u8], lent: &Lent, dice: &mut Dice) -> Vec<String> {
    let before = &lent.state[..few(STATE_BYTES, dice)];
    let mut state = before.to_vec();
    let told = start(sheet, &mut state);
    vec![
        difference("start without room", &[told], &[(NO_ROOM, Detail::MAX)]),
        difference("state without room", &state, before),
    ]
}

// ---------------------------------------------------------------- the whole answer

/// The rows of a register that a list of calls asks for, in any order and with repeats.
fn served(rows: &Rows, marks: &[bool], calls: usize, listed: &[u32], dice: &mut Dice) -> Vec<u32> {
    let musts = marks.iter().filter(|must| **must).count();
    let asked = |row: &&Vec<u32>| {
        let columns = row.iter().zip(marks).filter(|(_, must)| **must);
        let given: Vec<u32> = columns.map(|(value, _)| *value).collect();
        match musts {
            0 => calls > 0,
            _ => listed[..calls * musts]
                .chunks(musts)
                .any(|call| call == given),
        }
    };
    let mut lines: Vec<&Vec<u32>> = rows.iter().filter(asked).collect();
    if !lines.is_empty() {
        for _ in 0..dice.below(6).min(512 - lines.len()) {
            lines.push(lines[dice.below(lines.len())]);
        }
    }
    for place in (1..lines.len()).rev() {
        lines.swap(place, dice.below(place + 1));
    }
    lines.into_iter().flatten().copied().collect()
}

/// What a play of the library comes to where each delivery is right, as the numbers of an answer.
fn played(request: &Request, registers: &[Rows], lent: &mut Lent, dice: &mut Dice) -> Vec<usize> {
    let sizes = [lent.first.len(), lent.second.len(), lent.calls.len()];
    let (mut steps, mut rows) = (Vec::new(), 1);
    loop {
        let mut out = [0; TURN_PLACES];
        let act = Act::Choose;
        call(&Call { act, sizes }, lent, &mut out);
        let [0, 0, 1, lookup, rule, calls, ..] = out else {
            break;
        };
        let register = request.lookups[lookup].register;
        let marks = &request.registers[register].rules[rule];
        let sent = served(&registers[register], marks, calls, &lent.calls, dice);
        let step = steps.len() as u64 + 1;
        let act = Act::Take { step, sent };
        call(&Call { act, sizes }, lent, &mut out);
        match out {
            [0, 0, 3, step @ ..] => {
                rows = step[3];
                steps.push(step);
            }
            [number, detail, ..] => return vec![number, detail],
        }
    }
    let total = |place: usize| steps.iter().map(|step| step[place]).sum();
    let mut numbers = vec![0, 0, steps.len(), total(2), rows, total(5)];
    numbers.extend(steps.iter().flatten());
    numbers
}

/// What differs between the library's whole answer and what its play comes to where each delivery is
/// right: every number, and every word of both tables. The play takes what its own lists of calls ask for.
pub fn whole(play: &Play, dice: &mut Dice) -> Vec<String> {
    let Ok(request) = second::sheet::read(&play.sheet) else {
        return Vec::new();
    };
    let Some(registers) = second::data::read(&request, &play.words) else {
        return Vec::new();
    };
    let mut lent = play.before.clone();
    if start(&play.sheet, &mut lent.state) != (0, 0) {
        return Vec::new();
    }
    let mut numbers = played(&request, &registers, &mut lent, dice);
    numbers.resize(PLACES, 0);
    let (mut first, mut second) = (play.before.first.clone(), play.before.second.clone());
    let mut out = vec![0; PLACES];
    answer(&play.sheet, &play.words, &mut first, &mut second, &mut out);
    vec![
        difference("the whole answer's numbers", &numbers, &out),
        difference("the whole answer's first table", &lent.first, &first),
        difference("the whole answer's second table", &lent.second, &second),
    ]
}
