//! Requests answered step by step: choosing and taking each step, with what is sent for it made
//! beforehand.

use crate::contenders::Run;
#[cfg(feature = "library")]
use ebbcandle::linked::{self, TURN_PLACES};
use second::made_up::Made;
use second::steps::{start, Case, Lent, CALL_WORDS, STATE_BYTES};
use second::{write, Step};
use std::hint::black_box;

/// A request's sheet, and the rows that are sent for each of its steps.
struct Play {
    sheet: Vec<u8>,
    sent: Vec<Vec<u32>>,
}

impl Play {
    /// The second program plays first. What is sent for a step is right: the lines of the register that
    /// some call asks for, in their order.
    fn of(made: &Made) -> Play {
        let sheet = write::sheet(&made.request);
        let (_, _, mut state) = start(&sheet);
        let (mut lent, mut sent) = (lent(), Vec::new());
        let Lent {
            first,
            second,
            calls,
            ..
        } = &mut lent;
        for step in 1..=made.request.lookups.len() {
            state.choose(first, second, calls);
            let chosen = state.chosen(first).expect("a step that can be asked");
            let lines = made.rows[chosen.register].iter();
            let asked = lines.filter(|line| chosen.asks_for(line));
            let rows: Vec<u32> = asked.flatten().copied().collect();
            state.take(step as u64, &rows, first, second);
            sent.push(rows);
        }
        Play { sheet, sent }
    }
}

/// The bytes of a state, both tables and the list of calls. They are not cleared between two plays.
fn lent() -> Lent {
    Lent {
        state: vec![0xA5; STATE_BYTES],
        first: vec![u32::MAX; 8_192],
        second: vec![u32::MAX; 8_192],
        calls: vec![u32::MAX; CALL_WORDS],
    }
}

/// Holds a play to the whole answer of the second program: all numbers of each step, and every word of
/// both tables.
fn hold(made: &Made, steps: &[Step], lent: &Lent) {
    let (sheet, words) = (write::sheet(&made.request), write::words(&made.rows));
    let answer = second::answer(&sheet, &words, 8_192, 8_192);
    assert_eq!(answer.number, 0, "not answered");
    assert_eq!(steps, answer.steps, "steps differ");
    let (mut first, mut second) = (vec![u32::MAX; 8_192], vec![u32::MAX; 8_192]);
    second::tables(&answer, &mut first, &mut second);
    assert!(first == lent.first, "first tables differ");
    assert!(second == lent.second, "second tables differ");
}

/// A contender that plays: it starts the request, and chooses and takes each step.
fn plays(made: &Made, held: bool, call: fn(&Play, &mut Lent, &mut Vec<Step>)) -> Option<Run> {
    let (play, mut lent, mut steps) = (Play::of(made), lent(), Vec::new());
    if held {
        call(&play, &mut lent, &mut steps);
        hold(made, &steps, &lent);
    }
    Some(Box::new(move || {
        steps.clear();
        call(black_box(&play), &mut lent, &mut steps);
        black_box(&steps);
    }))
}

/// The library, with the state in bytes.
#[cfg(feature = "library")]
pub fn library(made: &Made, held: bool) -> Option<Run> {
    plays(made, held, |play, lent, steps| {
        let mut out = [0; TURN_PLACES];
        let Lent {
            state,
            first,
            second,
            calls,
        } = lent;
        linked::start(&play.sheet, state);
        for (step, sent) in (1..).zip(&play.sent) {
            linked::choose(state, first, second, calls, &mut out);
            linked::take(sent, step, state, first, second, &mut out);
            let [_, _, _, lookup, rule, calls, rows, sent, charge] = out;
            let [calls, rows, sent, charge] = [calls, rows, sent, charge].map(|n| n as u64);
            steps.push(Step {
                lookup,
                rule,
                calls,
                rows,
                sent,
                charge,
            });
        }
    })
}

/// The second program, with a state of its own.
pub fn second(made: &Made, held: bool) -> Option<Run> {
    plays(made, held, |play, lent, steps| {
        let (_, _, mut state) = start(&play.sheet);
        for (step, sent) in (1..).zip(&play.sent) {
            state.choose(&mut lent.first, &mut lent.second, &mut lent.calls);
            if let Case::Taken(step) = state.take(step, sent, &mut lent.first, &mut lent.second) {
                steps.push(step);
            }
        }
    })
}
