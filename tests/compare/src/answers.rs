//! Answers: tables before a call, and an answer's numbers as the library puts them.

use crate::dice::Dice;
use crate::PLACES;

/// Table lengths that are answered.
pub const LONG: [usize; 4] = [8_192, 8_192, 8_200, 8_193];

/// Table lengths of which one at least is refused.
pub const SHORT: [(usize, usize); 4] = [(8_191, 8_192), (8_200, 8_191), (8_191, 8_191), (0, 9_000)];

/// A table before the call: all 4,294,967,295, all 0, the places, words from 0 to 3, or random words.
pub fn lent(length: usize, dice: &mut Dice) -> Vec<u32> {
    match dice.below(6) {
        0 | 1 => vec![u32::MAX; length],
        2 => vec![0; length],
        3 => (0..length as u32).collect(),
        4 => (0..length).map(|_| dice.below(4) as u32).collect(),
        _ => (0..length).map(|_| dice.next() as u32).collect(),
    }
}

/// The numbers of an answer as the export puts them.
pub fn numbers(answer: &second::Answer) -> Vec<usize> {
    let mut numbers = vec![
        answer.number as usize,
        answer.detail as usize,
        answer.steps.len(),
        answer.calls as usize,
        answer.rows.len(),
        answer.charge as usize,
    ];
    for step in &answer.steps {
        numbers.extend([
            step.lookup,
            step.rule,
            step.calls as usize,
            step.rows as usize,
            step.sent as usize,
            step.charge as usize,
        ]);
    }
    numbers.resize(PLACES, 0);
    numbers
}
