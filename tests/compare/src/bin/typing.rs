//! Made-up typed requests: `typing CASES SEED`. The library beside the second program: number, detail and
//! all that a line says, the part that is handed back, the answer with every word of both tables, and
//! the route check. What a sound line says is what the same sheet says.

use compare::answers::{LONG, SHORT};
use compare::dice::Dice;
use compare::difference::agree;
use compare::totals::Totals;
use compare::typed::{answers, checks, parts, readings, refusal, same_sheet, without_room};
use second::made_up_typed::{case, in_words};
use second::typed::read_typed;

/// One case: its number with tables that are long enough, or all differences.
fn compare_case(seed: u64) -> Result<usize, String> {
    let case = case(seed);
    let (typed, words) = (&case.typed, &case.words[..]);
    let mut dice = Dice::new(seed);
    let theirs = read_typed(&typed.sheet, &typed.names, &typed.line);
    let mut found = readings(typed, &theirs);
    found.extend(parts(&typed.line, refusal(&theirs), &mut dice));
    if let Ok(request) = &theirs {
        found.extend(same_sheet(typed, request));
    }
    let lengths = (LONG[dice.below(4)], LONG[dice.below(4)]);
    let (differ, answer) = answers(typed, words, lengths, &mut dice);
    found.extend(differ);
    found.push(checks(typed));
    if seed % 4 == 0 {
        let (differ, _) = answers(typed, words, SHORT[dice.below(4)], &mut dice);
        found.extend(differ);
        found.extend(without_room(typed, words, &mut dice));
    }
    match agree(found) {
        Ok(()) => Ok(answer.number as usize),
        Err(text) => Err(format!("seed {seed}: {text}\n{}", in_words(&case))),
    }
}

fn main() -> Result<(), String> {
    let words: Vec<String> = std::env::args().skip(1).collect();
    let numbers: Result<Vec<u64>, _> = words.iter().map(|word| word.parse()).collect();
    let Ok([cases, seed]) = numbers.as_deref() else {
        return Err("typing CASES SEED".to_string());
    };
    let mut totals = Totals::default();
    totals.add_seeds(*seed, *cases, compare_case, |seed| {
        format!("bash tests/typing 1 {seed}")
    });
    totals.end()
}
