//! Made-up requests with p and q: `charging CASES SEED`. The library beside the second program: every
//! number of the answer, with rows sent and charges, and every word of both tables.

use compare::answers::{LONG, SHORT};
use compare::charged::{answers, without_room};
use compare::dice::Dice;
use compare::difference::agree;
use compare::totals::Totals;
use second::made_up_charges::{case, in_words};

/// One case: its number with tables that are long enough, or all differences.
fn compare_case(seed: u64) -> Result<usize, String> {
    let case = case(seed);
    let mut dice = Dice::new(seed);
    let lengths = (LONG[dice.below(4)], LONG[dice.below(4)]);
    let (mut found, answer) = answers(&case, lengths, &mut dice);
    if seed % 4 == 0 {
        let short = SHORT[dice.below(4)];
        found.extend(answers(&case, short, &mut dice).0);
        found.extend(without_room(
            &case,
            [lengths, short][dice.below(2)],
            &mut dice,
        ));
    }
    match agree(found) {
        Ok(()) => Ok(answer.number as usize),
        Err(text) => Err(format!("seed {seed}: {text}\n{}", in_words(&case))),
    }
}

fn main() -> Result<(), String> {
    let words: Vec<String> = std::env::args().skip(1).collect();
    let numbers: Result<Vec<u64>, _> = words.iter().map(|word| word.parse()).collect();
    let Ok([cases, seed]) = numbers.as_deref() else {
        return Err("charging CASES SEED".to_string());
    };
    let mut totals = Totals::default();
    totals.add_seeds(*seed, *cases, compare_case, |seed| {
        format!("bash tests/charging 1 {seed}")
    });
    totals.end()
}
