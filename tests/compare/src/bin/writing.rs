//! Sheets written from made-up fields: `writing CASES SEED`. The library beside the second program, with
//! buffers of several lengths: each number that comes back, and every byte of the buffer. What is
//! written is read back, and written again.

use compare::dice::Dice;
use compare::difference::agree;
use compare::places::{places, said};
use compare::totals::Totals;
use compare::written::{differences, lent, read_back, without_room};
use second::fields::{write, written};
use second::made_up_fields::{case, in_words, Case};

/// The fields of one case: their number with one of the buffers, or all differences.
fn compare_case(seed: u64) -> Result<usize, String> {
    let Case {
        fields,
        lengths,
        kind,
    } = case(seed);
    let mut dice = Dice::new(seed);
    let (mut found, mut numbers) = (Vec::new(), Vec::new());
    for length in lengths {
        let before = lent(length, &mut dice);
        let mut after = before.clone();
        let outcome = write(&fields, &mut after);
        let places = places(&fields, &mut dice);
        found.extend(differences(&places, &before, outcome, &after));
        numbers.push(outcome.number as usize);
    }
    if seed % 4 == 0 {
        let places = places(&fields, &mut dice);
        found.extend(without_room(&places, &mut dice));
    }
    if let Ok(sheet) = written(&fields) {
        let said = said(&fields.request());
        found.extend(read_back(&sheet.bytes(), &said, &mut dice));
    }
    match agree(found) {
        Ok(()) => Ok(numbers[dice.below(numbers.len())]),
        Err(text) => Err(format!(
            "seed {seed}: {text}\nkind {kind}\n{}",
            in_words(&fields)
        )),
    }
}

fn main() -> Result<(), String> {
    let words: Vec<String> = std::env::args().skip(1).collect();
    let numbers: Result<Vec<u64>, _> = words.iter().map(|word| word.parse()).collect();
    let Ok([cases, seed]) = numbers.as_deref() else {
        return Err("writing CASES SEED".to_string());
    };
    let mut totals = Totals::default();
    totals.add_seeds(*seed, *cases, compare_case, |seed| {
        format!("bash tests/writing 1 {seed}")
    });
    totals.end()
}
