//! Made-up plays: `playing CASES SEED`. Requests are answered step by step by the library beside the
//! second program: number and numbers of each call, every byte of the state, and every word of both
//! tables and of the list of calls. With right deliveries the library comes to its whole answer.

use compare::dice::Dice;
use compare::difference::agree;
use compare::steps::{calls, start_without_room, starts, whole, without_room};
use compare::totals::Totals;
use second::made_up_steps::{in_words, play, Play, Turn};

/// The turns of a play: the last number other than 0 that was told, or 0; or all differences of the
/// first turn that has some.
fn compare_turns(play: &Play, seed: u64, dice: &mut Dice) -> Result<usize, String> {
    let (mut ours, mut theirs) = (play.before.clone(), play.before.clone());
    let (mut found, mut last) = starts(&play.sheet, &mut ours, &mut theirs);
    if seed % 4 == 0 {
        found.extend(start_without_room(&play.sheet, &play.before, dice));
    }
    agree(found)?;
    for (turn, place) in play.turns.iter().zip(1..) {
        match turn {
            Turn::Changed { changes, .. } => {
                for change in changes {
                    change.make(&mut ours);
                    change.make(&mut theirs);
                }
            }
            Turn::Call { call, .. } => {
                let mut found = Vec::new();
                if seed % 16 == 0 {
                    found = without_room(call, &ours, dice);
                }
                let (differ, case) = calls(call, &mut ours, &mut theirs, dice);
                found.extend(differ);
                agree(found).map_err(|text| format!("turn {place}: {text}"))?;
                if case.number() > 0 {
                    last = case.number();
                }
            }
        }
    }
    Ok(last as usize)
}

/// One play: the last number other than 0 that was told, or 0; or all differences.
fn compare_play(seed: u64) -> Result<usize, String> {
    let play = play(seed);
    let mut dice = Dice::new(seed);
    let ran = compare_turns(&play, seed, &mut dice).and_then(|number| {
        if play.kind == "right" || seed % 4 == 0 {
            agree(whole(&play, &mut dice))?;
        }
        Ok(number)
    });
    ran.map_err(|text| format!("seed {seed}: {text}\n{}", in_words(&play)))
}

fn main() -> Result<(), String> {
    let words: Vec<String> = std::env::args().skip(1).collect();
    let numbers: Result<Vec<u64>, _> = words.iter().map(|word| word.parse()).collect();
    let Ok([cases, seed]) = numbers.as_deref() else {
        return Err("playing CASES SEED".to_string());
    };
    let mut totals = Totals::default();
    totals.add_seeds(*seed, *cases, compare_play, |seed| {
        format!("bash tests/playing 1 {seed}")
    });
    totals.end()
}
