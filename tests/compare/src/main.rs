//! Compares the library with the second program: the answer with every word of
//! both tables, the route check, the count and the sheet's fields, which are written again.
//!
//! `compare` takes a fixed set of seeds and fresh ones; `compare SEED COUNT` takes these.

use compare::answers::{lent, numbers, LONG, SHORT};
use compare::dice::{fresh, Dice};
use compare::difference::{agree, difference};
use compare::each::each;
use compare::places::said;
use compare::totals::Totals;
use compare::written::again;
use compare::{answer, check_route, count, read_sheet, Detail, NO_ROOM, PLACES, SHEET_PLACES};
use second::made_up::{case, in_words, Case};

/// The fixed seeds, and how many cases each run takes of them and of fresh ones.
const FIXED: u64 = 1;
const FIXED_CASES: u64 = 30_000;
const FRESH_CASES: u64 = 30_000;

/// One answer beside the second program's: the differences, and the first table.
struct Compared {
    found: Vec<String>,
    first: Vec<u32>,
    theirs: second::Answer,
}

/// The words of the row data's bytes, without a left-over.
fn our_words(case: &Case) -> Vec<u32> {
    let whole = case.data.len() / 4 * 4;
    ebbcandle::words_of(&case.data[..whole]).expect("whole words")
}

/// What is printed where bytes are left over behind the last word.
fn left_over(case: &Case) -> Vec<String> {
    if case.data.len() % 4 == 0 {
        return Vec::new();
    }
    let ours = match ebbcandle::answer_bytes(&case.sheet, &case.data) {
        Ok(answer) => answer.to_string(),
        Err(refusal) => refusal.to_string(),
    };
    let theirs = second::run_files(&case.sheet, &case.data);
    vec![difference("bytes left over", &[ours], &[theirs])]
}

/// The differences of one answer. Each side makes its own words of the row data's bytes.
fn answers(case: &Case, lengths: (usize, usize), dice: &mut Dice) -> Compared {
    let first = lent(lengths.0, dice);
    let second = lent(lengths.1, dice);
    let (their_words, _) = second::data::words(&case.data);
    let theirs = second::answer(&case.sheet, &their_words, lengths.0, lengths.1);
    let (mut their_first, mut their_second) = (first.clone(), second.clone());
    second::tables(&theirs, &mut their_first, &mut their_second);
    let (mut our_first, mut our_second) = (first, second);
    let beyond = dice.below(3);
    let mut our_numbers = vec![usize::MAX; PLACES + beyond];
    let mut their_numbers = numbers(&theirs);
    their_numbers.resize(PLACES + beyond, usize::MAX);
    let number = answer(
        &case.sheet,
        &our_words(case),
        &mut our_first,
        &mut our_second,
        &mut our_numbers,
    );
    let found = vec![
        difference("number", &[number], &[theirs.number]),
        difference("numbers", &our_numbers, &their_numbers),
        difference("first table", &our_first, &their_first),
        difference("second table", &our_second, &their_second),
    ];
    Compared {
        found,
        first: our_first,
        theirs,
    }
}

/// A buffer with too few places is refused, and nothing is written.
fn short_buffer(case: &Case, dice: &mut Dice) -> Vec<String> {
    let first = lent(8_192, dice);
    let second = lent(8_192, dice);
    let (mut our_first, mut our_second) = (first.clone(), second.clone());
    let length = dice.below(PLACES);
    let mut out = vec![7; length];
    let number = answer(
        &case.sheet,
        &our_words(case),
        &mut our_first,
        &mut our_second,
        &mut out,
    );
    vec![
        difference("number without room", &[number], &[NO_ROOM]),
        difference("numbers without room", &out, &vec![7; length]),
        difference("first table without room", &our_first, &first),
        difference("second table without room", &our_second, &second),
    ]
}

/// The counts of a table: each variable over its rows, and questions that are refused.
fn counts(table: &[u32], rows: usize, dice: &mut Dice) -> Vec<String> {
    let mut asked: Vec<(usize, usize, usize)> = (0..17)
        .map(|variable| (table.len(), rows, variable))
        .collect();
    for _ in 0..4 {
        asked.push((dice.below(table.len() + 1), dice.below(514), dice.below(17)));
    }
    asked.push((table.len(), 512, dice.below(16)));
    asked.push((table.len(), 513, dice.below(16)));
    asked.push((16 * rows, rows, 15));
    asked.push(((16 * rows).max(1) - 1, rows, 0));
    asked.push((table.len(), usize::MAX, 0));
    asked.push((table.len(), usize::MAX / 16 + 1, 0));
    asked.push((table.len(), rows, usize::MAX));
    let mut found = Vec::new();
    for (length, rows, variable) in asked {
        let table = &table[..length.min(table.len())];
        let ours = count(table, rows, variable);
        let (number, values) = second::count(table, rows, variable);
        let theirs = (number, values as usize);
        let what = format!(
            "count of {rows} rows, variable {variable}, {} words",
            table.len()
        );
        found.push(difference(&what, &[ours], &[theirs]));
    }
    found
}

/// The differences of one sheet's reading, with its fault and place, of its route check, and of what was
/// read, written again.
fn readings(sheet: &[u8]) -> Vec<String> {
    let mut ours = vec![usize::MAX; SHEET_PLACES + 2];
    let number = read_sheet(sheet, &mut ours);
    let (their_number, mut theirs) = match second::sheet::read(sheet) {
        Ok(request) => (0, [vec![0, 8 * sheet.len()], said(&request)].concat()),
        Err(fault) => (
            fault.number,
            vec![fault.number as usize, fault.detail as usize],
        ),
    };
    theirs.resize(SHEET_PLACES, 0);
    theirs.resize(SHEET_PLACES + 2, usize::MAX);
    let (checked, detail) = second::check_route(sheet);
    let mut found = vec![
        difference("reading", &[number], &[their_number]),
        difference("numbers of the reading", &ours, &theirs),
        difference(
            "route check",
            &[check_route(sheet)],
            &[(checked, detail as Detail)],
        ),
    ];
    if number == 0 {
        let bytes = sheet.iter().map(|byte| u64::from(*byte));
        let seed = bytes.fold(0, |seed: u64, byte| {
            seed.wrapping_mul(257).wrapping_add(byte)
        });
        found.extend(again(sheet, &ours, &mut Dice::new(seed)));
    }
    found
}

/// One made-up case: its number with tables that are long enough, or all differences.
fn compare_case(seed: u64) -> Result<usize, String> {
    let case = case(seed);
    let mut dice = Dice::new(seed);
    let lengths = (LONG[dice.below(4)], LONG[dice.below(4)]);
    let Compared {
        mut found,
        first,
        theirs,
    } = answers(&case, lengths, &mut dice);
    if seed % 4 == 0 {
        let short = answers(&case, SHORT[dice.below(4)], &mut dice);
        found.extend(short.found);
        found.extend(short_buffer(&case, &mut dice));
    }
    found.extend(left_over(&case));
    found.extend(readings(&case.sheet));
    found.extend(counts(&first, theirs.rows.len(), &mut dice));
    match agree(found) {
        Ok(()) => Ok(theirs.number as usize),
        Err(text) => Err(format!("seed {seed}: {text}\n{}", in_words(&case))),
    }
}

/// One sheet, sound or not.
fn compare_sheet(sheet: &[u8]) -> Result<(), String> {
    agree(readings(sheet)).map_err(|text| format!("{text} of the sheet {sheet:02X?}"))
}

/// Every length up to 300: random bytes, and made-up sheets cut or made longer.
fn sheets(seed: u64) -> Vec<Vec<u8>> {
    let mut dice = Dice::new(seed);
    let mut sheets = Vec::new();
    for length in 0..=300 {
        for kind in 0..16 {
            let mut sheet: Vec<u8> = (0..length).map(|_| dice.next() as u8).collect();
            // Half of them begin as a sheet does, with version 1.
            if kind % 2 == 0 {
                if let Some(byte) = sheet.first_mut() {
                    *byte = 0x20 | (*byte & 0x1f);
                }
            }
            sheets.push(sheet);
        }
    }
    for place in 0..48 {
        let sheet = case(seed.wrapping_add(place)).sheet;
        for length in 0..=300 {
            let mut other = sheet.clone();
            other.truncate(length);
            let fill = if place % 3 == 0 { dice.next() as u8 } else { 0 };
            other.resize(length, fill);
            sheets.push(other);
        }
    }
    sheets
}

/// The made-up cases of so many seeds, and the sheets of the first.
fn compare(totals: &mut Totals, from: u64, count: u64) {
    totals.add_seeds(from, count, compare_case, |seed| {
        format!("compare {seed} 1")
    });
    let sheets = sheets(from);
    let sheet = |place| &sheets[place as usize];
    for ran in each(sheets.len() as u64, |place| compare_sheet(sheet(place))) {
        totals.add(ran.map(|()| None), &format!("compare {from} 0"));
    }
}

fn main() -> Result<(), String> {
    let words: Vec<String> = std::env::args().skip(1).collect();
    let numbers: Result<Vec<u64>, _> = words.iter().map(|word| word.parse()).collect();
    let mut totals = Totals::default();
    match numbers.as_deref() {
        Ok([]) => {
            let seed = fresh();
            println!("fixed seeds {FIXED} to {}", FIXED + FIXED_CASES - 1);
            compare(&mut totals, FIXED, FIXED_CASES);
            println!("fresh seeds from {seed} on, {FRESH_CASES} of them");
            compare(&mut totals, seed, FRESH_CASES);
        }
        Ok([from, count]) => compare(&mut totals, *from, *count),
        _ => return Err("compare, or compare SEED COUNT".to_string()),
    }
    totals.end()
}
