//! The library's writing of a sheet beside what is expected of it: every number that comes back, and
//! every byte of the buffer.

use crate::dice::Dice;
use crate::difference::difference;
use crate::{read_sheet, write_sheet, NO_ROOM, SHEET_PLACES};
use second::fields::Outcome;

/// A buffer before the call: all 255, all 0, the places, or random bytes.
pub fn lent(length: usize, dice: &mut Dice) -> Vec<u8> {
    match dice.below(5) {
        0 => vec![255; length],
        1 => vec![0; length],
        2 => (0..length).map(|place| place as u8).collect(),
        _ => (0..length).map(|_| dice.next() as u8).collect(),
    }
}

/// What an outcome says, as the library gives it.
fn numbers(outcome: Outcome) -> [usize; 3] {
    [
        outcome.number as usize,
        outcome.detail as usize,
        outcome.bytes,
    ]
}

/// What differs where the fields in these places are written to such a buffer.
pub fn differences(
    places: &[usize],
    before: &[u8],
    expected: Outcome,
    expected_buffer: &[u8],
) -> Vec<String> {
    let mut buffer = before.to_vec();
    let (number, detail, bytes) = write_sheet(places, &mut buffer);
    let what = format!("buffer of {} bytes", buffer.len());
    let [their_number, their_detail, their_bytes] = numbers(expected);
    vec![
        difference("number", &[number as usize], &[their_number]),
        difference("detail", &[detail], &[their_detail]),
        difference("bytes", &[bytes], &[their_bytes]),
        difference(&what, &buffer, expected_buffer),
    ]
}

/// Too few places, or a word over 4,294,967,295, are told before all else, and nothing is written.
pub fn without_room(places: &[usize], dice: &mut Dice) -> Vec<String> {
    let few = [dice.below(SHEET_PLACES), SHEET_PLACES - 1][dice.below(2)];
    let few = &places[..few];
    let mut large = places.to_vec();
    let word = (1 << 32) + (dice.next() as usize >> (32 + dice.below(32)));
    large[6 + dice.below(16)] = [word, usize::MAX][dice.below(2)];
    let mut found = Vec::new();
    for (what, places) in [("few places", few), ("a large word", &large)] {
        let before = lent(dice.below(300), dice);
        let mut buffer = before.clone();
        let given = write_sheet(places, &mut buffer);
        let nothing = (NO_ROOM, usize::MAX, usize::MAX);
        found.push(difference(what, &[given], &[nothing]));
        found.push(difference(what, &buffer, &before));
    }
    found
}

/// What differs where a sheet is read, and what was read is written again. The sheet says `said`.
pub fn read_back(sheet: &[u8], said: &[usize], dice: &mut Dice) -> Vec<String> {
    let mut places = vec![usize::MAX; SHEET_PLACES];
    let number = read_sheet(sheet, &mut places);
    let mut found = vec![
        difference("read back", &[number], &[0]),
        difference("read back, numbers", &places[..2], &[0, 8 * sheet.len()]),
        difference("read back, what it says", &places[2..], said),
    ];
    found.extend(again(sheet, &places, dice));
    found
}

/// What differs where what was read of a sheet is written again: the same bytes.
pub fn again(sheet: &[u8], places: &[usize], dice: &mut Dice) -> Vec<String> {
    let before = lent(sheet.len() + dice.below(4), dice);
    let after = [sheet, &before[sheet.len()..]].concat();
    let outcome = Outcome {
        number: 0,
        detail: 0,
        bytes: sheet.len(),
    };
    let found = differences(places, &before, outcome, &after);
    let told = found.into_iter().filter(|text| !text.is_empty());
    told.map(|text| format!("written again, {text}")).collect()
}
