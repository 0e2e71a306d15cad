//! What the made-up typed requests cover, and which wrong readers they tell from the right one.

#[macro_use]
mod listed;
mod wrong_reader;

use second::made_up_typed::{case, changes, in_words, kinds, Case};
use second::sheet::{read, Fault, Request};
use second::typed::{answer_typed, by_appearance, part, read_typed, tokens, Kind};
use std::collections::{BTreeMap, BTreeSet};
use wrong_reader::{Idea, Outcome, State, ALL};

const SEEDS: u64 = 12_000;

fn all() -> impl Iterator<Item = Case> {
    (0..SEEDS).map(case)
}

/// What the second program reads.
fn reading(case: &Case) -> Result<Request, Fault> {
    read_typed(&case.typed.sheet, &case.typed.names, &case.typed.line)
}

/// The number of a case, and whether the sheet is refused.
fn told(case: &Case) -> (u32, bool) {
    let number = reading(case).map_or_else(|fault| fault.number, |_| 0);
    (number, read(&case.typed.sheet).is_err())
}

#[test]
fn each_seed_makes_a_case_of_its_own() {
    let different: BTreeSet<String> = (0..1_000).map(|seed| in_words(&case(seed))).collect();
    assert!(different.len() > 995, "{}", different.len());
    assert_eq!(case(7), case(7));
    let words = in_words(&case(7));
    for word in ["kind ", "second line \"", "line \"", "sheet=", "row data ["] {
        assert!(words.contains(word), "{word}");
    }
}

/// Each number has its share, those of the sheet too.
#[test]
fn each_number_occurs() {
    let mut times: BTreeMap<(u32, bool), usize> = BTreeMap::new();
    for case in all() {
        *times.entry(told(&case)).or_default() += 1;
    }
    for (number, percent) in [
        (0, 20),
        (12, 2),
        (20, 6),
        (21, 16),
        (22, 6),
        (23, 4),
        (24, 8),
        (25, 3),
        (31, 7),
    ] {
        let share = times[&(number, false)] * 100 / SEEDS as usize;
        assert!(share >= percent, "{number}: {share} percent");
    }
    for number in [2, 7, 8, 9, 10, 11, 12] {
        let there = times[&(number, true)];
        assert!(there >= 60, "{number} of the sheet: {there} times");
    }
}

/// Each kind occurs, and gives the numbers that it is for.
#[test]
fn each_kind_occurs() {
    let mut by_kind: BTreeMap<&str, Vec<u32>> = BTreeMap::new();
    for case in all() {
        by_kind.entry(case.kind).or_default().push(told(&case).0);
    }
    assert_eq!(by_kind.len(), kinds().len());
    for (kind, all) in by_kind {
        assert!(all.len() >= 150, "{kind}: {} times", all.len());
        let numbers: BTreeSet<u32> = all.into_iter().collect();
        let line = BTreeSet::from([0, 12, 20, 21, 22, 23, 24, 25]);
        let own = BTreeSet::from([2, 7, 8, 9, 10, 11, 12]);
        match kind {
            "sound" => assert_eq!(numbers, BTreeSet::from([0])),
            "names-exchanged" => assert_eq!(numbers, BTreeSet::from([0, 23])),
            "changed" | "changed-twice" => assert_eq!(numbers, line),
            "names" | "names-and-line" => assert!(numbers.contains(&31)),
            "noise" => assert!(numbers.is_superset(&BTreeSet::from([20, 21]))),
            _ => assert_eq!(numbers, own, "{kind}"),
        }
    }
}

/// The numbers that each change is for.
const FOR: &[(&str, &[u32])] = &[
    ("byte-inserted", &[0, 20, 21, 22]),
    ("byte-removed", &[0, 21, 22]),
    ("byte-replaced", &[0, 20, 21, 22]),
    ("byte-doubled", &[0, 21, 22]),
    ("byte-over-127", &[20, 22]),
    ("upper-case", &[20, 22]),
    ("token-replaced", &[0, 20, 21, 22]),
    ("token-inserted", &[20, 21]),
    ("token-removed", &[21]),
    ("token-doubled", &[21, 22]),
    ("tokens-exchanged", &[0, 21, 22]),
    ("space-doubled", &[21]),
    ("space-dropped", &[21, 23]),
    ("space-inserted", &[21]),
    ("bracket", &[21]),
    ("brackets-emptied", &[21]),
    ("colon", &[21]),
    ("name-of-12", &[0, 22]),
    ("name-of-13", &[22, 24]),
    ("name-shared", &[0, 25]),
    ("value", &[0, 12, 20, 24]),
    ("number-in-brackets", &[20, 21]),
    ("given-twice", &[25]),
    ("given-behind", &[21, 22]),
    ("variables-to-17", &[0, 23, 24]),
    ("look-ups-to-13", &[0, 21, 22, 24]),
    ("unknown-register", &[0, 22]),
    ("columns", &[23, 24]),
    ("cut", &[0, 21, 22]),
    ("look-ups-left-out", &[21]),
    ("tail", &[20, 21, 22]),
    ("empty", &[21]),
    ("names-one-fewer", &[31]),
    ("names-one-more", &[31]),
    ("names-empty", &[31]),
    ("names-space-before", &[31]),
    ("names-space-behind", &[31]),
    ("names-space-doubled", &[31]),
    ("names-space-replaced", &[31]),
    ("names-one-twice", &[31]),
    ("names-13-letters", &[31]),
    ("names-upper-case", &[31]),
    ("names-byte-inserted", &[22, 31]),
    ("names-newline", &[31]),
];

/// Each change alone gives the numbers that it is for, several times.
#[test]
fn each_change_occurs_and_breaks_what_it_should() {
    let mut times: BTreeMap<(&str, u32), usize> = BTreeMap::new();
    for case in all() {
        if let ("changed" | "names", [change]) = (case.kind, &case.changes[..]) {
            *times.entry((change, told(&case).0)).or_default() += 1;
        }
    }
    let listed: Vec<&str> = FOR.iter().map(|(change, _)| *change).collect();
    assert_eq!(listed, changes());
    for (change, numbers) in FOR {
        for number in *numbers {
            let there = times.get(&(*change, *number)).copied().unwrap_or(0);
            assert!(there >= 2, "{change}, {number}: {there} times");
        }
    }
}

/// What a case was before it was changed is read, with the registers of its sheet.
#[test]
fn what_was_not_changed_is_sound() {
    let mut others = 0;
    for case in all() {
        let before = &case.before;
        let sheet = read(&before.sheet).expect("a sound sheet");
        let request = read_typed(&before.sheet, &before.names, &before.line);
        let request = request.expect("a sound line");
        assert_eq!(request.registers, sheet.registers);
        assert_eq!(by_appearance(&request), request);
        others += usize::from(by_appearance(&sheet) != request);
        if case.kind == "sound" {
            assert_eq!(case.typed, case.before);
        }
    }
    let share = others * 100 / SEEDS as usize;
    assert!((40..=60).contains(&share), "{share} percent say another");
}

/// The names of a line: those before a bracket, and the others.
fn names(line: &[u8]) -> [BTreeSet<&[u8]>; 2] {
    let tokens = tokens(line);
    let mut names = [BTreeSet::new(), BTreeSet::new()];
    for two in tokens.windows(2) {
        if two[0].kind == Kind::Name {
            let variable = two[1].text != b"(";
            names[usize::from(variable)].insert(two[0].text);
        }
    }
    names
}

/// What a line that is read has: sizes, lengths of names, names of variables of which one begins another,
/// and variables that are named as registers are.
fn sizes(case: &Case, request: &Request) -> Vec<(&'static str, usize)> {
    let given = request.givens.iter().flatten().count();
    let [registers, variables] = names(&case.typed.line);
    let begins = |one: &&[u8]| {
        let mut others = variables.iter().filter(|other| *other != one);
        others.any(|other| other.starts_with(one))
    };
    let mut sizes = vec![
        ("registers", request.registers.len()),
        ("variables", request.givens.len()),
        ("given", given),
        ("look-ups", request.lookups.len()),
        ("beginnings", usize::from(variables.iter().any(begins))),
        ("shared", usize::from(!registers.is_disjoint(&variables))),
        ("300 bytes", usize::from(case.typed.line.len() >= 300)),
    ];
    let lookups = request.lookups.iter();
    sizes.extend(lookups.map(|lookup| ("columns", lookup.variables.len())));
    sizes.extend(registers.iter().map(|name| ("register", name.len())));
    sizes.extend(variables.iter().map(|name| ("variable", name.len())));
    sizes
}

#[test]
fn sound_lines_reach_every_size() {
    let mut times: BTreeMap<(&str, usize), usize> = BTreeMap::new();
    for case in all() {
        if let Ok(request) = reading(&case) {
            for size in sizes(&case, &request) {
                *times.entry(size).or_default() += 1;
            }
        }
    }
    for (what, low, high) in [
        ("registers", 1, 12),
        ("variables", 1, 16),
        ("given", 0, 16),
        ("look-ups", 1, 12),
        ("columns", 1, 6),
        ("beginnings", 0, 1),
        ("shared", 0, 1),
        ("300 bytes", 0, 1),
        ("register", 1, 12),
        ("variable", 1, 12),
    ] {
        for size in low..=high {
            let reached = times.get(&(what, size)).copied().unwrap_or(0);
            assert!(reached >= 5, "{what} {size}: {reached} times");
        }
    }
}

/// Behind each token that can stand in a line each kind of token occurs, and the end, as the one at
/// which the reading ends.
#[test]
fn each_token_stands_in_each_place() {
    let mut times: BTreeMap<(State, char), usize> = BTreeMap::new();
    for case in all().filter(|case| ![0, 31].contains(&told(case).0) && !told(case).1) {
        *times.entry(wrong_reader::stop(&case)).or_default() += 1;
    }
    use State::*;
    let mut tried = 0;
    for state in [
        Start, Givens, Name, Equals, Value, Colon, LookUp, Register, Open, Between, Variable,
        Closed,
    ] {
        for kind in ['a', '1', '=', ':', '(', ')', ' ', '?', '$'] {
            // These are in place, with nothing that can be wrong, or run on from the token before.
            let sound: &[char] = match state {
                Start | Givens => &[':'],
                Name => &['=', 'a'],
                Value => &[' ', '1'],
                Colon => &[' '],
                Register => &['(', 'a'],
                Variable => &[' ', 'a'],
                Closed => &[' ', '$'],
                _ => &[],
            };
            if !sound.contains(&kind) {
                let there = times.get(&(state, kind)).copied().unwrap_or(0);
                assert!(there >= 1, "{state:?} {kind}: {there} times");
                tried += 1;
            }
        }
    }
    assert_eq!(tried, 12 * 9 - 13);
}

/// Each number that an answer can have comes with the made-up row data.
#[test]
fn each_answer_occurs() {
    let mut times: BTreeMap<u32, usize> = BTreeMap::new();
    let (mut rows, mut steps) = (0, 0);
    for case in (0..3_000).map(case) {
        let got = answer_typed(&case.typed, &case.words, 8_192, 8_192);
        *times.entry(got.number).or_default() += 1;
        rows += usize::from(!got.rows.is_empty());
        steps += usize::from(got.steps.len() > 3);
    }
    for (number, least) in [(0, 300), (3, 30), (4, 50), (5, 15)] {
        assert!(times[&number] >= least, "{number}: {}", times[&number]);
    }
    assert!(rows >= 250 && steps >= 100, "{rows} {steps}");
}

// ---------------------------------------------------------------- wrong readers

/// What comes back from the second program.
fn right(case: &Case) -> Outcome {
    let read = reading(case);
    let fault = read.as_ref().err();
    let (number, detail) = fault.map_or((0, 0), |fault| (fault.number, fault.detail as usize));
    Outcome {
        number,
        detail,
        part: part(&case.typed.line, number, detail),
        request: read.ok(),
    }
}

/// The other reader, without a wrong idea, agrees in all cases.
#[test]
fn another_reader_agrees() {
    for (case, seed) in all().zip(0..) {
        let other = wrong_reader::read(&case, Idea::Right);
        assert_eq!(other, right(&case), "seed {seed}\n{}", in_words(&case));
    }
}

/// Each wrong reader is told from the right one by several of the cases.
#[test]
fn wrong_readers_are_told_apart() {
    let cases: Vec<(Case, Outcome)> = (0..6_000)
        .map(|seed| {
            let case = case(seed);
            let right = right(&case);
            (case, right)
        })
        .collect();
    for idea in ALL {
        let apart = |(case, right): &&(Case, Outcome)| wrong_reader::read(case, *idea) != *right;
        let times = cases.iter().filter(apart).count();
        assert!(times >= 5, "{idea:?}: {times} times");
    }
}
