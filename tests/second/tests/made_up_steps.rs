//! What the made-up plays cover, and which wrong players they tell from the right one.

#[macro_use]
mod listed;
mod wrong_step;

use second::made_up_steps::{changes, in_words, kinds, play, wrong_calls, Play, Turn};
use second::steps::{Act, Call, Case, Chosen, Lent, State};
use second::{answer, data, sheet};
use std::collections::{BTreeMap, BTreeSet};
use wrong_step::{Idea, Player, ALL};

const SEEDS: u64 = 2_000;

/// Number of a refusal, or the name of the case.
fn told(case: &Case) -> String {
    match case.number() {
        0 => case.name().to_string(),
        number => number.to_string(),
    }
}

/// Plays it, and hands on each call: what kind it is, the call, and what is lent before it and behind it.
fn follow(play: &Play, mut each: impl FnMut(&'static str, &Call, &Lent, &Case, &Lent)) -> u32 {
    let mut lent = play.before.clone();
    let (number, _) = lent.start(&play.sheet);
    for turn in &play.turns {
        match turn {
            Turn::Call { what, call } => {
                let before = lent.clone();
                let case = lent.call(call);
                each(what, call, &before, &case, &lent);
            }
            Turn::Changed { changes, .. } => {
                for change in changes {
                    change.make(&mut lent);
                }
            }
        }
    }
    number
}

#[test]
fn each_seed_makes_a_play_of_its_own() {
    for seed in (0..60).chain([u64::MAX, 1 << 40]) {
        assert_eq!(play(seed), play(seed));
        let kind = format!("kind {}\nsheet of ", play(seed).kind);
        assert!(in_words(&play(seed)).starts_with(&kind));
    }
    let calls = |seed| format!("{:?}", play(seed).turns);
    let different: BTreeSet<_> = (0..500).map(calls).collect();
    assert!(different.len() > 480, "{}", different.len());
}

/// Each kind of play, of call and of change occurs, and so does each case and number.
#[test]
fn each_kind_occurs() {
    let mut times: BTreeMap<&str, usize> = BTreeMap::new();
    let mut cases: BTreeMap<String, usize> = BTreeMap::new();
    let mut starts: BTreeMap<u32, usize> = BTreeMap::new();
    for play in (0..SEEDS).map(play) {
        *times.entry(play.kind).or_default() += 1;
        for turn in &play.turns {
            if let Turn::Changed { what, .. } = turn {
                *times.entry(what).or_default() += 1;
            }
        }
        let number = follow(&play, |what, _, _, case, _| {
            *times.entry(what).or_default() += 1;
            *cases.entry(told(case)).or_default() += 1;
        });
        *starts.entry(number).or_default() += 1;
    }
    let what = kinds().into_iter().chain(wrong_calls()).chain(changes());
    for what in what.chain(["choose", "right", "forged"]) {
        let found = times.get(what).copied().unwrap_or(0);
        assert!(found >= 10, "{what}: {found} times");
    }
    for case in [
        "calls",
        "all-taken",
        "taken",
        "already",
        "1",
        "5",
        "15",
        "16",
        "32",
    ] {
        let found = cases.get(case).copied().unwrap_or(0);
        assert!(found >= 400, "{case}: {cases:?}");
    }
    for number in [0, 2, 4, 7, 8, 9, 10, 11, 12] {
        assert!(starts.get(&number) >= Some(&2), "{number}: {starts:?}");
    }
}

/// What each kind of call may come to where nothing was changed and 5 was not told; the first
/// of them does occur.
const CASES: &[(&str, &[&str])] = &[
    ("choose", &["calls", "all-taken"]),
    ("choose-again", &["calls"]),
    ("right", &["taken", "5"]),
    ("incomplete", &["taken", "5"]),
    ("rows-more", &["taken", "5"]),
    ("known-free-differs", &["taken", "5"]),
    ("zero-in-free", &["taken", "5"]),
    ("512-lines", &["taken", "5"]),
    ("nothing-delivered", &["taken"]),
    ("choose-short", &["1"]),
    ("take-short", &["1"]),
    ("step-0", &["15"]),
    ("step-above", &["15"]),
    ("step-wraps", &["15"]),
    ("not-chosen", &["15"]),
    ("late", &["already"]),
    ("double", &["already"]),
    ("513-lines", &["32"]),
    ("more-lines", &["32"]),
    ("not-whole", &["32"]),
    ("not-whole-and-not-asked", &["32"]),
    ("513-lines-and-not-asked", &["32"]),
    ("must-give-differs", &["16"]),
    ("register-row-not-asked", &["16"]),
    ("columns-apart", &["16"]),
    ("zero-in-must-give", &["16"]),
    ("no-call", &["16"]),
];

#[test]
fn each_kind_of_call_comes_to_its_case() {
    let mut found: BTreeMap<&str, BTreeSet<String>> = BTreeMap::new();
    for play in (0..SEEDS).map(play) {
        let changed = play.turns.iter().any(|t| matches!(t, Turn::Changed { .. }));
        follow(&play, |what, _, before, case, _| {
            if !changed && before.read().over == 0 {
                found.entry(what).or_default().insert(told(case));
            }
        });
    }
    for (what, cases) in CASES {
        let seen = &found[what];
        assert!(seen.contains(cases[0]), "{what}: {seen:?}");
        assert!(
            seen.iter().all(|case| cases.contains(&&case[..])),
            "{what}: {seen:?}"
        );
    }
}

// ---------------------------------------------------------------- right plays

/// A play in which each delivery is right comes to the whole answer: each step, and both tables.
#[test]
fn right_plays_come_to_the_answer() {
    let (mut answered, mut over) = (0, 0);
    for play in (0..SEEDS).map(play).filter(|play| play.kind == "right") {
        let whole = answer(&play.sheet, &play.words, 8_192, 8_192);
        let mut lent = play.before.clone();
        let mut steps = Vec::new();
        let mut last = None;
        let number = follow(&play, |_, _, _, case, after| {
            if let Case::Taken(step) = case {
                steps.push(step.clone());
            }
            last = Some(case.clone());
            lent = after.clone();
        });
        if number != 0 {
            assert_eq!(number, whole.number);
            continue;
        }
        let (mut first, mut second) = (play.before.first.clone(), play.before.second.clone());
        second::tables(&whole, &mut first, &mut second);
        assert_eq!((lent.first, lent.second), (first, second));
        match whole.number {
            0 => {
                assert_eq!(steps, whole.steps, "{}", in_words(&play));
                assert_eq!(last, Some(Case::AllTaken));
                answered += 1;
            }
            number => {
                let detail = whole.detail;
                assert_eq!(last, Some(Case::Refused { number, detail }));
                over += 1;
            }
        }
    }
    assert!(answered >= 150 && over >= 5, "{answered} {over}");
}

// ---------------------------------------------------------------- what the plays reach

/// What a state with its first table reaches before a call.
fn state_reaches(state: &State, first: &[u32]) -> Vec<&'static str> {
    let bytes = usize::from(state.bytes).min(193);
    let Ok(request) = sheet::read(&state.sheet[..bytes]) else {
        return vec!["a sheet that is not sound"];
    };
    let mut reached = Vec::new();
    let lookups = request.lookups.len();
    if u32::from(state.answered) >> lookups > 0 {
        reached.push("bits beyond the look-ups");
    }
    if state.sheet[bytes..].iter().any(|byte| *byte > 0) {
        reached.push("bytes behind the sheet");
    }
    if state.chosen && state.chosen(first).is_none() {
        reached.push("a chosen step that can't be taken");
    }
    if state.taken() == 0 {
        return reached;
    }
    match state.rows {
        0 => reached.push("no rows"),
        1..=511 => reached.push("rows"),
        512 => reached.push("512 rows"),
        _ => reached.push("over 512 rows"),
    }
    let rows: Vec<&[u32]> = first.chunks(16).take(state.rows.into()).collect();
    if state.rows <= 512 {
        if rows.windows(2).any(|pair| pair[0] == pair[1]) {
            reached.push("rows that repeat");
        }
        if rows.windows(2).any(|pair| pair[0] > pair[1]) {
            reached.push("rows out of order");
        }
    }
    reached
}

/// What a step that is chosen reaches.
fn chosen_reaches(chosen: &Chosen) -> Vec<&'static str> {
    let Chosen {
        variables,
        marks,
        calls,
        known,
        ..
    } = chosen;
    let mut reached = Vec::new();
    let columns: Vec<usize> = (0..marks.len()).filter(|c| marks[*c]).collect();
    let given: Vec<usize> = columns.iter().map(|c| variables[*c]).collect();
    let different: BTreeSet<usize> = given.iter().copied().collect();
    if given.len() > different.len() {
        reached.push("a variable that repeats in must-give columns");
    }
    if !given.is_sorted() && calls.len() > 1 {
        reached.push("columns in another order than variables");
    }
    match (columns.len(), calls.len()) {
        (0, 0) => reached.push("nothing to give, and an empty list"),
        (0, _) => reached.push("nothing to give"),
        (_, 0) => reached.push("an empty list"),
        (_, 1) => reached.push("a call"),
        _ => reached.push("several calls"),
    }
    if (0..marks.len()).any(|c| !marks[c] && known.contains(&variables[c])) {
        reached.push("a free column that is known");
    }
    if calls.iter().flatten().any(|value| *value == 0) {
        reached.push("a call with 0");
    }
    reached
}

/// What a delivery that is taken reaches.
fn taken_reaches(step: &second::Step, sent: &[u32], chosen: &Chosen) -> Vec<&'static str> {
    let lines = sent.len() / chosen.marks.len();
    let mut reached = Vec::new();
    if lines as u64 > step.sent {
        reached.push("lines that repeat");
    }
    if lines == 512 {
        reached.push("512 lines");
    }
    if step.rows == 0 && step.sent > 0 {
        reached.push("rows sent, and none joined");
    }
    if step.rows == 0 && step.calls > 0 {
        reached.push("a list that gets empty");
    }
    if step.rows == 512 {
        reached.push("512 rows after it");
    }
    reached
}

/// What one call reaches.
fn call_reaches(call: &Call, before: &Lent, case: &Case) -> Vec<&'static str> {
    let state = before.read();
    let chosen = state.chosen(&before.first);
    let mut reached = state_reaches(&state, &before.first);
    match (&call.act, case, &chosen) {
        (Act::Choose, Case::Calls { lookup, rule, .. }, Some(chosen)) => {
            let same = (*lookup, *rule) == (chosen.lookup, chosen.rule);
            reached.push(if same {
                "chosen again"
            } else {
                "another is chosen"
            });
        }
        (Act::Take { sent, .. }, Case::Taken(step), Some(chosen)) => {
            reached.extend(chosen_reaches(chosen));
            reached.extend(taken_reaches(step, sent, chosen));
        }
        (Act::Take { .. }, Case::Refused { number: 16, .. }, Some(chosen)) => {
            let several = chosen.marks.iter().filter(|must| **must).count() > 1;
            reached.push(if several {
                "16 with several must-give columns"
            } else {
                "16"
            });
        }
        _ => {}
    }
    if state.over > 0 {
        reached.extend(five_reaches(call, before, case));
    }
    reached
}

/// What a call behind 5 reaches.
fn five_reaches(call: &Call, before: &Lent, case: &Case) -> Vec<&'static str> {
    let mut reached = vec![match (&call.act, case.number()) {
        (Act::Choose, 5) => "5 told again at choosing",
        (Act::Choose, _) => "1 before 5 at choosing",
        (_, 5) => "5 told again at taking",
        _ => "1 before 5 at taking",
    }];
    if before.first.iter().take(8_192).any(|word| *word > 0) {
        reached.push("a later 5 with words in the first table");
    }
    if before.second.iter().take(8_192).any(|word| *word > 0) {
        reached.push("a later 5 with words in the second table");
    }
    reached
}

/// The calls reach each way, often enough.
#[test]
fn the_plays_reach_each_way() {
    let mut times: BTreeMap<&str, usize> = BTreeMap::new();
    for play in (0..SEEDS).map(play) {
        follow(&play, |_, call, before, case, _| {
            for what in call_reaches(call, before, case) {
                *times.entry(what).or_default() += 1;
            }
        });
    }
    let few = WAYS
        .iter()
        .filter(|(what, least)| times.get(what).is_none_or(|n| n < least));
    let few: Vec<_> = few.map(|(what, _)| (what, times.get(what))).collect();
    assert!(few.is_empty(), "{few:?}");
}

/// What the calls reach, and how often at least.
const WAYS: &[(&str, usize)] = &[
    ("a sheet that is not sound", 500),
    ("bits beyond the look-ups", 500),
    ("bytes behind the sheet", 200),
    ("a chosen step that can't be taken", 200),
    ("no rows", 500),
    ("rows", 5_000),
    ("512 rows", 100),
    ("over 512 rows", 100),
    ("rows that repeat", 50),
    ("rows out of order", 100),
    ("chosen again", 200),
    ("another is chosen", 20),
    ("a variable that repeats in must-give columns", 100),
    ("columns in another order than variables", 100),
    ("nothing to give", 1_000),
    ("nothing to give, and an empty list", 100),
    ("an empty list", 500),
    ("a call", 1_000),
    ("several calls", 1_000),
    ("a free column that is known", 500),
    ("a call with 0", 50),
    ("lines that repeat", 1_000),
    ("512 lines", 50),
    ("rows sent, and none joined", 200),
    ("a list that gets empty", 300),
    ("512 rows after it", 20),
    ("16", 300),
    ("16 with several must-give columns", 100),
    ("5 told again at choosing", 100),
    ("5 told again at taking", 200),
    ("1 before 5 at choosing", 20),
    ("1 before 5 at taking", 20),
    ("a later 5 with words in the first table", 20),
    ("a later 5 with words in the second table", 20),
];

/// 15, 32 and 16 change nothing, and neither does a step that is taken or 1.
#[test]
fn what_changes_nothing() {
    let mut times: BTreeMap<String, usize> = BTreeMap::new();
    for play in (0..500).map(play) {
        follow(&play, |_, _, before, case, after| {
            let told = told(case);
            if ["1", "15", "16", "32", "already", "all-taken"].contains(&&told[..]) {
                assert_eq!(before.read(), after.read());
                assert_eq!(
                    (&before.first, &before.second),
                    (&after.first, &after.second)
                );
                assert_eq!(before.calls, after.calls);
                *times.entry(told).or_default() += 1;
            }
        });
    }
    assert!(
        times.len() == 6 && times.values().all(|n| *n > 50),
        "{times:?}"
    );
}

/// The rows that right deliveries come from are those of the row data.
#[test]
fn deliveries_come_from_the_row_data() {
    for play in (0..500).map(play).filter(|play| play.kind == "wrong") {
        let request = sheet::read(&play.sheet).unwrap();
        let registers = data::read(&request, &play.words).unwrap();
        follow(&play, |what, call, before, _, _| {
            let chosen = before.read().chosen(&before.first);
            if let ("right", Act::Take { sent, .. }, Some(chosen)) = (what, &call.act, chosen) {
                let rows = registers[chosen.register].iter();
                let asked: BTreeSet<Vec<u32>> =
                    rows.filter(|r| chosen.asks_for(r)).cloned().collect();
                let lines = sent.chunks(chosen.marks.len());
                assert_eq!(lines.map(<[u32]>::to_vec).collect::<BTreeSet<_>>(), asked);
            }
        });
    }
}

// ---------------------------------------------------------------- wrong players

/// Whether a player comes to the same at each call: the case, the state, and every word.
fn same(play: &Play, idea: Idea) -> bool {
    let mut player = Player::new(idea);
    let mut right = play.before.clone();
    right.start(&play.sheet);
    let mut other = right.clone();
    for turn in &play.turns {
        match turn {
            Turn::Changed { changes, .. } => {
                for change in changes {
                    change.make(&mut right);
                    change.make(&mut other);
                }
            }
            Turn::Call { call, .. } => {
                let cases = (right.call(call), player.call(&mut other, call));
                if cases.0 != cases.1 || right != other {
                    return false;
                }
            }
        }
    }
    true
}

/// The other player, without a wrong idea, agrees in all plays.
#[test]
fn another_player_agrees() {
    for seed in 0..SEEDS {
        let play = play(seed);
        assert!(same(&play, Idea::Right), "seed {seed}\n{}", in_words(&play));
    }
}

/// Each wrong idea is told from the right one by several of the plays.
#[test]
fn wrong_players_are_told_apart() {
    let plays: Vec<Play> = (0..1_500).map(play).collect();
    let times = |idea: &Idea| {
        let apart = plays.iter().filter(|play| !same(play, *idea));
        apart.take(5).count()
    };
    let few = ALL.iter().map(|idea| (idea, times(idea)));
    let few: Vec<_> = few.filter(|(_, times)| *times < 5).collect();
    assert!(few.is_empty(), "{few:?}");
}
