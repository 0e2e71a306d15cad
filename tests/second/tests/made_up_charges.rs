//! What the made-up requests with p and q cover, and which wrong charges they tell from the right ones.

#[macro_use]
mod listed;
mod wrong_charge;

use second::made_up_charges::{case, in_words, kinds, priced, Case};
use second::sheet::Request;
use second::{answer, answer_charged, data, route_steps, sheet, Answer, Step};
use std::collections::{BTreeMap, BTreeSet};
use wrong_charge::{Idea, ALL};

const SEEDS: u64 = 6_000;

fn ask(case: &Case) -> Answer {
    answer_charged(&case.sheet, &case.words, case.prices, 8_192, 8_192)
}

/// The answer where calls alone are charged.
fn by_calls(case: &Case) -> Answer {
    answer(&case.sheet, &case.words, 8_192, 8_192)
}

/// Look-up and rule of each step.
fn picks(steps: &[Step]) -> Vec<(usize, usize)> {
    let picks = steps.iter().map(|step| (step.lookup, step.rule));
    picks.collect()
}

#[test]
fn each_seed_makes_a_case_of_its_own() {
    for seed in (0..200).chain([u64::MAX, 1 << 40]) {
        assert_eq!(case(seed), case(seed));
        let kind = format!("kind {}, {}\np ", case(seed).kind, case(seed).priced);
        assert!(in_words(&case(seed)).starts_with(&kind));
    }
    let asked = |seed| (case(seed).sheet, case(seed).words, case(seed).prices.p);
    let different: BTreeSet<_> = (0..1_000).map(asked).collect();
    assert!(different.len() > 980, "{}", different.len());
}

/// Each kind of request and of p and q occurs, and with them each number; 17 exactly where one is over
/// 1,000.
#[test]
fn each_kind_and_each_number_occurs() {
    let mut by_kind: BTreeMap<&str, usize> = BTreeMap::new();
    let mut by_number: BTreeMap<u32, usize> = BTreeMap::new();
    for case in (0..SEEDS).map(case) {
        let number = ask(&case).number;
        let over = case.prices.p > 1_000 || case.prices.q > 1_000;
        assert_eq!(number == 17, over, "{}", in_words(&case));
        assert_eq!(over, ["over", "both-over"].contains(&case.priced));
        *by_kind.entry(case.kind).or_default() += 1;
        *by_number.entry(number).or_default() += 1;
        if case.kind != case.priced {
            *by_kind.entry(case.priced).or_default() += 1;
        }
    }
    for kind in kinds().into_iter().chain(priced()) {
        let times = by_kind.get(kind).copied().unwrap_or(0);
        assert!(times >= 100, "{kind} occurs {times} times");
    }
    assert!(2 * by_number[&0] > SEEDS as usize, "{by_number:?}");
    for number in [2, 3, 4, 5, 7, 8, 9, 10, 11, 12, 17] {
        let times = by_number.get(&number).copied().unwrap_or(0);
        assert!(times >= 10, "{number}: {by_number:?}");
    }
}

/// p and q at each edge and over it, by either.
#[test]
fn p_and_q_reach_their_edges() {
    let prices: BTreeSet<(u64, u64)> = (0..SEEDS)
        .map(|seed| (case(seed).prices.p, case(seed).prices.q))
        .collect();
    for edge in [
        (0, 0),
        (1, 0),
        (0, 1),
        (1_000, 1_000),
        (1_000, 0),
        (0, 1_000),
    ] {
        assert!(prices.contains(&edge), "{edge:?}");
    }
    for (over, other) in [(1_001, 0), (1_001, 1_000)] {
        assert!(prices.contains(&(over, other)) && prices.contains(&(other, over)));
    }
    // numbers whose low 32 bits are in range
    let wraps = |price: u64| price >> 32 == 1 && price as u32 <= 1_000;
    assert!(prices.iter().any(|(p, q)| wraps(*p) && *q <= 1_000));
    assert!(prices.iter().any(|(p, q)| wraps(*q) && *p <= 1_000));
    assert!(prices.iter().any(|(p, _)| *p > u64::MAX - 1_001));
}

/// 17 stands before each other refusal that the case would have, and before an answer.
#[test]
fn what_17_stands_before() {
    let mut times: BTreeMap<u32, usize> = BTreeMap::new();
    for case in (0..SEEDS).map(case) {
        if ask(&case).number == 17 {
            *times.entry(by_calls(&case).number).or_default() += 1;
        }
    }
    for number in [0, 2, 3, 4, 5, 8] {
        let found = times.get(&number).copied().unwrap_or(0);
        assert!(found >= 3, "{number}: {times:?}");
    }
}

/// Each look-up and rule that could have been taken behind these steps, as a step.
fn candidates(case: &Case, request: &Request, before: &[Step]) -> Vec<Step> {
    let mut found = Vec::new();
    for (number, lookup) in request.lookups.iter().enumerate() {
        for rule in 0..request.registers[lookup.register].rules.len() {
            let with = [picks(before), vec![(number, rule)]].concat();
            let steps = route_steps(&case.sheet, &case.words, case.prices, &with);
            found.extend(steps.and_then(|mut steps| steps.pop()));
        }
    }
    found
}

/// What the choice of a step reaches.
fn choice_reaches(step: &Step, candidates: &[Step]) -> Vec<&'static str> {
    let own = (step.lookup, step.rule);
    let other = |other: &&Step| (other.lookup, other.rule) != own;
    let tied = |other: &&Step| other.charge == step.charge;
    let mut reached = Vec::new();
    for other in candidates.iter().filter(other).filter(tied) {
        if other.calls < step.calls {
            reached.push("a tie with fewer calls behind");
        }
        if other.calls > step.calls {
            reached.push("a tie with more calls behind");
        }
        if other.lookup == step.lookup && other.sent != step.sent {
            reached.push("a tie of two rules with different rows sent");
        }
    }
    if candidates.iter().any(|other| other.calls < step.calls) {
        reached.push("fewer calls not taken");
    }
    if candidates.iter().any(|other| other.sent < step.sent) {
        reached.push("fewer rows sent not taken");
    }
    reached
}

/// What the rows sent in a step reach, where the list has so many rows before it.
fn sent_reaches(step: &Step, request: &Request, case: &Case, list: usize) -> Vec<&'static str> {
    let lookup = &request.lookups[step.lookup];
    let register = &request.registers[lookup.register];
    let different = data::read(request, &case.words).unwrap()[lookup.register].len() as u64;
    let nothing = !register.rules[step.rule].contains(&true);
    let mut reached = Vec::new();
    if step.sent > 0 && step.rows == 0 {
        reached.push("rows sent, and none joined");
    }
    if step.sent > step.calls {
        reached.push("more rows sent than calls");
    }
    if step.sent < step.calls {
        reached.push("fewer rows sent than calls");
    }
    match (nothing, list) {
        (true, 0) => reached.push("nothing to give to an empty list"),
        (true, _) => {
            assert_eq!(step.sent, different, "all different rows");
            reached.push("nothing to give");
        }
        (false, 0) => reached.push("an empty list"),
        (false, _) if step.sent == 0 => reached.push("no row sent"),
        (false, _) if step.sent < different => reached.push("some rows sent"),
        (false, _) => reached.push("all rows sent for calls"),
    }
    reached
}

/// The lines of a register, as they stand.
fn lines(request: &Request, words: &[u32], register: usize) -> usize {
    let mut at = 0;
    for before in &request.registers[..register] {
        at += 1 + words[at] as usize * before.columns;
    }
    words[at] as usize
}

/// What an answered case reaches.
fn reaches(case: &Case) -> BTreeSet<&'static str> {
    let (got, other) = (ask(case), by_calls(case));
    let request = sheet::read(&case.sheet).unwrap();
    let registers = data::read(&request, &case.words).unwrap();
    let mut reached = BTreeSet::new();
    let mut list = 1;
    for (place, step) in got.steps.iter().enumerate() {
        let candidates = candidates(case, &request, &got.steps[..place]);
        reached.extend(choice_reaches(step, &candidates));
        reached.extend(sent_reaches(step, &request, case, list));
        list = step.rows as usize;
        let register = request.lookups[step.lookup].register;
        if step.sent > 0 && lines(&request, &case.words, register) > registers[register].len() {
            reached.insert("rows that repeat");
        }
    }
    if other.number == 5 {
        reached.insert("answered, and too many rows by calls alone");
        return reached;
    }
    if picks(&other.steps) != picks(&got.steps) {
        reached.insert("another order or rule");
        let at_prices = route_steps(&case.sheet, &case.words, case.prices, &picks(&other.steps));
        let charge: u64 = at_prices.unwrap().iter().map(|step| step.charge).sum();
        if charge < got.charge {
            reached.insert("the order by calls alone has a lower charge");
        }
        if charge > got.charge {
            reached.insert("the order by calls alone has a higher charge");
        }
    }
    reached
}

/// The steps differ from those by calls alone, ties are decided, and rows are sent, in each way.
#[test]
fn the_cases_reach_each_way() {
    let mut times: BTreeMap<&str, usize> = BTreeMap::new();
    for case in (0..2_000).map(case) {
        match ask(&case).number {
            0 => {
                for what in reaches(&case) {
                    *times.entry(what).or_default() += 1;
                }
            }
            5 if by_calls(&case).number == 0 => {
                *times
                    .entry("too many rows, and answered by calls alone")
                    .or_default() += 1;
            }
            _ => {}
        }
    }
    for (what, least) in [
        ("another order or rule", 500),
        ("the order by calls alone has a higher charge", 300),
        ("the order by calls alone has a lower charge", 20),
        ("answered, and too many rows by calls alone", 1),
        ("too many rows, and answered by calls alone", 1),
        ("a tie with fewer calls behind", 100),
        ("a tie with more calls behind", 100),
        ("a tie of two rules with different rows sent", 100),
        ("fewer calls not taken", 200),
        ("fewer rows sent not taken", 200),
        ("rows sent, and none joined", 25),
        ("more rows sent than calls", 500),
        ("fewer rows sent than calls", 100),
        ("nothing to give", 500),
        ("nothing to give to an empty list", 25),
        ("an empty list", 25),
        ("no row sent", 15),
        ("some rows sent", 500),
        ("all rows sent for calls", 150),
        ("rows that repeat", 500),
    ] {
        let found = times.get(what).copied().unwrap_or(0);
        assert!(found >= least, "{what}: {found} times");
    }
}

// ---------------------------------------------------------------- wrong charges

/// Cases with lengths of tables, one in four too short, and the second program's answer.
fn answered() -> Vec<(Case, (usize, usize), Answer)> {
    let one = |seed| {
        let case = case(seed);
        let lengths = [(8_191, 8_192), (8_192, 8_192)][usize::from(seed % 4 > 0)];
        let right = answer_charged(&case.sheet, &case.words, case.prices, lengths.0, lengths.1);
        (case, lengths, right)
    };
    (0..2_000).map(one).collect()
}

/// The other answer, without a wrong idea, agrees in all cases.
#[test]
fn another_answer_agrees() {
    for ((case, lengths, right), seed) in answered().into_iter().zip(0..) {
        let other = wrong_charge::answer(&case, lengths, Idea::Right);
        assert_eq!(other, right, "seed {seed}\n{}", in_words(&case));
    }
}

/// Each wrong idea is told from the right one by several of the cases.
#[test]
fn wrong_charges_are_told_apart() {
    let cases = answered();
    for idea in ALL {
        let apart = |(case, lengths, right): &&(Case, (usize, usize), Answer)| {
            wrong_charge::answer(case, *lengths, *idea) != *right
        };
        let times = cases.iter().filter(apart).take(5).count();
        assert!(times >= 5, "{idea:?}: {times} times");
    }
}
