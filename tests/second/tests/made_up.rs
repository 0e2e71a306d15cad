//! What the made-up cases cover.

use second::made_up::{case, in_words, kinds, Case};
use second::sheet::{Fault, Request};
use second::sheet::{COUNT, ENDS_EARLY, GIVEN_ZERO, NOT_IN_SHEET, PADDING, UNUSED, VERSION};
use second::{answer, check_route, data, run_files, sheet, Answer};
use std::collections::{BTreeMap, BTreeSet};

const SEEDS: u64 = 6_000;

/// A case with what the program prints, and what the library gives for its whole words.
struct Seen {
    case: Case,
    request: Result<Request, Fault>,
    words: Vec<u32>,
    left_over: usize,
    answer: Answer,
    /// What is printed: the number and detail of a refusal, and zeros for an answer.
    number: u32,
    detail: u32,
}

/// The number and detail of a refusal that is printed; zeros for an answer.
fn refusal(printed: &str) -> (u32, u32) {
    let Some(line) = printed.strip_prefix("refused ") else {
        assert!(printed.starts_with("step 1 "), "{printed}");
        return (0, 0);
    };
    let mut numbers = line.trim_end().split(' ').map(|word| word.parse().unwrap());
    (numbers.next().unwrap(), numbers.next().unwrap())
}

fn seen(seed: u64) -> Seen {
    let case = case(seed);
    let (words, left_over) = data::words(&case.data);
    let (number, detail) = refusal(&run_files(&case.sheet, &case.data));
    Seen {
        request: sheet::read(&case.sheet),
        answer: answer(&case.sheet, &words, 8_192, 8_192),
        case,
        words,
        left_over,
        number,
        detail,
    }
}

fn all() -> Vec<Seen> {
    (0..SEEDS).map(seen).collect()
}

#[test]
fn each_seed_makes_a_case_of_its_own() {
    for seed in (0..200).chain([u64::MAX, 1 << 40]) {
        let kind = format!("kind {}\n", case(seed).kind);
        assert!(in_words(&case(seed)).starts_with(&kind));
    }
    let different: BTreeSet<(Vec<u8>, Vec<u8>)> = (0..1_000)
        .map(|seed| (case(seed).sheet, case(seed).data))
        .collect();
    assert!(different.len() > 980);
}

#[test]
fn each_kind_and_each_number_occurs() {
    let mut by_kind: BTreeMap<&str, BTreeMap<u32, usize>> = BTreeMap::new();
    let mut by_number: BTreeMap<u32, usize> = BTreeMap::new();
    for seen in all() {
        let number = seen.number;
        *by_kind
            .entry(seen.case.kind)
            .or_default()
            .entry(number)
            .or_default() += 1;
        *by_number.entry(number).or_default() += 1;
    }
    for kind in kinds() {
        let times: usize = by_kind[kind].values().sum();
        assert!(times >= 15, "{kind} occurs {times} times");
    }
    for number in [0, 3, 4, 5] {
        assert!(by_number[&number] >= 150, "{number}: {by_number:?}");
    }
    // What each kind is for.
    let only = |kind: &str, number: u32| {
        assert_eq!(
            by_kind[kind].keys().collect::<Vec<_>>(),
            [&number],
            "{kind}"
        );
    };
    for kind in [
        "count-513",
        "count-huge",
        "words-16385",
        "left-over-bytes",
        "word-missing",
        "words-left-over",
        "cut-data",
    ] {
        only(kind, 3);
    }
    only("no-route", 4);
    only("list-over", 5);
    only("list-512", 0);
    for number in [3, 4] {
        assert!(by_kind["two-faults"][&number] > 0);
    }
    for kind in ["count-512", "words-16384", "longest-sheet", "flipped-bits"] {
        assert!(by_kind[kind][&0] > 0, "{kind} is answered at times");
    }
}

/// The cases with a sheet that has a fault.
fn faulty() -> Vec<(Case, Fault)> {
    let fault = |case: Case| Some((sheet::read(&case.sheet).err()?, case));
    let with_fault = (0..SEEDS).filter_map(|seed| fault(case(seed)));
    with_fault.map(|(fault, case)| (case, fault)).collect()
}

/// Each kind that breaks a sheet reaches the faults that it is for, and nothing else.
#[test]
fn each_fault_occurs() {
    let mut by_kind: BTreeMap<&str, BTreeSet<u32>> = BTreeMap::new();
    let mut by_number: BTreeMap<u32, usize> = BTreeMap::new();
    for (case, fault) in faulty() {
        by_kind.entry(case.kind).or_default().insert(fault.number);
        *by_number.entry(fault.number).or_default() += 1;
    }
    let each = &[2, 7, 8, 9, 10, 11, 12][..];
    for (kind, numbers) in [
        ("field-over", &[7, 8][..]),
        ("field-put-over", &[7, 8, 9, 12]),
        ("given-zero", &[12]),
        ("unused-variable", &[10]),
        ("padding-bit", &[11]),
        ("byte-more", &[11]),
        ("padding-and-byte", &[11]),
        ("ends-early", &[2]),
        ("byte-fewer", &[2]),
        ("cut-sheet", &[2]),
        ("over-and-ends-early", &[7, 8, 9, 12]),
        ("zero-and-fault", &[2, 7, 8, 12]),
        ("sheet-and-data", each),
        ("sheet-and-no-route", each),
        ("sheet-and-list-over", each),
    ] {
        let there: Vec<u32> = by_kind[kind].iter().copied().collect();
        assert_eq!(there, numbers, "{kind}");
    }
    for number in each {
        assert!(by_number[number] >= 70, "{number}: {by_number:?}");
    }
}

/// The bits of a sheet from a place on as a number; `None` where it ends before.
fn bits(sheet: &[u8], at: usize, width: usize) -> Option<usize> {
    (at..at + width).try_fold(0, |number, place| {
        let byte = sheet.get(place / 8)?;
        Some(2 * number + usize::from(byte >> (7 - place % 8) & 1))
    })
}

/// A field: its name and its width.
type Field = (&'static str, usize);

/// A walk over the fields of a sheet up to the one at a place, which breaks it off.
struct Walk<'a> {
    sheet: &'a [u8],
    at: usize,
    place: usize,
    /// The field that was passed last.
    last: &'static str,
}

impl Walk<'_> {
    /// The value of the next field.
    fn next(&mut self, name: &'static str, width: usize) -> Result<usize, Field> {
        let at = self.at;
        self.at += width;
        match at == self.place {
            true => Err((name, width)),
            false => {
                self.last = name;
                Ok(bits(self.sheet, at, width).unwrap())
            }
        }
    }

    /// The bit behind the last field.
    fn fields(&mut self) -> Result<usize, Field> {
        self.next("version", 3)?;
        let registers = self.next("registers", 4)?;
        let variables = self.next("variables", 4)? + 1;
        let lookups = self.next("look-ups", 4)?;
        let mut columns = Vec::new();
        for register in 0..registers {
            columns.push(self.next("columns", 3)?);
            for _ in 0..self.next("rules", 4)? {
                self.next("rule", columns[register])?;
            }
        }
        for _ in 0..self.next("given", variables)?.count_ones() {
            self.next("value", 32)?;
        }
        for _ in 0..lookups {
            for _ in 0..columns[self.next("register", 4)?] {
                self.next("variable", 4)?;
            }
        }
        Ok(self.at)
    }
}

/// A walk that begins at the sheet's first field.
fn walk(sheet: &[u8], place: usize) -> Walk<'_> {
    let (at, last) = (0, "");
    Walk {
        sheet,
        at,
        place,
        last,
    }
}

/// The field that begins at the place, or else the bit behind the last field.
fn field_at(sheet: &[u8], place: usize) -> Result<usize, Field> {
    walk(sheet, place).fields()
}

/// How a sheet does not end where its fields do, which is at this bit.
fn ending(sheet: &[u8], end: usize) -> &'static str {
    let padding = end.next_multiple_of(8) - end;
    let wrong = bits(sheet, end, padding).unwrap();
    let first = padding > 0 && wrong >> (padding - 1) == 1;
    match (padding, wrong, 8 * sheet.len() - (end + padding)) {
        (_, 0, 8) if padding > 0 => "a byte",
        (_, 0, 8) => "a byte without padding",
        (_, 0, _) => "several bytes",
        (_, _, 0) if first => "the first bit",
        (_, _, 0) => "a later bit",
        _ => "a bit and a byte",
    }
}

/// How a sheet is broken: its first fault, the field that has it, and in which way.
fn broken(case: &Case, fault: &Fault) -> (u32, &'static str, &'static str) {
    let (sheet, place) = (&case.sheet, fault.detail as usize);
    let how = |place| field_at(sheet, place).unwrap_err();
    match fault.number {
        UNUSED if case.kind == "unused-variable" => {
            let more = bits(sheet, 7, 4).unwrap() - bits(&case.before, 7, 4).unwrap();
            let several = if more > 1 { "several" } else { "one" };
            (UNUSED, "variable", several)
        }
        UNUSED => (UNUSED, "variable", ""),
        PADDING => {
            let end = field_at(sheet, usize::MAX).unwrap();
            assert!(place == end || place == end.next_multiple_of(8));
            (PADDING, "padding", ending(sheet, end))
        }
        GIVEN_ZERO => {
            let mut walk = walk(sheet, place);
            assert_eq!(walk.fields(), Err(("value", 32)));
            let later = walk.last == "value";
            (GIVEN_ZERO, "value", if later { "later" } else { "first" })
        }
        ENDS_EARLY if 8 * sheet.len() == place => (ENDS_EARLY, how(place).0, "before"),
        ENDS_EARLY => (ENDS_EARLY, how(place).0, "inside"),
        number => {
            let (name, width) = how(place);
            let value = bits(sheet, place, width).unwrap();
            (number, name, if value == 0 { "below" } else { "above" })
        }
    }
}

/// Sheets are broken at each kind of field, in each way that the field can be. The version can only
/// end before its first bit, and the number of variables only inside. The numbers of registers and
/// of look-ups are whole with the byte that they begin in.
#[test]
fn each_kind_of_field_is_broken() {
    let mut times = BTreeMap::new();
    for (case, fault) in faulty() {
        *times.entry(broken(&case, &fault)).or_insert(0) += 1;
    }
    let ranges = &["below", "above"][..];
    let ends = &["before", "inside"][..];
    let endings = [
        "a byte",
        "a byte without padding",
        "several bytes",
        "the first bit",
        "a later bit",
        "a bit and a byte",
    ];
    for (number, names, ways) in [
        (VERSION, &["version"][..], ranges),
        (
            COUNT,
            &["registers", "look-ups", "columns", "rules"],
            ranges,
        ),
        (NOT_IN_SHEET, &["register", "variable"], &["above"]),
        (GIVEN_ZERO, &["value"], &["first", "later"]),
        (UNUSED, &["variable"], &["one", "several"]),
        (PADDING, &["padding"], &endings),
        (ENDS_EARLY, &["version"], &["before"]),
        (ENDS_EARLY, &["variables"], &["inside"]),
        (ENDS_EARLY, &["columns", "rules", "rule", "given"], ends),
        (ENDS_EARLY, &["value", "register", "variable"], ends),
    ] {
        for (name, way) in names
            .iter()
            .flat_map(|n| ways.iter().map(move |w| (*n, *w)))
        {
            let found = times.get(&(number, name, way)).copied().unwrap_or(0);
            assert!(found >= 3, "{number} {name} {way}: {found} times");
        }
    }
}

/// The sheet with the field at this place as it was before.
fn put_right(case: &Case, place: usize) -> Vec<u8> {
    let (_, width) = field_at(&case.sheet, place).unwrap_err();
    let mut sheet = case.sheet.clone();
    for bit in place..place + width {
        let mark = 128 >> (bit % 8);
        sheet[bit / 8] = sheet[bit / 8] & !mark | case.before[bit / 8] & mark;
    }
    sheet
}

/// The sheet with 1 for the given 0 at this place.
fn giving_1(case: &Case, place: usize) -> Vec<u8> {
    let mut sheet = case.sheet.clone();
    sheet[(place + 31) / 8] |= 128 >> ((place + 31) % 8);
    sheet
}

/// A given 0 comes with each fault that can stand behind it, and with each that can stand before it.
#[test]
fn a_given_0_stands_beside_each_other_fault() {
    let mut times: BTreeMap<(u32, u32), usize> = BTreeMap::new();
    for (case, fault) in faulty() {
        let place = fault.detail as usize;
        let right = match (case.kind, fault.number) {
            ("zero-and-fault", GIVEN_ZERO) => giving_1(&case, place),
            ("zero-and-fault", VERSION | COUNT) => put_right(&case, place),
            _ => continue,
        };
        if let Err(later) = sheet::read(&right) {
            *times.entry((fault.number, later.number)).or_default() += 1;
        }
    }
    let behind = [2, 9, 10, 11, 12].map(|later| (GIVEN_ZERO, later));
    let before = [(VERSION, GIVEN_ZERO), (COUNT, GIVEN_ZERO)];
    for pair in behind.into_iter().chain(before) {
        let found = times.get(&pair).copied().unwrap_or(0);
        assert!(found >= 2, "{pair:?}: {found} times");
    }
}

/// A sheet has two faults, and the later one has the lower number; or a lower number would fit if
/// the sheet were sound.
#[test]
fn a_lower_number_fits_later() {
    let mut times: BTreeMap<(u32, u32), usize> = BTreeMap::new();
    let (mut left_over, mut too_long) = (0, 0);
    for (case, fault) in faulty() {
        left_over += u32::from(case.data.len() % 4 > 0);
        too_long += u32::from(case.data.len() > 4 * 16_384);
        let later = match case.kind {
            "over-and-ends-early" => {
                let right = put_right(&case, fault.detail as usize);
                sheet::read(&right).unwrap_err().number
            }
            "sheet-and-data" | "sheet-and-no-route" | "sheet-and-list-over" => {
                refusal(&run_files(&case.before, &case.data)).0
            }
            _ => continue,
        };
        *times.entry((fault.number, later)).or_default() += 1;
    }
    let ends_early = [7, 8, 9, 12].map(|number| (number, 2));
    let behind = |number| [3, 4, 5].map(|later| (number, later));
    let behind = [2, 7, 8, 9, 10, 11, 12].into_iter().flat_map(behind);
    for pair in ends_early.into_iter().chain(behind) {
        let found = times.get(&pair).copied().unwrap_or(0);
        assert!(found >= 2, "{pair:?}: {found} times");
    }
    assert!(left_over >= 5 && too_long >= 5, "{left_over}, {too_long}");
}

#[test]
fn half_of_the_cases_are_joins_with_rows() {
    let joins = |seen: &&Seen| seen.answer.steps.len() >= 2 && !seen.answer.rows.is_empty();
    let all = all();
    let count = all.iter().filter(joins).count();
    assert!(2 * count >= all.len(), "{count} of {}", all.len());
}

/// What a look-up, a register or a value of a sheet reaches: a name and a size.
type Reached = (&'static str, usize);

/// What the sheet of an answered case reaches.
fn sheet_reaches(request: &Request) -> Vec<Reached> {
    let registers: BTreeSet<usize> = request.lookups.iter().map(|l| l.register).collect();
    let repeats = request.lookups.iter().any(|lookup| {
        let different: BTreeSet<&usize> = lookup.variables.iter().collect();
        different.len() < lookup.variables.len()
    });
    let shared = registers.len() < request.lookups.len();
    let spare = registers.len() < request.registers.len();
    let mut reached = vec![
        ("registers", request.registers.len()),
        ("variables", request.givens.len()),
        ("look-ups", request.lookups.len()),
        ("given", request.givens.iter().flatten().count().min(3)),
        ("shared registers", usize::from(shared)),
        ("spare registers", usize::from(spare)),
        ("repeated variables", usize::from(repeats)),
    ];
    for register in &request.registers {
        reached.push(("columns", register.columns));
        reached.push(("rules", register.rules.len()));
    }
    for value in request.givens.iter().flatten() {
        reached.push(("given value", *value as usize));
    }
    reached
}

/// What the rows and the answer of an answered case reach.
fn answer_reaches(seen: &Seen, request: &Request) -> Vec<Reached> {
    let rows = second::data::read(request, &seen.words).unwrap();
    let words = rows
        .iter()
        .zip(&request.registers)
        .map(|(rows, register)| 1 + rows.len() * register.columns);
    let repeated = words.sum::<usize>() < seen.words.len();
    let (steps, list) = (&seen.answer.steps, &seen.answer.rows);
    let in_order = steps.windows(2).all(|s| s[0].lookup < s[1].lookup);
    let empty = rows.iter().any(|rows| rows.is_empty());
    let mut reached = vec![
        ("repeated rows", usize::from(repeated)),
        ("empty register", usize::from(empty)),
        ("empty list", usize::from(list.is_empty())),
        ("full list", usize::from(list.len() == 512)),
        ("longest sheet", usize::from(seen.case.sheet.len() == 193)),
        ("16,384 words", usize::from(seen.words.len() == 16_384)),
        ("another order", usize::from(!in_order)),
    ];
    for step in steps {
        reached.push(("rule taken", step.rule));
        reached.push(("calls", step.calls.min(3) as usize));
        reached.push(("rows", step.rows as usize));
    }
    reached
}

#[test]
fn sound_sheets_reach_every_size() {
    let mut times: BTreeMap<Reached, usize> = BTreeMap::new();
    for seen in all().iter().filter(|seen| seen.number == 0) {
        let request = seen.request.as_ref().unwrap();
        for one in [sheet_reaches(request), answer_reaches(seen, request)].concat() {
            *times.entry(one).or_default() += 1;
        }
    }
    for (what, low, high) in [
        ("registers", 1, 12),
        ("variables", 1, 16),
        ("look-ups", 1, 12),
        ("columns", 1, 6),
        ("rules", 1, 8),
        ("rule taken", 0, 3),
        ("calls", 0, 3),
        ("given", 0, 3),
        ("shared registers", 0, 1),
        ("spare registers", 0, 1),
        ("repeated variables", 0, 1),
        ("repeated rows", 0, 1),
        ("empty register", 0, 1),
        ("empty list", 0, 1),
        ("full list", 0, 1),
        ("longest sheet", 0, 1),
        ("16,384 words", 0, 1),
        ("another order", 0, 1),
        ("rows", 512, 512),
        ("given value", 1, 1),
        ("given value", u32::MAX as usize, u32::MAX as usize),
    ] {
        for size in low..=high {
            let reached = times.get(&(what, size)).copied().unwrap_or(0);
            assert!(reached >= 5, "{what} {size}: {reached} times");
        }
    }
}

/// For each variable the number of columns that it stands in over all look-ups; two more where it is
/// given.
fn columns(request: &Request) -> Vec<usize> {
    let all = || request.lookups.iter().flat_map(|lookup| &lookup.variables);
    let givens = request.givens.iter().enumerate();
    givens
        .map(|(v, given)| all().filter(|o| **o == v).count() + 2 * usize::from(given.is_some()))
        .collect()
}

/// The variables of a look-up that show a 0 in this register row and never take it.
fn zeros(lookup: &[usize], row: &[u32], columns: &[usize]) -> BTreeSet<usize> {
    let shown = lookup.iter().zip(row);
    let zeros = shown.filter(|(v, value)| **value == 0 && columns[**v] > 1);
    zeros.map(|(v, _)| *v).collect()
}

/// Row data with another value for each 0 of a row, which no row has: 0 is then like any other value.
fn recoded(request: &Request, words: &[u32]) -> Vec<u32> {
    const OTHER: u32 = 3_141_592_653;
    assert!(!words.contains(&OTHER));
    let mut words = words.to_vec();
    let mut at = 0;
    for register in &request.registers {
        let end = at + 1 + words[at] as usize * register.columns;
        let rows = words[at + 1..end].iter_mut();
        rows.filter(|word| **word == 0)
            .for_each(|word| *word = OTHER);
        at = end;
    }
    words
}

/// What the zeros of an answered case reach.
fn zeros_reach(seen: &Seen, request: &Request) -> Vec<&'static str> {
    let registers = data::read(request, &seen.words).unwrap();
    let columns = columns(request);
    let mut known: BTreeSet<usize> = BTreeSet::new();
    let mut reached = Vec::new();
    for step in &seen.answer.steps {
        let lookup = &request.lookups[step.lookup];
        let others = request.lookups.iter().enumerate();
        let others = others.filter(|(l, o)| *l != step.lookup && o.register == lookup.register);
        let others: Vec<&Vec<usize>> = others.map(|(_, other)| &other.variables).collect();
        for row in &registers[lookup.register] {
            let variables = zeros(&lookup.variables, row, &columns);
            let times = |v: &usize| lookup.variables.iter().filter(|o| *o == v).count();
            if variables.is_empty() {
                continue;
            }
            reached.push("left out");
            if others.iter().any(|o| zeros(o, row, &columns).is_empty()) {
                reached.push("left out for one look-up alone");
            }
            if variables
                .iter()
                .all(|v| !known.contains(v) && times(v) == 1)
            {
                reached.push("left out by variables not yet known");
            }
            if variables.iter().all(|v| times(v) == columns[*v]) {
                reached.push("left out by one look-up's columns");
            }
        }
        known.extend(&lookup.variables);
    }
    let list = &seen.answer.rows;
    if list.iter().any(|row| row[..columns.len()].contains(&0)) {
        reached.push("0 in the list");
    }
    let other = answer(
        &seen.case.sheet,
        &recoded(request, &seen.words),
        8_192,
        8_192,
    );
    if other.number != 0 {
        reached.push("too many rows, were 0 another value");
    } else if other.steps != seen.answer.steps {
        reached.push("other steps, were 0 another value");
    }
    reached
}

/// Register rows are left out in many cases, in each way, and 0 stays in many.
#[test]
fn zeros_reach_each_way() {
    let mut times: BTreeMap<&str, usize> = BTreeMap::new();
    let mut answered = 0;
    for seen in all().iter().filter(|seen| seen.number == 0) {
        let request = seen.request.as_ref().unwrap();
        let reached: BTreeSet<&str> = zeros_reach(seen, request).into_iter().collect();
        reached
            .iter()
            .for_each(|what| *times.entry(*what).or_default() += 1);
        answered += 1;
    }
    for (what, least) in [
        ("left out", answered / 2),
        ("left out for one look-up alone", 100),
        ("left out by variables not yet known", answered / 3),
        ("left out by one look-up's columns", 200),
        ("0 in the list", answered / 5),
        ("too many rows, were 0 another value", 20),
        ("other steps, were 0 another value", answered / 4),
    ] {
        let found = times.get(what).copied().unwrap_or(0);
        assert!(found >= least, "{what}: {found} times of {answered}");
    }
}

#[test]
fn refusals_reach_every_shape() {
    let mut details: BTreeSet<(u32, u32)> = BTreeSet::new();
    let mut left_over: BTreeSet<usize> = BTreeSet::new();
    let mut lengths: BTreeSet<usize> = BTreeSet::new();
    for seen in all() {
        details.insert((seen.number, seen.detail));
        left_over.insert(seen.left_over);
        if seen.request.is_err() {
            lengths.insert(seen.case.sheet.len());
        }
        // The first fault of the sheet is what is printed, and else it is sound.
        match &seen.request {
            Ok(_) => assert!([0, 3, 4, 5].contains(&seen.number)),
            Err(fault) => assert_eq!((seen.number, seen.detail), (fault.number, fault.detail)),
        }
        // The route check needs no rows.
        let (number, detail) = check_route(&seen.case.sheet);
        match seen.number {
            0 | 5 => assert_eq!((number, detail), (0, 0)),
            3 => assert!(number == 0 || number == 4),
            told => assert_eq!((number, detail), (told, seen.detail)),
        }
    }
    assert_eq!(left_over.len(), 4);
    for step in 2..=4 {
        assert!(details.contains(&(5, step)), "over at step {step}");
    }
    // Each of the first six look-ups is never answerable at times, and at times is.
    for bit in 0..6 {
        for value in 0..2 {
            let found = details
                .iter()
                .any(|(number, d)| *number == 4 && d >> bit & 1 == value);
            assert!(found, "bit {bit} is {value}");
        }
    }
    assert!(lengths.contains(&0) && lengths.contains(&194));
    assert!(lengths.last().is_some_and(|length| *length > 250));
}
