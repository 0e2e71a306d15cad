//! Holds the peer and SQLite to the second program on made-up cases, and requests step by step to their
//! whole answers, before anything is timed.

use crate::contenders::{ready, NAMES};
use crate::places;
use crate::workloads::{all, Asked, Workload, STEPS, ZEROS};
use second::fields::{self, Fields};
use second::made_up::{case, in_words, Case, Made};
use second::sheet::{self, Lookup};
use second::{made_up_charges, made_up_fields, Prices};

/// The seeds from 1 on.
const CASES: u64 = 30_000;

/// Every so many cases one has tables of which one is too short.
const SHORT: u64 = 16;

/// Every so many cases the sheet is damaged in each way below.
const DAMAGED: u64 = 64;

/// The second program's answer as the peer has it.
fn wanted(theirs: &second::Answer) -> peer::Answer {
    let mut steps = [peer::Step::default(); 12];
    for (step, their) in steps.iter_mut().zip(&theirs.steps) {
        *step = peer::Step {
            lookup: their.lookup,
            rule: their.rule,
            calls: their.calls as usize,
            rows: their.rows as usize,
            sent: their.sent as usize,
            charge: their.charge as usize,
        };
    }
    peer::Answer {
        number: theirs.number,
        detail: theirs.detail,
        steps,
        made: theirs.steps.len(),
        calls: theirs.calls as usize,
        charge: theirs.charge as usize,
        rows: theirs.rows.len(),
    }
}

/// Whether the peer's answer at these prices, and what it left in the tables, is the second program's;
/// and that.
fn answers(
    sheet: &[u8],
    words: &[u32],
    prices: Prices,
    lengths: (usize, usize),
) -> (bool, second::Answer) {
    let table = |length: usize| -> Vec<u32> { (7..length as u32 + 7).collect() };
    let (mut first, mut second) = (table(lengths.0), table(lengths.1));
    let theirs = second::answer_charged(sheet, words, prices, lengths.0, lengths.1);
    let (mut their_first, mut their_second) = (first.clone(), second.clone());
    second::tables(&theirs, &mut their_first, &mut their_second);
    let ours = match prices {
        Prices::CALLS => peer::answer(sheet, words, &mut first, &mut second),
        Prices { p, q } => {
            let (p, q) = (p as usize, q as usize);
            peer::answer_charged(sheet, words, p, q, &mut first, &mut second)
        }
    };
    let same = ours == wanted(&theirs) && first == their_first && second == their_second;
    (same, theirs)
}

/// Whether both tell the same of a sheet.
fn checks(sheet: &[u8]) -> bool {
    peer::check_route(sheet) == second::check_route(sheet) && reads(sheet)
}

/// Whether the peer puts into places what the second program reads, or its fault.
fn reads(sheet: &[u8]) -> bool {
    let mut out = [7; peer::SHEET_PLACES];
    let number = peer::read_sheet(sheet, &mut out);
    let mut wanted = [0; peer::SHEET_PLACES];
    let told = match sheet::read(sheet) {
        Ok(said) => {
            wanted = places::of(&Fields::of(&said));
            (0, 8 * sheet.len())
        }
        Err(fault) => (fault.number, fault.detail as usize),
    };
    (wanted[0], wanted[1]) = (told.0 as usize, told.1);
    number == told.0 && out == wanted
}

/// Whether both write the same from made-up fields, into a buffer of each length. Counts the numbers.
fn writes(seed: u64, numbers: &mut [usize; 14]) -> bool {
    let made = made_up_fields::case(seed);
    let places = places::of(&made.fields);
    made.lengths.iter().all(|length| {
        let (mut ours, mut theirs) = (vec![0xA5; *length], vec![0xA5; *length]);
        let written = fields::write(&made.fields, &mut theirs);
        numbers[written.number as usize] += 1;
        let told = (written.number, written.detail as usize, written.bytes);
        peer::write_sheet(&places, &mut ours) == told && ours == theirs
    })
}

/// The route check of each start of a sheet, and of the sheet with each bit changed, with and without
/// bytes behind it.
fn damaged(sheet: &[u8]) -> bool {
    let changed = |bit: usize| {
        let mut sheet = sheet.to_vec();
        sheet[bit / 8] ^= 0x80 >> (bit % 8);
        checks(&sheet) && checks(&[&sheet[..], &[0; 200]].concat())
    };
    (0..sheet.len()).all(|length| checks(&sheet[..length])) && (0..8 * sheet.len()).all(changed)
}

/// The counts of each variable, and of questions that are refused.
fn counts(table: &[u32], rows: usize) -> bool {
    let mut asked: Vec<(usize, usize)> = (0..17).map(|variable| (rows, variable)).collect();
    asked.extend([(512, 3), (513, 3), (usize::MAX, 0), (rows, usize::MAX)]);
    asked.into_iter().all(|(rows, variable)| {
        let (number, values) = second::count(table, rows, variable);
        peer::count(table, rows, variable) == (number, values as usize)
    })
}

/// Whether SQLite gives the same list for a case that is answered, also once its rows are loaded again.
#[cfg(feature = "sqlite")]
fn list(case: &Case, words: &[u32], answer: &second::Answer) -> bool {
    let Ok(request) = sheet::read(&case.sheet) else {
        return false;
    };
    let mut left = words;
    let mut rows = Vec::new();
    for register in &request.registers {
        let (part, behind) = left[1..].split_at(left[0] as usize * register.columns);
        rows.push(part.chunks(register.columns).map(<[u32]>::to_vec).collect());
        left = behind;
    }
    let mut query = sqlite::Query::new(&Made { request, rows });
    let wanted: Vec<u32> = answer.rows.iter().flatten().copied().collect();
    let same = |query: &mut sqlite::Query| {
        let mut table = vec![0; 8_192];
        let count = query.run(&mut table);
        count == answer.rows.len() && table[..16 * count] == wanted
    };
    let loaded_before = same(&mut query);
    query.load_again();
    loaded_before && same(&mut query)
}

#[cfg(not(feature = "sqlite"))]
fn list(_: &Case, _: &[u32], _: &second::Answer) -> bool {
    true
}

/// Whether all agree on the case of this seed, and its number.
fn agree(seed: u64) -> (bool, u32) {
    let case = case(seed);
    let (words, _) = second::data::words(&case.data);
    let answers = |lengths| answers(&case.sheet, &words, Prices::CALLS, lengths);
    let (mut same, theirs) = answers((8_192, 8_200));
    if seed.is_multiple_of(SHORT) {
        same &= answers((8_192, 8_191)).0;
        same &= answers((8_191, 8_192)).0;
    }
    same &= checks(&case.sheet);
    if seed.is_multiple_of(DAMAGED) {
        same &= damaged(&case.sheet);
    }
    let mut table: Vec<u32> = theirs.rows.iter().flatten().copied().collect();
    let behind = table.len() as u32..8_192;
    table.extend(behind.map(|place| place / 16 % 3));
    same &= counts(&table, theirs.rows.len());
    if theirs.number == 0 && seed.is_multiple_of(8) {
        same &= list(&case, &words, &theirs);
    }
    (same, theirs.number)
}

/// Whether both answer the made-up request with p and q of this seed alike, and its number.
fn charges(seed: u64) -> (bool, u32) {
    let case = made_up_charges::case(seed);
    let answers = |lengths| answers(&case.sheet, &case.words, case.prices, lengths);
    let (mut same, theirs) = answers((8_200, 8_192));
    if seed.is_multiple_of(SHORT) {
        same &= answers((8_192, 8_191)).0;
    }
    (same, theirs.number)
}

/// How many register rows are left out, each as often as there are look-ups that leave it out.
fn left_out(made: &Made) -> usize {
    let lookups = &made.request.lookups;
    let stands_in = |v: usize| {
        lookups
            .iter()
            .flat_map(|l| &l.variables)
            .filter(|o| **o == v)
            .count()
    };
    let never = |v: usize| made.request.givens[v].is_some() || stands_in(v) > 1;
    let of = |lookup: &Lookup| {
        let zero = |row: &&Vec<u32>| {
            let mut columns = lookup.variables.iter().zip(*row);
            columns.any(|(variable, value)| *value == 0 && never(*variable))
        };
        made.rows[lookup.register].iter().filter(zero).count()
    };
    lookups.iter().map(of).sum()
}

/// What a workload's zeros leave out: register rows, or rows that are counted.
fn zeros(asked: &Asked) -> usize {
    match asked {
        Asked::Answer(made) | Asked::Charged(made, _) | Asked::Steps(made) => left_out(made),
        Asked::Check(_) | Asked::Read(_) | Asked::Write(_) | Asked::Typed(_) => 0,
        Asked::Count(counted) => {
            let rows = counted.table.chunks(16).take(counted.rows);
            rows.filter(|row| row[counted.variable] == 0).count()
        }
    }
}

/// Only the line for it has rows that are left out, half of all: the others measure what they did
/// before 0 meant not known.
fn workloads() -> Result<(), String> {
    for Workload { name, asked } in all() {
        let wanted = if name == ZEROS { 512 } else { 0 };
        let found = zeros(&asked);
        if found != wanted {
            return Err(format!("{name}: {found} rows are left out, not {wanted}"));
        }
    }
    Ok(())
}

/// Says how many requests come step by step to the whole answer, by each contender that plays; an error
/// at the first whose whole answer has no line. A play that comes to another answer ends it all.
fn stepped() -> Result<(), String> {
    let (all, mut requests, mut plays) = (all(), 0, 0);
    for Workload { name, asked } in &all {
        let Asked::Steps(made) = asked else {
            continue;
        };
        let whole = |line: &Workload| match &line.asked {
            Asked::Answer(other) => other == made && format!("{}{STEPS}", line.name) == *name,
            _ => false,
        };
        if !all.iter().any(whole) {
            return Err(format!("{name}: no line has the whole answer"));
        }
        requests += 1;
        let contenders = 0..NAMES.len();
        plays += contenders.filter_map(|c| ready(c, asked, true)).count();
    }
    println!("{requests} requests come to the whole answer step by step; {plays} plays");
    Ok(())
}

/// Says how many made-up fields are written alike; an error at the first that are not.
fn written() -> Result<(), String> {
    let mut numbers = [0; 14];
    for seed in 1..=CASES {
        if !writes(seed, &mut numbers) {
            return Err(format!("the fields of seed {seed} are written otherwise"));
        }
    }
    println!("{CASES} made-up fields are written alike; buffers by number, 0 to 13: {numbers:?}");
    Ok(())
}

/// Says how many cases agree; an error at the first that does not.
fn answered() -> Result<(), String> {
    let mut numbers = [0; 13];
    for seed in 1..=CASES {
        let (same, number) = agree(seed);
        numbers[number as usize] += 1;
        if !same {
            return Err(format!("seed {seed} differs\n{}", in_words(&case(seed))));
        }
    }
    println!("{CASES} made-up cases agree; by number, 0 to 12: {numbers:?}");
    Ok(())
}

/// Says how many made-up requests with p and q are answered alike; an error at the first that is not.
fn charged() -> Result<(), String> {
    let mut numbers = [0; 18];
    for seed in 1..=CASES {
        let (same, number) = charges(seed);
        numbers[number as usize] += 1;
        if !same {
            let case = made_up_charges::case(seed);
            let words = made_up_charges::in_words(&case);
            return Err(format!("the charges of seed {seed} differ\n{words}"));
        }
    }
    println!("{CASES} made-up requests with p and q agree; by number, 0 to 17: {numbers:?}");
    Ok(())
}

/// All of it, and what the lines measure.
pub fn check() -> Result<(), String> {
    workloads()?;
    stepped()?;
    answered()?;
    charged()?;
    written()
}
