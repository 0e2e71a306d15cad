//! The inputs. Nothing here is timed.

use second::examples::{depot, long_line, longest, made, typed_depot};
use second::made_up::Made;
use second::sheet::Request;
use second::typed::Typed;
use second::{write, Prices};

/// What is asked of each contender.
pub enum Asked {
    /// The whole answer.
    Answer(Made),
    /// The whole answer with p and q.
    Charged(Made, Prices),
    /// All steps of a request, each chosen and taken by itself.
    Steps(Made),
    /// The route check of a sheet.
    Check(Vec<u8>),
    /// The count of one variable over the rows of a table.
    Count(Counted),
    /// What a sheet says, in places.
    Read(Vec<u8>),
    /// The sheet that says this, written from places.
    Write(Request),
    /// What a typed line says, in places.
    Typed(Typed),
}

/// The first rows of a table, and a variable.
#[derive(Clone)]
pub struct Counted {
    pub table: Vec<u32>,
    pub rows: usize,
    pub variable: usize,
}

/// The line whose register rows are left out for a 0, half of them.
pub const ZEROS: &str = "join of 512 rows with 512, 0 in half";

/// Behind the name of a request's line: the same request, answered step by step.
pub const STEPS: &str = ", step by step";

/// A line of the tables.
pub struct Workload {
    pub name: String,
    pub asked: Asked,
}

/// Random numbers from a seed (splitmix64).
struct Dice(u64);

impl Dice {
    fn below(&mut self, limit: u32) -> u32 {
        self.0 = self.0.wrapping_add(0x9e37_79b9_7f4a_7c15);
        let mut z = self.0;
        z = (z ^ (z >> 30)).wrapping_mul(0xbf58_476d_1ce4_e5b9);
        z = (z ^ (z >> 27)).wrapping_mul(0x94d0_49bb_1331_11eb);
        ((z ^ (z >> 31)) % u64::from(limit)) as u32
    }

    /// The numbers below `count` in a random order.
    fn order(&mut self, count: u32) -> Vec<u32> {
        let mut order: Vec<u32> = (0..count).collect();
        for place in (1..order.len()).rev() {
            order.swap(place, self.below(place as u32 + 1) as usize);
        }
        order
    }
}

/// Names of variables from `low` up to `high`, without `high`.
fn variables(low: usize, high: usize) -> String {
    let names: Vec<String> = (low..high).map(|i| format!("v{i}")).collect();
    names.join(" ")
}

fn request(registers: &[String], names: &str, lookups: &[String], rows: &[Vec<Vec<u32>>]) -> Made {
    let registers: Vec<&str> = registers.iter().map(String::as_str).collect();
    let lookups: Vec<&str> = lookups.iter().map(String::as_str).collect();
    made(&registers, names, &lookups, rows)
}

/// 5 look-ups that hang together as a chain, on registers of 60 rows and 3 columns with 2 rules.
fn middling() -> Made {
    let mut dice = Dice(5);
    let registers: Vec<String> = (0..5).map(|i| format!("R{i} bff fbf")).collect();
    let names = format!("v0=4 {}", variables(1, 11));
    let lookup = |i: usize| format!("R{i}(v{i} v{} v{})", i + 1, i + 6);
    let lookups: Vec<String> = [3, 1, 4, 0, 2].map(lookup).to_vec();
    let mut rows = Vec::new();
    for _ in 0..5 {
        let row = |_| vec![1 + dice.below(30), 1 + dice.below(30), dice.below(1000)];
        rows.push((0..60).map(row).collect());
    }
    request(&registers, &names, &lookups, &rows)
}

/// 12 look-ups by `rule`, on lists of so many rows from the first step on: each list row finds one
/// row of each register by its first five columns.
fn twelve(rules: &[&str], others: usize, lines: &[Vec<u32>], last: impl Fn(u32) -> u32) -> Made {
    let mut registers = vec![format!("A{}", " ffffff".repeat(8))];
    let mut lookups = vec![format!("A({})", variables(0, 6))];
    for i in 0..others {
        registers.push(format!("B{i} {}", rules.join(" ")));
    }
    for i in 0..11 {
        let variable = i % 10;
        let names = variables(0, 5);
        lookups.push(format!("B{}({names} v{})", variable % others, 6 + variable));
    }
    let mut rows = vec![lines.to_vec()];
    for _ in 0..others {
        let with = |(i, line): (usize, &Vec<u32>)| [&line[..5], &[last(i as u32)]].concat();
        rows.push(lines.iter().enumerate().map(with).collect());
    }
    request(&registers, &variables(0, 16), &lookups, &rows)
}

/// 8 times one rule of five must-give columns, of which one counts up.
fn same_rules() -> Made {
    let lines: Vec<Vec<u32>> = (1..=512).map(|i| vec![7, 7, 7, 7, i, 1]).collect();
    twelve(&["bbbbbf"; 8], 1, &lines, |i| 1000 + i)
}

/// 8 different rules, and rows in a random order with many different combinations in all columns.
fn different_rules(rows: u32) -> Made {
    let mut dice = Dice(12);
    let rules = [
        "bbbbbf", "bbbbff", "bbbfbf", "bbfbbf", "bfbbbf", "fbbbbf", "fbbbff", "ffbbbf",
    ];
    let mut line = |i| {
        let mut line = vec![i];
        line.extend((0..5).map(|_| 1 + dice.below(64)));
        line
    };
    let mut lines: Vec<Vec<u32>> = (1..=rows).map(&mut line).collect();
    let order = Dice(13).order(rows);
    lines.sort_by_key(|line| order[line[0] as usize - 1]);
    twelve(&rules, 3, &lines, |i| 5000 - i)
}

/// A list joined with a register of 6 columns by the first one of both. The values of a line follow
/// from its number and the column.
fn join_of(first: &[u32], second: &[u32], value: impl Fn(u32, u32) -> u32) -> Made {
    let lines = |numbers: &[u32]| -> Vec<Vec<u32>> {
        let line = |number: &u32| (0..6).map(|c| value(*number, c)).collect();
        numbers.iter().map(line).collect()
    };
    request(
        &["A ffffff".to_string(), "B ffffff".to_string()],
        &variables(0, 11),
        &[
            format!("A({})", variables(0, 6)),
            format!("B(v0 {})", variables(6, 11)),
        ],
        &[lines(first), lines(second)],
    )
}

/// Ascending against descending.
fn ordered_join() -> Made {
    let keys: Vec<u32> = (1..=512).collect();
    let back: Vec<u32> = (1..=512).rev().collect();
    join_of(&keys, &back, |key, c| if c == 0 { key } else { c })
}

/// Both sides in a random order, one to one.
fn random_join(rows: u32) -> Made {
    let mut dice = Dice(6);
    let (first, second) = (dice.order(rows), dice.order(rows));
    join_of(&first, &second, |number, c| match c {
        0 => number + 1,
        _ => number * 31 % 97 + c,
    })
}

/// The same with 0 in the joined column of every second row on both sides, and other rows that differ
/// in the columns behind it: half of the rows are left out.
fn zero_join() -> Made {
    let mut dice = Dice(6);
    let (first, second) = (dice.order(512), dice.order(512));
    join_of(&first, &second, |number, c| match c {
        0 => number % 2 * (number + 1),
        _ => number + c,
    })
}

/// Both registers repeat one row 512 times.
fn one_row() -> Made {
    join_of(&[7; 512], &[7; 512], |key, c| if c == 0 { key } else { c })
}

/// A list of 512 rows with these values, and one count of what it shows at its first variables,
/// asked for by 8 equal rules of a register without rows.
fn counted(shown: usize, values: fn(u32) -> [u32; 6]) -> Made {
    let lines = (0..512).map(|i| values(i).to_vec()).collect();
    let rule = format!(" {}", "b".repeat(shown));
    request(
        &["A ffffff".to_string(), format!("B{}", rule.repeat(8))],
        &variables(0, 6),
        &[
            format!("A({})", variables(0, 6)),
            format!("B({})", variables(0, shown)),
        ],
        &[lines, Vec::new()],
    )
}

/// The count of one variable over 512 rows with these values.
fn one_count(value: fn(u32) -> u32) -> Asked {
    let mut table = vec![7; 8_192];
    for row in 0..512 {
        table[16 * row as usize + 3] = value(row);
    }
    Asked::Count(Counted {
        table,
        rows: 512,
        variable: 3,
    })
}

/// The longest sheet; and with a 1 for its last bit, so that it is refused once all of it is read.
fn sheets() -> Vec<Workload> {
    let sheet = write::sheet(&longest().request);
    assert_eq!(sheet.len(), 193, "the longest sheet");
    let mut damaged = sheet.clone();
    *damaged.last_mut().expect("a byte") |= 1;
    vec![
        line(
            "reading the longest sheet, 193 bytes",
            Asked::Check(damaged),
        ),
        line("route check of the longest sheet", Asked::Check(sheet)),
    ]
}

/// Two sheets read into places, and written from them.
fn places() -> [Workload; 4] {
    let (short, long) = (depot().request, longest().request);
    [
        line(
            "reading the depot sheet into places",
            Asked::Read(write::sheet(&short)),
        ),
        line(
            "reading the longest sheet into places",
            Asked::Read(write::sheet(&long)),
        ),
        line("writing the depot sheet, 19 bytes", Asked::Write(short)),
        line("writing the longest sheet, 193 bytes", Asked::Write(long)),
    ]
}

/// Two typed lines read into places.
fn typed() -> [Workload; 2] {
    [
        ("reading the depot line", typed_depot()),
        ("reading a typed line", long_line()),
    ]
    .map(|(name, typed)| {
        let name = format!("{name}, {} bytes", typed.line.len());
        line(name, Asked::Typed(typed))
    })
}

fn line(name: impl Into<String>, asked: Asked) -> Workload {
    Workload {
        name: name.into(),
        asked,
    }
}

fn answer(name: impl Into<String>, made: Made) -> Workload {
    line(name, Asked::Answer(made))
}

/// The line of a request that is answered step by step. The whole answer to it has a line too.
fn steps(name: &str, made: Made) -> Workload {
    line(format!("{name}{STEPS}"), Asked::Steps(made))
}

/// A line for each number of rows.
fn by_rows(name: impl Fn(u32) -> String, made: fn(u32) -> Made) -> [Workload; 4] {
    [64, 128, 256, 512].map(|rows| answer(name(rows), made(rows)))
}

/// All workloads, in the order of the tables.
pub fn all() -> Vec<Workload> {
    let mut all = sheets();
    all.extend([
        answer("depot case", depot()),
        steps("depot case", depot()),
        answer("middling: 5 look-ups, 60 rows each", middling()),
        steps("middling: 5 look-ups, 60 rows each", middling()),
        answer("12 look-ups, 8 times one rule, 512 rows", same_rules()),
    ]);
    all.extend(by_rows(
        |rows| format!("12 look-ups, 8 different rules, {rows} rows"),
        different_rules,
    ));
    all.push(line(
        "12 look-ups, 8 different rules, 512 rows, p = 1, q = 1",
        Asked::Charged(different_rules(512), Prices { p: 1, q: 1 }),
    ));
    all.push(steps(
        "12 look-ups, 8 different rules, 512 rows",
        different_rules(512),
    ));
    all.push(answer(
        "join of 512 rows with 512, in order",
        ordered_join(),
    ));
    all.extend(by_rows(
        |rows| format!("join of {rows} rows with {rows}, random order"),
        random_join,
    ));
    all.push(steps(
        "join of 512 rows with 512, random order",
        random_join(512),
    ));
    all.extend([
        answer(ZEROS, zero_join()),
        answer("join of registers that repeat one row", one_row()),
        answer(
            "512 rows by 6 variables, 512 combinations",
            counted(6, |i| [7, 7, 7, 7, 7, i + 1]),
        ),
        answer(
            "512 rows by 3 variables, 512 combinations",
            counted(3, |i| [i / 64 + 1, i / 8 % 8 + 1, i % 8 + 1, 7, 7, 7]),
        ),
        answer(
            "512 rows by 1 variable, 4 values",
            counted(1, |i| [i % 4 + 1, 7, 7, 7, 7, i]),
        ),
        line(
            "count of one variable, 512 different values",
            one_count(|row| 16 * row + 3),
        ),
        line(
            "count of one variable, 4 different values",
            one_count(|row| row % 4 + 1),
        ),
    ]);
    all.extend(places());
    all.extend(typed());
    all
}
