//! Made-up cases from a seed: sound sheets with joins that hit, and cases at each edge.

use crate::route::never_zero;
use crate::sheet::{Lookup, Register, Request};
use crate::{broken, data, sheet, write};

/// The two files of a case, and what kind of case it is.
#[derive(Debug, Clone, PartialEq, Eq)]
pub struct Case {
    pub sheet: Vec<u8>,
    pub data: Vec<u8>,
    pub kind: &'static str,
    /// The sheet as it was before bits or bytes of it were changed.
    pub before: Vec<u8>,
}

/// A request and the lines of each register, before they are written.
#[derive(Debug, Clone, PartialEq, Eq)]
pub struct Made {
    pub request: Request,
    pub rows: Vec<Vec<Vec<u32>>>,
}

/// Random numbers from a seed (splitmix64).
pub(crate) struct Dice(u64);

impl Dice {
    /// The numbers of this seed.
    pub(crate) fn new(seed: u64) -> Dice {
        Dice(seed)
    }

    /// Any number.
    pub(crate) fn next(&mut self) -> u64 {
        self.0 = self.0.wrapping_add(0x9e37_79b9_7f4a_7c15);
        let mut z = self.0;
        z = (z ^ (z >> 30)).wrapping_mul(0xbf58_476d_1ce4_e5b9);
        z = (z ^ (z >> 27)).wrapping_mul(0x94d0_49bb_1331_11eb);
        z ^ (z >> 31)
    }

    /// A number from `low` to `high`.
    pub(crate) fn from(&mut self, low: usize, high: usize) -> usize {
        low + (self.next() % (high - low + 1) as u64) as usize
    }

    /// True once in so many times.
    pub(crate) fn once_in(&mut self, times: usize) -> bool {
        self.from(1, times) == 1
    }

    /// One of these.
    pub(crate) fn pick<'a, T>(&mut self, of: &'a [T]) -> &'a T {
        &of[self.from(0, of.len() - 1)]
    }

    /// A kind and how it is made, each as often as its weight says.
    pub(crate) fn kind<T: Copy>(
        &mut self,
        kinds: &[(&'static str, usize, T)],
    ) -> (&'static str, T) {
        let total: usize = kinds.iter().map(|(_, weight, _)| weight).sum();
        let mut left = self.from(0, total - 1);
        for (kind, weight, make) in kinds {
            if left < *weight {
                return (kind, *make);
            }
            left -= weight;
        }
        unreachable!("the weights add up to the total")
    }

    pub(crate) fn shuffle<T>(&mut self, what: &mut [T]) {
        for place in (1..what.len()).rev() {
            what.swap(place, self.from(0, place));
        }
    }

    /// The numbers below `count` in a random order.
    fn order(&mut self, count: usize) -> Vec<usize> {
        let mut order: Vec<usize> = (0..count).collect();
        self.shuffle(&mut order);
        order
    }
}

/// A kind: its name, its weight and what makes it.
type Kind = (&'static str, usize, fn(&mut Dice) -> Case);

const KINDS: &[Kind] = &[
    // Sound, and most of them answered.
    ("random", 28, |d| shaped(d, Shape::Random)),
    ("chain", 26, |d| shaped(d, Shape::Chain)),
    ("star", 23, |d| shaped(d, Shape::Star)),
    ("clique", 20, |d| shaped(d, Shape::Clique)),
    ("one-register", 9, |d| shaped(d, Shape::OneRegister)),
    ("repeated-variable", 9, |d| shaped(d, Shape::Repeated)),
    ("wide", 5, |d| shaped(d, Shape::Wide)),
    ("twelve-lookups", 7, |d| shaped(d, Shape::Twelve)),
    ("longest-sheet", 2, longest_sheet),
    ("empty-register", 4, empty_register),
    ("many-rows", 8, |d| written(&many_rows(d))),
    // Lists at and over the limit.
    ("list-512", 4, |d| written(&list_full(d))),
    ("list-over", 6, |d| written(&list_over(d))),
    // No route.
    ("no-route", 8, |d| written(&no_route(d))),
    // Sheets that are nearly sound.
    ("field-over", 5, field_over),
    ("field-put-over", 6, |d| broken_by(d, broken::field_over)),
    ("given-zero", 4, |d| broken_by(d, broken::given_zero)),
    ("unused-variable", 3, |d| broken_by(d, broken::unused)),
    ("padding-bit", 2, |d| broken_by(d, broken::padding)),
    ("byte-more", 2, |d| broken_by(d, broken::bytes_more)),
    ("padding-and-byte", 1, |d| {
        broken_by(d, broken::padding_and_bytes)
    }),
    ("ends-early", 7, ends_early),
    ("byte-fewer", 1, byte_fewer),
    // Damaged sheets.
    ("flipped-bits", 4, flipped_bits),
    ("cut-sheet", 2, cut_sheet),
    ("noise-sheet", 2, noise_sheet),
    // Row data at its limits.
    ("count-512", 2, |d| long_register(d, 512)),
    ("count-513", 2, |d| long_register(d, 513)),
    ("count-huge", 2, count_huge),
    ("words-16384", 1, |d| filled(d, 16_384)),
    ("words-16385", 1, |d| filled(d, 16_385)),
    ("left-over-bytes", 2, left_over_bytes),
    ("word-missing", 2, word_missing),
    ("words-left-over", 2, words_left_over),
    ("cut-data", 1, cut_data),
    ("noise-data", 1, noise_data),
    // More than one refusal fits.
    ("over-and-ends-early", 3, |d| {
        broken_by(d, broken::over_and_ends_early)
    }),
    ("zero-and-fault", 7, zero_and_fault),
    ("sheet-and-data", 3, sheet_and_data),
    ("sheet-and-no-route", 4, |d| broken_too(d, no_route)),
    ("sheet-and-list-over", 3, |d| broken_too(d, list_over)),
    ("two-faults", 2, two_faults),
];

/// The names of all kinds.
pub fn kinds() -> Vec<&'static str> {
    KINDS.iter().map(|(kind, _, _)| *kind).collect()
}

/// The case of this seed.
pub fn case(seed: u64) -> Case {
    let mut dice = Dice::new(seed);
    let (kind, make) = dice.kind(KINDS);
    Case {
        kind,
        ..make(&mut dice)
    }
}

/// A small request with few rows, for comparing with an enumeration: at most 4 look-ups,
/// 3 rules and 4 rows a register. Some have no route.
pub fn small(seed: u64) -> Made {
    let mut dice = Dice::new(seed);
    let d = &mut dice;
    let n = d.from(1, 4);
    let pool = d.from(1, 5);
    let mut lookups = Vec::new();
    for _ in 0..n {
        let columns = *d.pick(&[1, 2, 2, 2, 3]);
        lookups.push((0..columns).map(|_| d.from(0, pool - 1)).collect());
    }
    let dress = Dress {
        share: d.from(0, 2),
        given: d.from(0, 2),
        most_rules: 3,
        repaired: d.once_in(2),
    };
    let request = dressed(d, lookups, &dress);
    let values = palette(d, 3);
    let solutions = d.from(0, 2);
    let mut rows = planted(d, &request, &values, solutions);
    noise(d, &request, &mut rows, &values, 2);
    for register in &mut rows {
        register.truncate(4);
    }
    Made { request, rows }
}

// ---------------------------------------------------------------- sound requests

/// How the look-ups hang together.
#[derive(Clone, Copy, PartialEq, Eq)]
enum Shape {
    Random,
    Chain,
    Star,
    Clique,
    OneRegister,
    Repeated,
    Wide,
    Twelve,
}

/// How registers, givens and rules are chosen.
struct Dress {
    /// Out of 4: how often a look-up takes a register that serves another look-up already.
    share: usize,
    /// Out of 6: how often a variable is given.
    given: usize,
    most_rules: usize,
    /// Whether the rules are loosened until a route exists.
    repaired: bool,
}

/// The variables of each look-up, by shape.
fn look_ups(d: &mut Dice, shape: Shape) -> Vec<Vec<usize>> {
    match shape {
        Shape::Random => random(d),
        Shape::Chain => chain(d),
        Shape::Star => star(d),
        Shape::Clique => clique(d),
        Shape::OneRegister => one_width(d),
        Shape::Repeated => repeated(d),
        Shape::Wide => wide(d),
        Shape::Twelve => twelve(d),
    }
}

/// So many variables below `pool`.
fn variables(d: &mut Dice, pool: usize, columns: usize) -> Vec<usize> {
    (0..columns).map(|_| d.from(0, pool - 1)).collect()
}

fn random(d: &mut Dice) -> Vec<Vec<usize>> {
    let pool = d.from(2, 10);
    let look_up = |d: &mut Dice| {
        let columns = d.from(1, 4);
        variables(d, pool, columns)
    };
    (0..d.from(1, 7)).map(|_| look_up(d)).collect()
}

fn chain(d: &mut Dice) -> Vec<Vec<usize>> {
    let mut lookups: Vec<Vec<usize>> = (0..d.from(2, 12)).map(|i| vec![i, i + 1]).collect();
    for variables in &mut lookups {
        if d.once_in(2) {
            variables.reverse();
        }
    }
    lookups
}

fn star(d: &mut Dice) -> Vec<Vec<usize>> {
    let mut lookups: Vec<Vec<usize>> = (1..=d.from(2, 8)).map(|i| vec![0, i]).collect();
    for (variables, i) in lookups.iter_mut().zip(1..) {
        if d.once_in(4) {
            variables.push(d.from(0, i));
        }
    }
    lookups
}

fn clique(d: &mut Dice) -> Vec<Vec<usize>> {
    let corners = *d.pick(&[3, 3, 4, 4, 5]);
    let from = |i| (i + 1..corners).map(move |j| vec![i, j]);
    (0..corners).flat_map(from).collect()
}

fn one_width(d: &mut Dice) -> Vec<Vec<usize>> {
    let columns = d.from(1, 3);
    let n = d.from(2, 6);
    let pool = d.from(columns, 6);
    (0..n).map(|_| variables(d, pool, columns)).collect()
}

/// In each look-up a variable stands twice; half of these stand in no other look-up.
fn repeated(d: &mut Dice) -> Vec<Vec<usize>> {
    let pool = d.from(1, 4);
    let look_up = |d: &mut Dice, i: usize| {
        let columns = d.from(2, 5);
        let mut variables = variables(d, pool, columns);
        if d.once_in(2) {
            variables[0] = pool + i;
        }
        variables[columns - 1] = variables[0];
        variables
    };
    (0..d.from(2, 5)).map(|i| look_up(d, i)).collect()
}

fn wide(d: &mut Dice) -> Vec<Vec<usize>> {
    let pool = d.from(10, 16);
    let look_up = |i| (0..6).map(|c| (i * 3 + c) % pool).collect();
    (0..d.from(4, 8)).map(look_up).collect()
}

fn twelve(d: &mut Dice) -> Vec<Vec<usize>> {
    let pool = d.from(3, 10);
    let look_up = |i| {
        let columns = d.from(1, 3);
        let mut variables = variables(d, pool, columns);
        variables[0] = i % pool;
        variables
    };
    (0..12).map(look_up).collect()
}

/// A request over these look-ups, with registers, givens and rules.
/// Variables and registers are renumbered at random.
fn dressed(d: &mut Dice, mut lookups: Vec<Vec<usize>>, dress: &Dress) -> Request {
    let (variables, lonely) = renumbered(d, &mut lookups);
    let (columns, serves) = served(d, &lookups, dress);
    let places = d.order(columns.len());
    let registers = ruled(d, &columns, &places, dress);
    let mut givens: Vec<Option<u32>> = Vec::new();
    for variable in 0..variables {
        let value = *d.pick(&[1, 2, 3, 7, 4_294_967_295]);
        let given = lonely == Some(variable) || d.from(1, 6) <= dress.given;
        givens.push(given.then_some(value));
    }
    let lookups = lookups
        .into_iter()
        .zip(serves)
        .map(|(variables, number)| Lookup {
            register: places[number],
            variables,
        })
        .collect();
    let mut request = Request {
        registers,
        givens,
        lookups,
    };
    if dress.repaired {
        loosen(d, &mut request);
    }
    request
}

/// Renumbers the variables that stand in a look-up; at times there is one more, which must be given.
/// How many there are, and the one more.
fn renumbered(d: &mut Dice, lookups: &mut [Vec<usize>]) -> (usize, Option<usize>) {
    let mut used: Vec<usize> = lookups.iter().flatten().copied().collect();
    used.sort_unstable();
    used.dedup();
    let lonely = used.len() < 16 && d.once_in(8);
    let count = used.len() + usize::from(lonely);
    let names = d.order(count);
    for variable in lookups.iter_mut().flatten() {
        let place = used.iter().position(|u| u == variable).unwrap_or(0);
        *variable = names[place];
    }
    (count, lonely.then(|| names[used.len()]))
}

/// A register per look-up, or a shared one; at times registers without a look-up. The columns of
/// each register, and the register of each look-up.
fn served(d: &mut Dice, lookups: &[Vec<usize>], dress: &Dress) -> (Vec<usize>, Vec<usize>) {
    let mut columns: Vec<usize> = Vec::new();
    let mut serves: Vec<usize> = Vec::new();
    for variables in lookups {
        let fitting: Vec<usize> = (0..columns.len())
            .filter(|r| columns[*r] == variables.len())
            .collect();
        if !fitting.is_empty() && d.from(1, 4) <= dress.share {
            serves.push(*d.pick(&fitting));
        } else {
            serves.push(columns.len());
            columns.push(variables.len());
        }
    }
    while columns.len() < 12 && d.once_in(6) {
        columns.push(d.from(1, 6));
    }
    (columns, serves)
}

/// Registers of these columns, each at its place, with rules.
fn ruled(d: &mut Dice, columns: &[usize], places: &[usize], dress: &Dress) -> Vec<Register> {
    // Out of 4, so many marks are "must give".
    let musts = d.from(1, 3);
    let mut registers = vec![spare(0, 0); columns.len()];
    for (columns, place) in columns.iter().zip(places) {
        let rule_count = if d.once_in(5) {
            d.from(1, dress.most_rules)
        } else {
            d.from(1, dress.most_rules.min(3))
        };
        let rules = (0..rule_count)
            .map(|_| (0..*columns).map(|_| d.from(1, 4) <= musts).collect())
            .collect();
        registers[*place] = Register {
            columns: *columns,
            rules,
        };
    }
    registers
}

/// Takes must-give marks out of rules until some order of the look-ups is a route.
fn loosen(d: &mut Dice, request: &mut Request) {
    let mut known: Vec<bool> = request.givens.iter().map(|given| given.is_some()).collect();
    for number in d.order(request.lookups.len()) {
        let lookup = &request.lookups[number];
        let rules = &mut request.registers[lookup.register].rules;
        let usable = |rule: &Vec<bool>| {
            let mut marks = rule.iter().zip(&lookup.variables);
            marks.all(|(must, variable)| !must || known[*variable])
        };
        if !rules.iter().any(usable) {
            let place = d.from(0, rules.len() - 1);
            for (mark, variable) in rules[place].iter_mut().zip(&lookup.variables) {
                *mark = *mark && known[*variable];
            }
        }
        for variable in &lookup.variables {
            known[*variable] = true;
        }
    }
}

/// A few values to fill columns with, most often 0 among them; few values make joins hit.
fn palette(d: &mut Dice, count: usize) -> Vec<u32> {
    let edges = [
        0,
        4_294_967_295,
        2_147_483_648,
        2_147_483_647,
        1,
        256,
        65_535,
        4_294_967_294,
    ];
    match d.from(1, 4) {
        1 => (0..count)
            .map(|i| edges.get(i).copied().unwrap_or(i as u32 + 1000))
            .collect(),
        2 => (0..count).map(|i| 4_294_967_295 - i as u32).collect(),
        _ => (0..count as u32).collect(),
    }
}

/// Lines that make this many answers: values for all variables, and in each look-up's register
/// the row that fits them. Once in 8 a variable that never takes 0 may have it, and then there is one
/// answer fewer.
fn planted(
    d: &mut Dice,
    request: &Request,
    values: &[u32],
    solutions: usize,
) -> Vec<Vec<Vec<u32>>> {
    let never = never_zero(request);
    let others: Vec<u32> = values.iter().copied().filter(|value| *value != 0).collect();
    let mut rows = vec![Vec::new(); request.registers.len()];
    for _ in 0..solutions {
        let any = d.once_in(8);
        let mut choose = |variable: usize| match any || !never.contains(&variable) {
            true => *d.pick(values),
            false => *d.pick(&others),
        };
        let chosen: Vec<u32> = (request.givens.iter().enumerate())
            .map(|(variable, given)| given.unwrap_or_else(|| choose(variable)))
            .collect();
        for lookup in &request.lookups {
            let row = lookup.variables.iter().map(|v| chosen[*v]).collect();
            rows[lookup.register].push(row);
        }
    }
    rows
}

/// Adds up to `most` lines to each register: random ones, zeros alone, near misses, some by a 0, and
/// lines that repeat.
fn noise(d: &mut Dice, request: &Request, rows: &mut [Vec<Vec<u32>>], values: &[u32], most: usize) {
    for (register, lines) in request.registers.iter().zip(rows) {
        for _ in 0..d.from(0, most) {
            let mut line: Vec<u32> = (0..register.columns).map(|_| *d.pick(values)).collect();
            if d.once_in(12) {
                line.fill(0);
            }
            if !lines.is_empty() && d.once_in(2) {
                let place = d.from(0, register.columns - 1);
                let value = line[place];
                line = d.pick(lines).clone();
                match d.from(1, 4) {
                    1 => {}
                    2 => line[place] = 0,
                    _ => line[place] = value,
                }
            }
            lines.push(line);
        }
        d.shuffle(lines);
    }
}

/// A sound request of this shape with its lines.
fn made(d: &mut Dice, shape: Shape) -> Made {
    let lookups = look_ups(d, shape);
    let dress = Dress {
        share: if shape == Shape::OneRegister { 4 } else { 1 },
        given: *d.pick(&[0, 1, 1, 2]),
        most_rules: 8,
        repaired: !d.once_in(20),
    };
    let n = lookups.len();
    let request = dressed(d, lookups, &dress);
    let count = d.from(2, 8);
    let values = palette(d, count);
    let solutions = *d.pick(&[0, 1, 1, 1, 2, 2, 2, 3, 3, 4]);
    let most = if n > 8 { 3 } else { d.from(1, 8) };
    let mut rows = planted(d, &request, &values, solutions);
    noise(d, &request, &mut rows, &values, most);
    Made { request, rows }
}

/// A sound request of some small shape.
pub(crate) fn any(d: &mut Dice) -> Made {
    let shape = *d.pick(&[
        Shape::Random,
        Shape::Chain,
        Shape::Star,
        Shape::Clique,
        Shape::OneRegister,
        Shape::Repeated,
    ]);
    made(d, shape)
}

/// A sound request of some shape, at times the longest.
pub(crate) fn sound(d: &mut Dice) -> Request {
    let made = match d.from(1, 10) {
        1 => longest(d),
        2 => made(d, Shape::Wide),
        3 => made(d, Shape::Twelve),
        _ => any(d),
    };
    made.request
}

/// A sound request of some shape with its lines; at times it has no route, or lists at the limit or over
/// it.
pub(crate) fn with_lines(d: &mut Dice) -> Made {
    match d.from(1, 24) {
        1 => longest(d),
        2 => made(d, Shape::Wide),
        3 | 4 => made(d, Shape::Twelve),
        5 => no_route(d),
        6 => list_full(d),
        7 => list_over(d),
        _ => any(d),
    }
}

/// A request of up to 6 look-ups, of one of the shapes.
fn up_to_six(d: &mut Dice, shapes: &[Shape], most_rules: usize, repaired: bool) -> Request {
    let shape = *d.pick(shapes);
    let mut lookups = look_ups(d, shape);
    lookups.truncate(6);
    let dress = Dress {
        share: 1,
        given: d.from(0, 2),
        most_rules,
        repaired,
    };
    dressed(d, lookups, &dress)
}

/// Shapes of requests whose look-ups have few columns.
const NARROW: [Shape; 5] = [
    Shape::Random,
    Shape::Chain,
    Shape::Star,
    Shape::Clique,
    Shape::Repeated,
];

/// A sound request of up to 6 look-ups whose registers have many different rules, and rows in different
/// numbers: how many are sent depends on the rule.
pub(crate) fn many_rules(d: &mut Dice) -> Made {
    let mut request = up_to_six(d, &NARROW, 4, true);
    for register in &mut request.registers {
        for _ in register.rules.len()..d.from(2, 8) {
            let rule = (0..register.columns).map(|_| d.once_in(2)).collect();
            register.rules.push(rule);
        }
        d.shuffle(&mut register.rules);
    }
    let (count, most) = *d.pick(&[(2, 4), (3, 8), (5, 16), (9, 32)]);
    let values = palette(d, count);
    let solutions = d.from(1, 3);
    let mut rows = planted(d, &request, &values, solutions);
    noise(d, &request, &mut rows, &values, most);
    Made { request, rows }
}

/// A sound request of up to 6 look-ups whose rules must be given most of what is known, with several
/// rows: calls have several values, and there are several calls.
pub(crate) fn must_give_much(d: &mut Dice) -> Made {
    let mut shapes = NARROW.to_vec();
    shapes.push(Shape::Wide);
    let mut request = up_to_six(d, &shapes, 3, false);
    for mark in request
        .registers
        .iter_mut()
        .flat_map(|r| r.rules.iter_mut().flatten())
    {
        *mark = !d.once_in(5);
    }
    loosen(d, &mut request);
    let count = d.from(3, 6);
    let values = palette(d, count);
    let solutions = d.from(2, 8);
    let mut rows = planted(d, &request, &values, solutions);
    noise(d, &request, &mut rows, &values, 12);
    Made { request, rows }
}

/// A sound request with room for further registers, variables and look-ups.
fn roomy(d: &mut Dice, registers: usize, variables: usize, lookups: usize) -> Made {
    loop {
        let made = any(d);
        if made.request.registers.len() + registers <= 12
            && made.request.givens.len() + variables <= 16
            && made.request.lookups.len() + lookups <= 12
        {
            return made;
        }
    }
}

/// The files of this request. The kind is put in by `case`.
fn written(made: &Made) -> Case {
    let sheet = write::sheet(&made.request);
    Case {
        before: sheet.clone(),
        sheet,
        data: write::bytes(&write::words(&made.rows)),
        kind: "",
    }
}

fn shaped(d: &mut Dice, shape: Shape) -> Case {
    written(&made(d, shape))
}

/// A sheet of 193 bytes, each number at its most.
pub(crate) fn longest(d: &mut Dice) -> Made {
    let lookups = (0..12)
        .map(|i| (0..6).map(|c| (i + c * c) % 16).collect())
        .collect();
    let dress = Dress {
        share: 0,
        given: 6,
        most_rules: 8,
        repaired: true,
    };
    let mut request = dressed(d, lookups, &dress);
    for register in &mut request.registers {
        let rule = register.rules[0].clone();
        register.rules.resize(8, rule);
    }
    let values = palette(d, 3);
    let mut rows = planted(d, &request, &values, 1);
    noise(d, &request, &mut rows, &values, 2);
    Made { request, rows }
}

fn longest_sheet(d: &mut Dice) -> Case {
    let mut case = written(&longest(d));
    if d.once_in(3) {
        case.sheet.push(0);
    }
    case
}

/// One register has no row.
fn empty_register(d: &mut Dice) -> Case {
    let mut made = any(d);
    let register = d.pick(&made.request.lookups).register;
    made.rows[register].clear();
    written(&made)
}

/// Registers with many rows over many values, joined along a chain or a star.
pub(crate) fn many_rows(d: &mut Dice) -> Made {
    let shape = *d.pick(&[Shape::Chain, Shape::Star]);
    let mut lookups = look_ups(d, shape);
    lookups.truncate(4);
    let dress = Dress {
        share: 1,
        given: 0,
        most_rules: 4,
        repaired: true,
    };
    let request = dressed(d, lookups, &dress);
    let most = d.from(40, 150);
    let values = palette(d, most);
    let mut rows = planted(d, &request, &values, 10);
    noise(d, &request, &mut rows, &values, most);
    Made { request, rows }
}

// ---------------------------------------------------------------- lists at the limit

/// Numbers of different rows whose product is 512.
const FULL: &[&[usize]] = &[
    &[16, 32],
    &[32, 16],
    &[8, 64],
    &[2, 256],
    &[512],
    &[512, 1],
    &[1, 512],
    &[4, 128],
    &[8, 8, 8],
    &[2, 4, 64],
];

/// Numbers of different rows whose product is over 512, some by one.
const OVER: &[&[usize]] = &[
    &[27, 19],
    &[19, 27],
    &[171, 3],
    &[9, 57],
    &[3, 3, 57],
    &[23, 23],
    &[512, 2],
    &[2, 512],
    &[22, 24],
    &[100, 100],
];

/// Adds a look-up in a register of its own with one rule and these lines.
fn add(made: &mut Made, variables: Vec<usize>, rule: Vec<bool>, lines: Vec<Vec<u32>>) {
    made.request.lookups.push(Lookup {
        register: made.request.registers.len(),
        variables,
    });
    made.request.registers.push(Register {
        columns: rule.len(),
        rules: vec![rule],
    });
    made.rows.push(lines);
}

/// Adds a variable that is not given.
fn add_variable(made: &mut Made) -> usize {
    made.request.givens.push(None);
    made.request.givens.len() - 1
}

/// Adds a look-up of so many different rows, with lines that repeat, behind the key if there is one.
/// Where its variable will stand in another look-up too, or there is a key, lines with 0 are left
/// out, and so at times there are some.
fn add_factor(d: &mut Dice, made: &mut Made, factor: usize, key: Option<u32>, again: bool) {
    let variable = add_variable(made);
    let low = *d.pick(&[u32::from(again), 1, 4_294_966_700]);
    let mut lines: Vec<Vec<u32>> = (low..).take(factor).map(|value| vec![value]).collect();
    let mut variables = vec![variable];
    if let Some(key) = key {
        lines.iter_mut().for_each(|line| line.insert(0, key));
        variables.insert(0, 0);
    }
    for _ in 0..d.from(0, 40).min(512 - lines.len()) {
        let mut line = lines[d.from(0, factor - 1)].clone();
        if again && d.once_in(2) {
            line[variables.len() - 1] = 0;
        } else if key.is_some() && d.once_in(2) {
            line[0] = 0;
        }
        lines.push(line);
    }
    d.shuffle(&mut lines);
    let rule = vec![false; variables.len()];
    add(made, variables, rule, lines);
}

/// The same with the registers in another order.
fn shuffled(d: &mut Dice, made: &Made) -> Made {
    let places = d.order(made.rows.len());
    let mut other = made.clone();
    for (old, new) in places.iter().enumerate() {
        other.request.registers[*new] = made.request.registers[old].clone();
        other.rows[*new] = made.rows[old].clone();
    }
    for lookup in &mut other.request.lookups {
        lookup.register = places[lookup.register];
    }
    other
}

/// A request with a list of just 512 rows.
pub(crate) fn list_full(d: &mut Dice) -> Made {
    at_limit(d, FULL)
}

/// A request with a list of over 512 rows.
pub(crate) fn list_over(d: &mut Dice) -> Made {
    at_limit(d, OVER)
}

/// Registers with so many different rows that share nothing or one key, with lines that repeat,
/// and at times small look-ups before and after them.
fn at_limit(d: &mut Dice, products: &[&[usize]]) -> Made {
    let factors = *d.pick(products);
    let keyed = d.once_in(3);
    let kept = d.once_in(2);
    let key = *d.pick(&[1, 5, 4_294_967_295]);
    let mut made = Made {
        request: Request {
            registers: Vec::new(),
            givens: Vec::new(),
            lookups: Vec::new(),
        },
        rows: Vec::new(),
    };
    if keyed {
        made.request.givens.push(d.once_in(2).then_some(key));
    }
    let last = factors.len() - 1;
    for (place, factor) in factors.iter().enumerate() {
        let again = kept && place == last;
        add_factor(d, &mut made, *factor, keyed.then_some(key), again);
    }
    // A look-up of one row, which may come at any step.
    if d.once_in(2) {
        let variable = add_variable(&mut made);
        let lines = vec![vec![9]; d.from(1, 3)];
        add(&mut made, vec![variable], vec![false], lines);
    }
    // A look-up that leaves few rows, answerable once the last factor is known.
    if kept {
        let variables = made.request.lookups[last].variables.clone();
        let kept = made.rows[last][0].clone();
        let mark = |variable: &usize| !keyed || *variable != 0;
        let rule = variables.iter().map(mark).collect();
        add(&mut made, variables, rule, vec![kept]);
    }
    // A given variable that stands in no look-up.
    if d.once_in(3) {
        made.request.givens.push(Some(9));
    }
    // Which register stands where shall not matter.
    shuffled(d, &made)
}

// ---------------------------------------------------------------- no route

/// A sound request in which some look-ups are never answerable: one variable that is not given
/// must be given wherever it stands.
fn no_route(d: &mut Dice) -> Made {
    loop {
        let mut made = any(d);
        let request = &mut made.request;
        let open: Vec<usize> = (0..request.givens.len())
            .filter(|v| request.givens[*v].is_none())
            .collect();
        if open.is_empty() {
            continue;
        }
        let victim = *d.pick(&open);
        for lookup in &request.lookups {
            for (column, variable) in lookup.variables.iter().enumerate() {
                if *variable == victim {
                    for rule in &mut request.registers[lookup.register].rules {
                        rule[column] = true;
                    }
                }
            }
        }
        return made;
    }
}

// ---------------------------------------------------------------- nearly sound sheets

/// A register with these columns and rules of free columns, which serves no look-up.
fn spare(columns: usize, rules: usize) -> Register {
    Register {
        columns,
        rules: vec![vec![false; columns]; rules],
    }
}

/// One number just out of its range, and all else in keeping with it: a reader that does not
/// look at the range finds nothing wrong.
fn field_over(d: &mut Dice) -> Case {
    let mut made = roomy(d, 1, 1, 1);
    match d.from(1, 9) {
        1 => {
            while made.request.registers.len() < 13 {
                add_spare(&mut made, 1, 1);
            }
        }
        2 => {
            while made.request.lookups.len() < 13 {
                let again = d.pick(&made.request.lookups).clone();
                made.request.lookups.push(again);
            }
        }
        3 => add_spare(&mut made, 7, 1),
        4 => {
            add_spare(&mut made, 7, 2);
            let variable = add_variable(&mut made);
            made.request.lookups.push(Lookup {
                register: made.request.registers.len() - 1,
                variables: vec![variable; 7],
            });
        }
        5 => {
            let register = d.from(0, made.request.registers.len() - 1);
            let rules = &mut made.request.registers[register].rules;
            rules.resize(*d.pick(&[9, 9, 15]), rules[0].clone());
        }
        6 => add_spare(&mut made, 0, 1),
        7 => add_spare(&mut made, 2, 0),
        8 => {
            made.request.lookups.clear();
            for given in &mut made.request.givens {
                *given = Some(given.unwrap_or(1));
            }
        }
        _ => return other_version(d, &made),
    }
    written(&made)
}

/// Adds a register that serves no look-up, with one line where it has columns.
fn add_spare(made: &mut Made, columns: usize, rules: usize) {
    made.request.registers.push(spare(columns, rules));
    let lines = if columns == 0 { 0 } else { 1 };
    made.rows.push(vec![vec![3; columns]; lines]);
}

/// Another version than 1.
fn other_version(d: &mut Dice, made: &Made) -> Case {
    let mut sheet = write::written(&made.request);
    let field = sheet.fields[0].clone();
    sheet.put(&field, *d.pick(&[0, 2, 3, 5, 7]));
    Case {
        sheet: sheet.bytes(),
        ..written(made)
    }
}

/// A sound request with its sheet broken in this way.
fn broken_by(d: &mut Dice, way: impl Fn(&mut Dice, &Request) -> Option<Vec<u8>>) -> Case {
    loop {
        let made = any(d);
        if let Some(sheet) = way(d, &made.request) {
            return Case {
                sheet,
                ..written(&made)
            };
        }
    }
}

/// A sheet that ends early, in each kind of field as often.
fn ends_early(d: &mut Dice) -> Case {
    let end = broken::end(d);
    broken_by(d, |d, request| broken::cut(d, request, end))
}

fn byte_fewer(d: &mut Dice) -> Case {
    let mut case = written(&any(d));
    case.sheet.pop();
    case
}

// ---------------------------------------------------------------- damaged sheets

fn flipped_bits(d: &mut Dice) -> Case {
    let mut case = written(&any(d));
    for _ in 0..d.from(1, 4) {
        let place = d.from(0, case.sheet.len() * 8 - 1);
        case.sheet[place / 8] ^= 128 >> (place % 8);
    }
    case
}

fn cut_sheet(d: &mut Dice) -> Case {
    let mut case = written(&any(d));
    case.sheet.truncate(d.from(0, case.sheet.len() - 1));
    case
}

fn noise_sheet(d: &mut Dice) -> Case {
    let mut case = written(&any(d));
    let length = d.from(0, 300);
    case.sheet = (0..length).map(|_| d.next() as u8).collect();
    if let Some(first) = case.sheet.first_mut() {
        if d.once_in(2) {
            // Version 1, and a register.
            *first = 0b0010_0010;
        }
    }
    case
}

// ---------------------------------------------------------------- row data at its limits

/// One more register with this many lines, and a look-up that takes few of them by a given key.
fn with_long_register(d: &mut Dice, lines: usize) -> (Made, usize) {
    let mut made = roomy(d, 1, 2, 1);
    let request = &mut made.request;
    let key = request.givens.len();
    request.givens.push(Some(d.from(1, lines.max(1)) as u32));
    request.givens.push(None);
    let columns = d.from(2, 6);
    let mut variables = vec![key; columns];
    variables[columns - 1] = key + 1;
    let mut rule = vec![false; columns];
    rule[0] = d.once_in(2);
    // The new register stands first, last or between others.
    let place = d.from(0, request.registers.len());
    for lookup in &mut request.lookups {
        lookup.register += usize::from(lookup.register >= place);
    }
    request.registers.insert(
        place,
        Register {
            columns,
            rules: vec![rule],
        },
    );
    request.lookups.push(Lookup {
        register: place,
        variables,
    });
    let repeat = d.once_in(3);
    let line = |i: usize| {
        let i = if repeat { i / 2 } else { i };
        let mut line = vec![i as u32; columns];
        line[columns - 1] = (i % 7) as u32;
        line
    };
    made.rows.insert(place, (0..lines).map(line).collect());
    (made, place)
}

fn long_register(d: &mut Dice, lines: usize) -> Case {
    let (made, _) = with_long_register(d, lines);
    written(&made)
}

/// A row count so large that counting its words wraps around.
fn count_huge(d: &mut Dice) -> Case {
    let lines = d.from(0, 3);
    let (made, place) = with_long_register(d, lines);
    let mut words = write::words(&made.rows);
    let at = write::words(&made.rows[..place]).len();
    let columns = made.request.registers[place].columns as u64;
    let count = match d.from(1, 3) {
        1 => 4_294_967_295,
        // The words wrap around to those that stand there, or just past them.
        2 => ((1_u64 << 32) + columns * u64::from(words[at])) / columns,
        _ => 1 << d.from(10, 31),
    };
    words[at] = count as u32;
    Case {
        data: write::bytes(&words),
        ..written(&made)
    }
}

/// So many words in all, by registers without a look-up.
fn filled(d: &mut Dice, words: usize) -> Case {
    let mut made = roomy(d, 7, 0, 0);
    loop {
        let have = write::words(&made.rows).len();
        let left = words - have;
        if left == 0 {
            break;
        }
        // One column ends it; six columns take as much as they can and leave a word at least.
        let (columns, lines) = if left <= 513 {
            (1, left - 1)
        } else {
            (6, ((left - 2) / 6).min(512))
        };
        let first = d.next() as u32;
        made.request.registers.push(spare(columns, 1));
        made.rows.push(
            (0..lines as u32)
                .map(|i| vec![first.wrapping_add(i); columns])
                .collect(),
        );
    }
    written(&made)
}

/// One to three bytes after the data, sound or short of its last word.
fn left_over_bytes(d: &mut Dice) -> Case {
    let mut case = written(&any(d));
    if d.once_in(3) {
        case.data.truncate(case.data.len() - 4);
    }
    for _ in 0..d.from(1, 3) {
        case.data.push(*d.pick(&[0, 1]));
    }
    case
}

fn word_missing(d: &mut Dice) -> Case {
    let mut case = written(&any(d));
    case.data.truncate(case.data.len() - 4);
    case
}

fn words_left_over(d: &mut Dice) -> Case {
    let mut case = written(&any(d));
    for _ in 0..d.from(1, 4) {
        case.data.extend([0; 4]);
    }
    if d.once_in(6) {
        case.data.resize(4 * 16_385, 0);
    }
    case
}

fn cut_data(d: &mut Dice) -> Case {
    let mut case = written(&any(d));
    case.data.truncate(d.from(0, case.data.len() - 1));
    case
}

fn noise_data(d: &mut Dice) -> Case {
    let mut case = written(&any(d));
    let length = d.from(0, 60);
    case.data = (0..length)
        .flat_map(|_| (d.from(0, 4) as u32).to_be_bytes())
        .collect();
    case
}

/// A sheet that is broken in some way, where another refusal fits too.
fn broken_too(d: &mut Dice, make: fn(&mut Dice) -> Made) -> Case {
    let made = make(d);
    Case {
        sheet: broken::any(d, &made.request),
        ..written(&made)
    }
}

/// A sheet that is broken in some way, and row data that ends early, has bytes or a word left over,
/// or is too long for any sheet.
fn sheet_and_data(d: &mut Dice) -> Case {
    let mut case = broken_too(d, any);
    match d.from(1, 4) {
        1 => case.data.truncate(case.data.len() - 4),
        2 => case.data.push(0),
        3 => case.data.extend([0; 4]),
        _ => case.data.resize(4 * 16_385, 0),
    }
    case
}

/// A given 0, and another fault before it or behind it.
fn zero_and_fault(d: &mut Dice) -> Case {
    loop {
        let mut made = any(d);
        let case = written(&made);
        let mut given: Vec<&mut u32> = made.request.givens.iter_mut().flatten().collect();
        if given.is_empty() {
            continue;
        }
        let place = d.from(0, given.len() - 1);
        *given[place] = 0;
        return Case {
            sheet: broken::any(d, &made.request),
            ..case
        };
    }
}

/// Two refusals that need a sound sheet fit: 3 and 4, or 4 and 5.
fn two_faults(d: &mut Dice) -> Case {
    if d.once_in(2) {
        return never_and_over(d);
    }
    let mut case = written(&no_route(d));
    case.data.extend([0; 4]);
    case
}

/// A look-up that is never answerable, beside two whose rows together are over the limit.
fn never_and_over(d: &mut Dice) -> Case {
    let names = d.order(3);
    let lookup = |i: usize| Lookup {
        register: i,
        variables: vec![names[i]],
    };
    let mut registers = vec![spare(1, 1); 3];
    registers[2].rules[0][0] = true;
    let request = Request {
        registers,
        givens: vec![None; 3],
        lookups: d.order(3).into_iter().map(lookup).collect(),
    };
    let lines = |count: u32| (0..count).map(|i| vec![i]).collect();
    written(&Made {
        request,
        rows: vec![lines(23), lines(23), lines(2)],
    })
}

// ---------------------------------------------------------------- in words

/// A rule as its marks, such as "bf".
pub fn marks(rule: &[bool]) -> String {
    rule.iter()
        .map(|must| if *must { 'b' } else { 'f' })
        .collect()
}

/// What a sheet says in words.
fn request_in_words(request: &Request) -> String {
    let mut text = String::new();
    for (number, register) in request.registers.iter().enumerate() {
        let rules: Vec<String> = register.rules.iter().map(|rule| marks(rule)).collect();
        text += &format!("register {number}, rules {}\n", rules.join(" "));
    }
    for (variable, given) in request.givens.iter().enumerate() {
        text += &match given {
            Some(value) => format!("variable {variable} given {value}\n"),
            None => format!("variable {variable}\n"),
        };
    }
    for (number, lookup) in request.lookups.iter().enumerate() {
        let Lookup {
            register,
            variables,
        } = lookup;
        text += &format!("look-up {number}: register {register} variables {variables:?}\n");
    }
    text
}

/// The case in words.
pub fn in_words(case: &Case) -> String {
    let (words, left_over) = data::words(&case.data);
    format!("kind {}\n", case.kind) + &asked_in_words(&case.sheet, &words, left_over)
}

/// A sheet and its row data in words.
pub(crate) fn asked_in_words(sheet: &[u8], words: &[u32], left_over: usize) -> String {
    let mut text = format!("sheet of {} bytes:", sheet.len());
    for byte in sheet {
        text += &format!(" {byte:02X}");
    }
    text += "\n";
    let request = match sheet::read(sheet) {
        Ok(request) => request,
        Err(fault) => {
            text += &format!("the sheet is refused: {} {}\n", fault.number, fault.detail);
            return text + &raw(words, left_over);
        }
    };
    text += &request_in_words(&request);
    match data::read(&request, words) {
        Some(registers) if left_over == 0 => {
            for (number, rows) in registers.iter().enumerate() {
                let rows: Vec<String> = rows.iter().map(|row| format!("{row:?}")).collect();
                text += &format!("rows of register {number}: {}\n", rows.join(" "));
            }
            text
        }
        _ => text + "the row data is refused\n" + &raw(words, left_over),
    }
}

/// Row data as plain words.
fn raw(words: &[u32], left_over: usize) -> String {
    format!(
        "data of {} words and {left_over} bytes: {words:?}\n",
        words.len()
    )
}
