//! Made-up requests with made-up p and q from a seed: requests in which the rows sent decide, ties on
//! charge, and any other made-up case; p and q from 0 to their limit, and over it.

use crate::examples::{from, made};
use crate::made_up::{self, asked_in_words, many_rows, many_rules, with_lines, Dice, Made};
use crate::route::Prices;
use crate::{data, write};

/// A sheet and its row data with p and q, what kind of request it is, and what kind of p and q.
#[derive(Debug, Clone, PartialEq, Eq)]
pub struct Case {
    pub sheet: Vec<u8>,
    pub words: Vec<u32>,
    pub prices: Prices,
    pub kind: &'static str,
    pub priced: &'static str,
}

/// A sheet and its row data.
struct Asked {
    sheet: Vec<u8>,
    words: Vec<u32>,
}

/// A kind of request: its name, its weight and what makes it.
type Kind = (&'static str, usize, fn(&mut Dice) -> Asked);

const KINDS: &[Kind] = &[
    ("many-rules", 12, |d| written(&many_rules(d))),
    ("many-rows", 3, |d| written(&many_rows(d))),
    ("with-lines", 6, |d| written(&with_lines(d))),
    ("any", 6, any),
];

/// A kind of p and q: its name, its weight and what makes them.
type Priced = (&'static str, usize, fn(&mut Dice) -> (u64, u64));

/// No p or q is higher.
const MOST: usize = 1_000;

const PRICED: &[Priced] = &[
    ("calls-alone", 2, |_| (1, 0)),
    ("rows-alone", 2, |_| (0, 1)),
    ("nothing", 2, |_| (0, 0)),
    ("one-each", 4, |_| (1, 1)),
    ("most-each", 2, |_| (1_000, 1_000)),
    ("most-and-less", 2, most_and_less),
    ("few", 9, |d| (d.from(0, 5) as u64, d.from(0, 5) as u64)),
    ("some", 5, |d| (some(d), some(d))),
    ("over", 3, one_over),
    ("both-over", 1, |d| (over(d), over(d))),
];

/// The names of all kinds of requests.
pub fn kinds() -> Vec<&'static str> {
    let kinds = KINDS.iter().map(|(kind, _, _)| *kind);
    kinds.chain(["tied"]).collect()
}

/// The names of all kinds of p and q.
pub fn priced() -> Vec<&'static str> {
    let priced = PRICED.iter().map(|(priced, _, _)| *priced);
    priced.chain(["tied", "nearly-tied"]).collect()
}

/// The case of this seed.
pub fn case(seed: u64) -> Case {
    let mut dice = Dice::new(seed);
    let d = &mut dice;
    if d.once_in(7) {
        return tied(d);
    }
    let (kind, make) = d.kind(KINDS);
    let Asked { sheet, words } = make(d);
    let (priced, make) = d.kind(PRICED);
    let (p, q) = make(d);
    Case {
        sheet,
        words,
        prices: Prices { p, q },
        kind,
        priced,
    }
}

// ---------------------------------------------------------------- requests

fn written(made: &Made) -> Asked {
    Asked {
        sheet: write::sheet(&made.request),
        words: write::words(&made.rows),
    }
}

/// Any made-up case, sound or broken, without bytes that are left over.
fn any(d: &mut Dice) -> Asked {
    let case = made_up::case(d.next());
    let (words, _) = data::words(&case.data);
    Asked {
        sheet: case.sheet,
        words,
    }
}

/// A look-up gives x so many values. Another is asked by x, with a call for each, or with nothing to
/// give, with one call for all: p and q make both charges the same, or nearly so. The two rules stand
/// in either order, in one register or in two.
fn tied(d: &mut Dice) -> Case {
    let calls = d.from(2, 9);
    let (sent, unsent) = (d.from(0, 12), d.from(1, 12));
    let Asked { sheet, words } = written(&by_x_or_by_nothing(d, calls, sent, unsent));
    let times = d.from(1, MOST / unsent.max(calls - 1));
    let mut prices = Prices {
        p: (times * unsent) as u64,
        q: (times * (calls - 1)) as u64,
    };
    let nearly = d.once_in(4);
    if nearly {
        let Prices { p, q } = &mut prices;
        let price = if d.once_in(2) { p } else { q };
        let other = [*price - 1, *price + 1][d.from(0, 1)];
        *price = other.min(MOST as u64);
    }
    Case {
        sheet,
        words,
        prices,
        kind: "tied",
        priced: if nearly { "nearly-tied" } else { "tied" },
    }
}

/// Lines of B(x y): so many whose x is a value of A's, and so many whose x is none; some repeat.
fn lines(d: &mut Dice, calls: usize, sent: usize, unsent: usize) -> Vec<Vec<u32>> {
    let line = |x: usize, y: usize| vec![1 + x as u32, y as u32];
    let agree = (0..sent).map(|i| line(i % calls, i));
    let others = (0..unsent).map(|i| line(calls + i, i));
    let mut lines: Vec<Vec<u32>> = agree.chain(others).collect();
    // at times one has a 0 that matches nothing: with nothing to give it is sent all the same
    if d.once_in(3) {
        lines[sent][0] = 0;
    }
    for _ in 0..d.from(0, 4) {
        let again = d.pick(&lines).clone();
        lines.push(again);
    }
    d.shuffle(&mut lines);
    lines
}

/// A(x) has so many rows, and B(x y) so many that agree with one of them and so many that don't.
fn by_x_or_by_nothing(d: &mut Dice, calls: usize, sent: usize, unsent: usize) -> Made {
    let values = from(1, calls as u32);
    let lines = lines(d, calls, sent, unsent);
    let rules = [["bf", "ff"], ["ff", "bf"]][d.from(0, 1)];
    if d.once_in(2) {
        let registers = ["A f", &format!("B {}", rules.join(" "))];
        let lookups = ["A(x)", "B(x y)"];
        return made(&registers, "x y", &lookups, &[values, lines]);
    }
    let [early, late] = rules;
    let registers = ["A f", &format!("B {early}"), &format!("C {late}")];
    let lookups = ["A(x)", "B(x y)", "C(x z)"];
    let rows = [values, lines.clone(), lines];
    made(&registers, "x y z", &lookups, &rows)
}

// ---------------------------------------------------------------- p and q

/// From 0 to 1,000.
fn some(d: &mut Dice) -> u64 {
    d.from(0, MOST) as u64
}

/// 1,000 for one, and few or nearly as much for the other.
fn most_and_less(d: &mut Dice) -> (u64, u64) {
    let less = *d.pick(&[0, 1, 2, 10, 999]);
    [(1_000, less), (less, 1_000)][d.from(0, 1)]
}

/// Over 1,000: by one, by more, or a number whose low 32 bits are not.
fn over(d: &mut Dice) -> u64 {
    let low = some(d);
    match d.from(1, 6) {
        1 | 2 => 1_001,
        3 => 1_001 + low,
        4 => u64::from(u32::MAX) - low,
        5 => (1 << 32) + low,
        _ => u64::MAX - low,
    }
}

/// One is over 1,000, and the other is not.
fn one_over(d: &mut Dice) -> (u64, u64) {
    let (over, other) = (over(d), *d.pick(&[0, 1, 999, 1_000]));
    [(over, other), (other, over)][d.from(0, 1)]
}

// ---------------------------------------------------------------- in words

/// The case in words.
pub fn in_words(case: &Case) -> String {
    let Prices { p, q } = case.prices;
    let kinds = format!("kind {}, {}\np {p}, q {q}\n", case.kind, case.priced);
    kinds + &asked_in_words(&case.sheet, &case.words, 0)
}
