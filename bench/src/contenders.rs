//! The contenders. Each is made ready for a workload, and held to what the second program gives,
//! before it is timed or counted.

use crate::workloads::{Asked, Counted};
use crate::{places, plays};
use peer::SHEET_PLACES;
use second::fields::Fields;
use second::made_up::Made;
use second::sheet::Request;
use second::typed::Typed;
use second::{write, Prices};
#[cfg(feature = "sqlite")]
use std::collections::BTreeSet;
use std::hint::black_box;

/// The contenders, in the order of the tables.
pub const NAMES: [&str; 5] = ["library", "peer", "second", "SQLite", "SQLite with loading"];

/// One call of a contender on one workload.
pub type Run = Box<dyn FnMut()>;

/// Both lent tables. They are not cleared between two calls.
struct Lent {
    first: Vec<u32>,
    second: Vec<u32>,
}

impl Lent {
    fn new() -> Lent {
        Lent {
            first: vec![u32::MAX; 8_192],
            second: vec![u32::MAX; 8_192],
        }
    }
}

/// A sheet and its row data.
struct Input {
    sheet: Vec<u8>,
    words: Vec<u32>,
}

impl Input {
    fn of(made: &Made) -> Input {
        Input {
            sheet: write::sheet(&made.request),
            words: write::words(&made.rows),
        }
    }

    /// Holds an answer to the second program's. A contender that gives the list alone has no costs.
    fn hold(&self, prices: Prices, costs: Option<Costs>, rows: usize, lent: &Lent) {
        let answer = second::answer_charged(&self.sheet, &self.words, prices, 8_192, 8_192);
        let mut theirs = Lent::new();
        second::tables(&answer, &mut theirs.first, &mut theirs.second);
        assert_eq!(answer.number, 0, "not answered");
        let their_costs = costs_of(&answer);
        assert_eq!(costs.unwrap_or(their_costs), their_costs, "costs differ");
        assert_eq!(rows, answer.rows.len(), "rows differ");
        assert!(theirs.first == lent.first, "first tables differ");
        assert!(theirs.second == lent.second, "second tables differ");
    }
}

/// Total calls and total charge.
type Costs = (usize, usize);

/// Those of the second program.
fn costs_of(answer: &second::Answer) -> Costs {
    (answer.calls as usize, answer.charge as usize)
}

/// An answer as a contender gives it: its costs and rows.
type Answered = (Costs, usize);

/// A contender that answers, from its one call.
fn answers(
    made: &Made,
    prices: Prices,
    held: bool,
    mut call: impl FnMut(&Input, &mut Lent) -> Answered + 'static,
) -> Option<Run> {
    let (input, mut lent) = (Input::of(made), Lent::new());
    if held {
        let (costs, rows) = call(&input, &mut lent);
        input.hold(prices, Some(costs), rows, &lent);
    }
    Some(Box::new(move || {
        black_box(call(black_box(&input), &mut lent));
    }))
}

/// A contender that checks routes.
fn checks(sheet: &[u8], call: fn(&[u8]) -> (u32, u32)) -> Option<Run> {
    assert_eq!(call(sheet), second::check_route(sheet), "checks differ");
    let sheet = sheet.to_vec();
    Some(Box::new(move || {
        black_box(call(black_box(&sheet)));
    }))
}

/// A contender that counts.
fn counts(counted: &Counted, call: fn(&[u32], usize, usize) -> (u32, usize)) -> Option<Run> {
    let Counted {
        table,
        rows,
        variable,
    } = counted.clone();
    let (number, values) = second::count(&table, rows, variable);
    assert_eq!(
        call(&table, rows, variable),
        (number, values as usize),
        "counts differ"
    );
    Some(Box::new(move || {
        black_box(call(black_box(&table), rows, variable));
    }))
}

/// A contender that reads a sheet into places.
fn reads(sheet: &[u8], call: fn(&[u8], &mut [usize; SHEET_PLACES]) -> u32) -> Option<Run> {
    let mut out = [usize::MAX; SHEET_PLACES];
    let said = second::sheet::read(sheet).expect("a sound sheet");
    let mut wanted = places::of(&Fields::of(&said));
    wanted[1] = 8 * sheet.len();
    assert_eq!(call(sheet, &mut out), 0, "not read");
    assert_eq!(out, wanted, "readings differ");
    let sheet = sheet.to_vec();
    Some(Box::new(move || {
        black_box(call(black_box(&sheet), black_box(&mut out)));
    }))
}

/// A contender that reads a typed line into places.
#[cfg(feature = "library")]
fn reads_typed(typed: &Typed, call: fn(&Typed, &mut [usize; SHEET_PLACES]) -> u32) -> Option<Run> {
    let mut out = [usize::MAX; SHEET_PLACES];
    let Typed { sheet, names, line } = typed;
    let said = second::typed::read_typed(sheet, names, line).expect("a sound line");
    assert_eq!(call(typed, &mut out), 0, "not read");
    assert_eq!(out, places_of(&said), "readings differ");
    let typed = typed.clone();
    Some(Box::new(move || {
        black_box(call(black_box(&typed), black_box(&mut out)));
    }))
}

/// Number, detail, and the bytes written.
type Written = (u32, usize, usize);

/// A contender that writes a sheet from what it has of its fields.
fn writes<T: 'static>(
    request: &Request,
    fields: T,
    call: fn(&T, &mut [u8]) -> Written,
) -> Option<Run> {
    let sheet = write::sheet(request);
    let mut buffer = [0xA5; 200];
    assert_eq!(
        call(&fields, &mut buffer),
        (0, 0, sheet.len()),
        "not written"
    );
    assert_eq!(buffer[..sheet.len()], sheet, "sheets differ");
    assert!(buffer[sheet.len()..].iter().all(|byte| *byte == 0xA5));
    Some(Box::new(move || {
        black_box(call(black_box(&fields), black_box(&mut buffer)));
    }))
}

/// A request's fields in places.
fn places_of(request: &Request) -> [usize; SHEET_PLACES] {
    places::of(&Fields::of(request))
}

#[cfg(feature = "library")]
fn library(asked: &Asked, held: bool) -> Option<Run> {
    match asked {
        Asked::Answer(made) => {
            let mut out = vec![0; compare::PLACES];
            answers(made, Prices::CALLS, held, move |input, lent| {
                let Lent { first, second } = lent;
                compare::answer(&input.sheet, &input.words, first, second, &mut out);
                ((out[3], out[5]), out[4])
            })
        }
        Asked::Charged(made, prices) => {
            let mut out = vec![0; compare::PLACES];
            let (p, q) = (prices.p as usize, prices.q as usize);
            answers(made, *prices, held, move |input, lent| {
                let (Input { sheet, words }, Lent { first, second }) = (input, lent);
                compare::answer_charged(sheet, words, p, q, first, second, &mut out);
                ((out[3], out[5]), out[4])
            })
        }
        Asked::Steps(made) => plays::library(made, held),
        Asked::Check(sheet) => checks(sheet, |sheet| {
            let (number, detail) = compare::check_route(sheet);
            (number, detail as u32)
        }),
        Asked::Count(counted) => counts(counted, compare::count),
        Asked::Read(sheet) => reads(sheet, |sheet, out| compare::read_sheet(sheet, out)),
        Asked::Write(request) => writes(request, places_of(request), |places, buffer| {
            compare::write_sheet(places, buffer)
        }),
        Asked::Typed(typed) => {
            reads_typed(typed, |typed, out| compare::typed::read_typed(typed, out))
        }
    }
}

#[cfg(not(feature = "library"))]
fn library(_: &Asked, _: bool) -> Option<Run> {
    None
}

fn peer(asked: &Asked, held: bool) -> Option<Run> {
    match asked {
        Asked::Answer(made) => answers(made, Prices::CALLS, held, |input, lent| {
            let (Input { sheet, words }, Lent { first, second }) = (input, lent);
            let answer = peer::answer(sheet, words, first, second);
            ((answer.calls, answer.charge), answer.rows)
        }),
        Asked::Charged(made, prices) => {
            let (p, q) = (prices.p as usize, prices.q as usize);
            answers(made, *prices, held, move |input, lent| {
                let (Input { sheet, words }, Lent { first, second }) = (input, lent);
                let answer = peer::answer_charged(sheet, words, p, q, first, second);
                ((answer.calls, answer.charge), answer.rows)
            })
        }
        Asked::Check(sheet) => checks(sheet, peer::check_route),
        Asked::Count(counted) => counts(counted, peer::count),
        Asked::Read(sheet) => reads(sheet, peer::read_sheet),
        Asked::Write(request) => writes(request, places_of(request), peer::write_sheet),
        Asked::Steps(_) | Asked::Typed(_) => None,
    }
}

/// The second program's answer at these prices.
fn second_answers(made: &Made, prices: Prices, held: bool) -> Option<Run> {
    answers(made, prices, held, move |input, lent| {
        let answer = second::answer_charged(&input.sheet, &input.words, prices, 8_192, 8_192);
        second::tables(&answer, &mut lent.first, &mut lent.second);
        (costs_of(&answer), answer.rows.len())
    })
}

fn second(asked: &Asked, held: bool) -> Option<Run> {
    match asked {
        Asked::Answer(made) => second_answers(made, Prices::CALLS, held),
        Asked::Charged(made, prices) => second_answers(made, *prices, held),
        Asked::Steps(made) => plays::second(made, held),
        Asked::Check(sheet) => checks(sheet, second::check_route),
        Asked::Count(counted) => counts(counted, |table, rows, variable| {
            let (number, values) = second::count(table, rows, variable);
            (number, values as usize)
        }),
        Asked::Read(sheet) => {
            let sheet = sheet.clone();
            Some(Box::new(move || {
                let _ = black_box(second::sheet::read(black_box(&sheet)));
            }))
        }
        Asked::Write(request) => writes(request, Fields::of(request), |fields, buffer| {
            let written = second::fields::write(fields, buffer);
            (written.number, written.detail as usize, written.bytes)
        }),
        Asked::Typed(typed) => {
            let Typed { sheet, names, line } = typed.clone();
            Some(Box::new(move || {
                let _ = black_box(second::typed::read_typed(
                    black_box(&sheet),
                    &names,
                    black_box(&line),
                ));
            }))
        }
    }
}

/// A contender that gives the list alone, by SQLite. The rows that a call deletes and puts in are
/// `changes` times the different ones of all registers.
#[cfg(feature = "sqlite")]
fn lists(
    asked: &Asked,
    held: bool,
    changes: usize,
    call: fn(&mut sqlite::Query, &mut [u32]) -> usize,
) -> Option<Run> {
    let Asked::Answer(made) = asked else {
        return None;
    };
    let mut query = sqlite::Query::new(made);
    let mut lent = Lent {
        first: vec![0; 8_192],
        second: vec![0; 8_192],
    };
    if held {
        let before = query.changes();
        let rows = call(&mut query, &mut lent.first);
        Input::of(made).hold(Prices::CALLS, None, rows, &lent);
        let different = |rows: &Vec<Vec<u32>>| rows.iter().collect::<BTreeSet<_>>().len();
        let different: usize = made.rows.iter().map(different).sum();
        let changed = query.changes() - before;
        assert_eq!(changed, changes * different, "rows deleted and put in");
    }
    Some(Box::new(move || {
        black_box(call(&mut query, &mut lent.first));
    }))
}

#[cfg(feature = "sqlite")]
fn sqlite(asked: &Asked, held: bool) -> Option<Run> {
    lists(asked, held, 0, sqlite::Query::run)
}

/// Each row is deleted and put in again, and then the list is given.
#[cfg(feature = "sqlite")]
fn sqlite_with_loading(asked: &Asked, held: bool) -> Option<Run> {
    lists(asked, held, 2, |query, table| {
        query.load_again();
        query.run(table)
    })
}

#[cfg(not(feature = "sqlite"))]
fn sqlite(_: &Asked, _: bool) -> Option<Run> {
    None
}

#[cfg(not(feature = "sqlite"))]
fn sqlite_with_loading(_: &Asked, _: bool) -> Option<Run> {
    None
}

/// Makes a contender ready, if it is built in and takes part in this workload. If it is to be held
/// to the second program, it answers once and must give the same.
pub fn ready(contender: usize, asked: &Asked, held: bool) -> Option<Run> {
    [library, peer, second, sqlite, sqlite_with_loading][contender](asked, held)
}
