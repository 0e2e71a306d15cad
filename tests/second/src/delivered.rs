//! Deliveries for a chosen step: right ones in any order and with repeats, and wrong ones of each kind.

use crate::data::Rows;
use crate::made_up::Dice;
use crate::steps::Chosen;

/// The step that rows are delivered for, the rows that its register has, and those that it asks for; and
/// the values that the register has.
pub(crate) struct Order<'a> {
    chosen: &'a Chosen,
    stored: &'a Rows,
    asked: Vec<Vec<u32>>,
    values: Vec<u32>,
}

/// The lines of a delivery.
type Lines = Vec<Vec<u32>>;

/// How the words of a delivery are made; `None` where that can't be.
pub(crate) type Way = fn(&mut Dice, &Order) -> Option<Vec<u32>>;

/// Each way with its name and weight. The first ones are taken, the others are refused.
pub(crate) const WAYS: &[(&str, usize, Way)] = &[
    ("incomplete", 4, incomplete),
    ("nothing-delivered", 2, |_, o| {
        (!o.asked.is_empty()).then(Vec::new)
    }),
    ("rows-more", 4, |d, o| Some(rows_more(d, o)?.concat())),
    ("known-free-differs", 6, known_free_differs),
    ("zero-in-free", 4, zero_in_free),
    ("512-lines", 1, |d, o| lines(d, o, 512)),
    ("513-lines", 1, |d, o| lines(d, o, 513)),
    ("more-lines", 1, |d, o| {
        let count = d.from(514, 1_100);
        lines(d, o, count)
    }),
    ("not-whole", 4, |d, o| {
        let lines = rows_or_more(d, o)?;
        not_whole(d, o, lines)
    }),
    ("must-give-differs", 5, |d, o| with(d, o, must_give_differs)),
    ("register-row-not-asked", 3, |d, o| {
        with(d, o, register_row_not_asked)
    }),
    ("columns-apart", 4, |d, o| with(d, o, columns_apart)),
    ("zero-in-must-give", 3, |d, o| with(d, o, zero_in_must_give)),
    ("no-call", 2, no_call),
    ("not-whole-and-not-asked", 2, |d, o| {
        let row = must_give_differs(d, o)?;
        not_whole(d, o, vec![row])
    }),
    ("513-lines-and-not-asked", 1, |d, o| {
        let row = must_give_differs(d, o)?;
        Some(vec![row; 513].concat())
    }),
    ("any-words", 1, |d, _| {
        let count = d.from(0, 20);
        Some((0..count).map(|_| d.from(0, 4) as u32).collect())
    }),
];

impl<'a> Order<'a> {
    /// The rows that these registers have, for this step.
    pub(crate) fn new(chosen: &'a Chosen, stored: &'a Rows) -> Order<'a> {
        let asked = stored.iter().filter(|row| chosen.asks_for(row));
        Order {
            chosen,
            stored,
            asked: asked.cloned().collect(),
            values: stored.iter().flatten().copied().collect(),
        }
    }

    /// The columns that are marked, or not, and whose variable passes the test.
    fn columns(&self, must: bool, test: impl Fn(&usize) -> bool) -> Vec<usize> {
        let Chosen {
            marks, variables, ..
        } = self.chosen;
        let columns = 0..marks.len();
        columns
            .filter(|column| marks[*column] == must && test(&variables[*column]))
            .collect()
    }
}

/// A value that the register has, or another.
fn value(d: &mut Dice, order: &Order) -> u32 {
    match d.from(1, 6) {
        1 => 4_294_967_295,
        2 | 3 => d.from(0, 4) as u32,
        _ if order.values.is_empty() => 1,
        _ => *d.pick(&order.values),
    }
}

/// A row that a call asks for, whether the register has it or not.
fn invented(d: &mut Dice, order: &Order) -> Option<Vec<u32>> {
    let calls: Vec<&Vec<u32>> = order.chosen.calls.iter().collect();
    if calls.is_empty() {
        return None;
    }
    let mut given = d.pick(&calls).iter().copied();
    let column = |must: &bool| match must {
        true => given.next().expect("a value for each must-give column"),
        false => value(d, order),
    };
    Some(order.chosen.marks.iter().map(column).collect())
}

/// One of the rows that are asked for, or one that is made up.
fn asked_row(d: &mut Dice, order: &Order) -> Option<Vec<u32>> {
    match order.asked.is_empty() || d.once_in(3) {
        true => invented(d, order),
        false => Some(d.pick(&order.asked).clone()),
    }
}

/// A right delivery: just the rows that are asked for, in any order, at times with repeats.
pub(crate) fn right(d: &mut Dice, order: &Order) -> Vec<u32> {
    right_lines(d, order).concat()
}

fn right_lines(d: &mut Dice, order: &Order) -> Lines {
    let mut lines = order.asked.clone();
    if !lines.is_empty() && d.once_in(2) {
        for _ in 0..d.from(1, 8).min(512 - lines.len()) {
            let again = d.pick(&lines).clone();
            lines.push(again);
        }
    }
    d.shuffle(&mut lines);
    lines
}

/// The right rows, and rows that the register does not have and a call asks for.
fn rows_more(d: &mut Dice, order: &Order) -> Option<Lines> {
    let mut lines = right_lines(d, order);
    for _ in 0..d.from(1, 5) {
        lines.push(invented(d, order)?);
    }
    d.shuffle(&mut lines);
    (lines.len() <= 512).then_some(lines)
}

/// The right rows, and at times more; at least one.
fn rows_or_more(d: &mut Dice, order: &Order) -> Option<Lines> {
    match order.asked.is_empty() || d.once_in(3) {
        true => rows_more(d, order),
        false => Some(right_lines(d, order)),
    }
}

/// Some of the rows that are asked for.
fn incomplete(d: &mut Dice, order: &Order) -> Option<Vec<u32>> {
    let mut lines = order.asked.clone();
    if lines.is_empty() {
        return None;
    }
    lines.remove(d.from(0, lines.len() - 1));
    lines.retain(|_| !d.once_in(3));
    d.shuffle(&mut lines);
    Some(lines.concat())
}

/// Rows that are asked for, of which some have another value in a free column that is known.
fn known_free_differs(d: &mut Dice, order: &Order) -> Option<Vec<u32>> {
    let known = |variable: &usize| order.chosen.known.contains(variable);
    let columns = order.columns(false, known);
    if columns.is_empty() {
        return None;
    }
    let mut lines = rows_or_more(d, order)?;
    for _ in 0..d.from(1, 3) {
        let place = d.from(0, lines.len() - 1);
        let column = *d.pick(&columns);
        let other = value(d, order);
        lines[place][column] = match lines[place][column] == other {
            true => other.wrapping_add(1),
            false => other,
        };
    }
    Some(lines.concat())
}

/// Rows that are asked for, of which some have 0 in a free column.
fn zero_in_free(d: &mut Dice, order: &Order) -> Option<Vec<u32>> {
    let columns = order.columns(false, |_| true);
    if columns.is_empty() {
        return None;
    }
    let mut lines = rows_or_more(d, order)?;
    for _ in 0..d.from(1, 3) {
        let place = d.from(0, lines.len() - 1);
        lines[place][*d.pick(&columns)] = 0;
    }
    Some(lines.concat())
}

/// So many lines, all of which are asked for.
fn lines(d: &mut Dice, order: &Order, count: usize) -> Option<Vec<u32>> {
    let mut lines = rows_or_more(d, order)?;
    while lines.len() < count {
        let again = d.pick(&lines).clone();
        lines.push(again);
    }
    d.shuffle(&mut lines);
    Some(lines.concat())
}

/// These lines with words too few or too many.
fn not_whole(d: &mut Dice, order: &Order, lines: Lines) -> Option<Vec<u32>> {
    let columns = order.chosen.marks.len();
    if columns == 1 {
        return None;
    }
    let mut words = lines.concat();
    for _ in 0..d.from(1, columns - 1) {
        match d.once_in(2) {
            true => words.push(1),
            false => words.insert(0, 1),
        }
    }
    Some(words)
}

/// Right rows, and among them one that is made in this way.
fn with(
    d: &mut Dice,
    order: &Order,
    way: fn(&mut Dice, &Order) -> Option<Vec<u32>>,
) -> Option<Vec<u32>> {
    let row = way(d, order)?;
    let mut lines = right_lines(d, order);
    lines.truncate(511);
    let place = d.from(0, lines.len());
    lines.insert(place, row);
    Some(lines.concat())
}

/// The row, if no call asks for it.
fn not_asked(order: &Order, row: Vec<u32>) -> Option<Vec<u32>> {
    (!order.chosen.asks_for(&row)).then_some(row)
}

/// A row whose value in a must-give column is another than was asked for.
fn must_give_differs(d: &mut Dice, order: &Order) -> Option<Vec<u32>> {
    let columns = order.columns(true, |_| true);
    let mut row = asked_row(d, order)?;
    if columns.is_empty() {
        return None;
    }
    row[*d.pick(&columns)] = value(d, order);
    not_asked(order, row)
}

/// A row that the register has, and that no call asks for.
fn register_row_not_asked(d: &mut Dice, order: &Order) -> Option<Vec<u32>> {
    let others = order.stored.iter();
    let others: Vec<&Vec<u32>> = others.filter(|row| !order.chosen.asks_for(row)).collect();
    match others[..] {
        [] => None,
        _ => Some(d.pick(&others).to_vec()),
    }
}

/// A row whose values in must-give columns are each asked for, but not together.
fn columns_apart(d: &mut Dice, order: &Order) -> Option<Vec<u32>> {
    let columns = order.columns(true, |_| true);
    if columns.len() < 2 || order.chosen.calls.len() < 2 {
        return None;
    }
    for _ in 0..20 {
        let (mut row, other) = (asked_row(d, order)?, asked_row(d, order)?);
        let column = *d.pick(&columns);
        row[column] = other[column];
        if !order.chosen.asks_for(&row) {
            return Some(row);
        }
    }
    None
}

/// A row with 0 in a must-give column.
fn zero_in_must_give(d: &mut Dice, order: &Order) -> Option<Vec<u32>> {
    let columns = order.columns(true, |_| true);
    let mut row = asked_row(d, order)?;
    if columns.is_empty() {
        return None;
    }
    row[*d.pick(&columns)] = 0;
    not_asked(order, row)
}

/// A row where there is no call.
fn no_call(d: &mut Dice, order: &Order) -> Option<Vec<u32>> {
    if !order.chosen.calls.is_empty() {
        return None;
    }
    let columns = order.chosen.marks.len();
    Some((0..columns).map(|_| value(d, order)).collect())
}
