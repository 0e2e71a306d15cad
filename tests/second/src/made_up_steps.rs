//! Made-up plays from a seed: a request is answered step by step. What is delivered is right, in any
//! order and with repeats, or wrong in each way; deliveries come late and twice; tables are too short;
//! and between two calls the state and the tables are changed.

use crate::data::{self, Rows};
use crate::delivered::{self, Order};
use crate::made_up::{
    any, asked_in_words, case as any_case, list_full, list_over, longest, many_rows, many_rules,
    must_give_much, with_lines, Dice, Made,
};
use crate::steps::{Act, Call, Case, Lent, CALL_WORDS, SHEET_BYTES, STATE_BYTES};
use crate::{damaged, sheet, write};

pub use crate::damaged::Change;

/// A call, or changes between two calls; with it goes what kind of call or change it is.
#[derive(Debug, Clone, PartialEq, Eq)]
pub enum Turn {
    Call {
        what: &'static str,
        call: Call,
    },
    Changed {
        what: &'static str,
        changes: Vec<Change>,
    },
}

/// A play: the sheet that it starts from, the row data of its registers, what is lent before it starts,
/// and its turns.
#[derive(Debug, Clone, PartialEq, Eq)]
pub struct Play {
    pub sheet: Vec<u8>,
    pub words: Vec<u32>,
    pub kind: &'static str,
    pub before: Lent,
    pub turns: Vec<Turn>,
}

/// How a play goes: once in how many turns a call is another than the next one, and once in how many
/// turns something is changed before it; never for 0.
#[derive(Clone, Copy)]
struct Style {
    wrong: usize,
    changed: usize,
}

/// What makes the request of a kind of play, what is changed before its first call, and how it goes.
type Makes = (fn(&mut Dice) -> Asked, fn(&mut Dice, &mut Playing), Style);

/// A kind of play: its name, its weight and what makes it.
type Kind = (&'static str, usize, Makes);

const RIGHT: Style = Style {
    wrong: 0,
    changed: 0,
};
const WRONG: Style = Style {
    wrong: 2,
    changed: 0,
};
const CHANGED: Style = Style {
    wrong: 3,
    changed: 4,
};

const KINDS: &[Kind] = &[
    ("right", 10, (|d| written(&with_lines(d)), |_, _| {}, RIGHT)),
    ("wrong", 30, (|d| written(&small(d)), |_, _| {}, WRONG)),
    (
        "list-full",
        2,
        (|d| written(&list_full(d)), |_, _| {}, WRONG),
    ),
    (
        "list-over",
        5,
        (|d| written(&list_over(d)), |_, _| {}, WRONG),
    ),
    (
        "many-rows",
        3,
        (|d| written(&many_rows(d)), |_, _| {}, WRONG),
    ),
    ("changed", 24, (|d| written(&small(d)), |_, _| {}, CHANGED)),
    ("forged", 16, (|d| written(&small(d)), forge, WRONG)),
    (
        "forged-and-changed",
        4,
        (|d| written(&small(d)), forge, CHANGED),
    ),
    (
        "longest-sheet",
        2,
        (|d| written(&longest(d)), longer, CHANGED),
    ),
    ("any-sheet", 9, (any_sheet, |_, _| {}, WRONG)),
    ("any-state", 2, (|d| written(&small(d)), any_state, WRONG)),
];

/// The names of all kinds.
pub fn kinds() -> Vec<&'static str> {
    KINDS.iter().map(|(kind, _, _)| *kind).collect()
}

/// The names of all kinds of deliveries and calls that are not the next one.
pub fn wrong_calls() -> Vec<&'static str> {
    let calls = CALLS.iter().map(|(what, _, _)| *what);
    let ways = delivered::WAYS.iter().map(|(what, _, _)| *what);
    calls
        .filter(|what| *what != "delivery")
        .chain(ways)
        .collect()
}

/// The names of all kinds of changes.
pub fn changes() -> Vec<&'static str> {
    damaged::WAYS.iter().map(|(what, _, _)| *what).collect()
}

/// The play of this seed.
pub fn play(seed: u64) -> Play {
    let mut dice = Dice::new(seed);
    let d = &mut dice;
    let (kind, (ask, begin, style)) = d.kind(KINDS);
    let Asked { sheet, words } = ask(d);
    let before = lent(d);
    let mut playing = Playing::new(&sheet, &words, before.clone());
    begin(d, &mut playing);
    playing.play_on(d, style);
    Play {
        sheet,
        words,
        kind,
        before,
        turns: playing.turns,
    }
}

// ---------------------------------------------------------------- before the first call

/// A sheet and its row data.
struct Asked {
    sheet: Vec<u8>,
    words: Vec<u32>,
}

fn written(made: &Made) -> Asked {
    Asked {
        sheet: write::sheet(&made.request),
        words: write::words(&made.rows),
    }
}

/// A sound request with few rows; most must be given much.
fn small(d: &mut Dice) -> Made {
    match d.from(1, 8) {
        1 => any(d),
        2 => with_lines(d),
        3 => many_rules(d),
        _ => must_give_much(d),
    }
}

/// The sheet of any made-up case, sound or broken.
fn any_sheet(d: &mut Dice) -> Asked {
    let case = any_case(d.next());
    let (words, _) = data::words(&case.data);
    Asked {
        sheet: case.sheet,
        words,
    }
}

/// So many words: all 4,294,967,295, all 0, their places, words from 0 to 3, or random words.
fn filled(d: &mut Dice, length: usize) -> Vec<u32> {
    match d.from(1, 6) {
        1 | 2 => vec![u32::MAX; length],
        3 => vec![0; length],
        4 => (0..length as u32).collect(),
        5 => (0..length).map(|_| d.from(0, 3) as u32).collect(),
        _ => (0..length).map(|_| d.next() as u32).collect(),
    }
}

/// What is lent: as long as it must be, or longer.
fn lent(d: &mut Dice) -> Lent {
    let [state, first, second, calls] =
        [STATE_BYTES, 8_192, 8_192, CALL_WORDS].map(|least| least + *d.pick(&[0, 0, 1, 8]));
    Lent {
        state: (0..state).map(|_| d.next() as u8).collect(),
        first: filled(d, first),
        second: filled(d, second),
        calls: filled(d, calls),
    }
}

/// A state that no play came to. At times a step is chosen first, or something comes for one that can't
/// be taken.
fn forge(d: &mut Dice, playing: &mut Playing) {
    let request = playing.lent.read().request();
    if request.lookups.is_empty() {
        return;
    }
    let changes = damaged::forged(d, &playing.lent, &request);
    playing.change("forged", changes);
    if d.once_in(3) {
        playing.choose(d, "choose");
    } else if d.once_in(2) {
        not_chosen(d, playing);
    }
}

/// A sheet that is said to have more bytes than there can be: those that there are count.
fn longer(d: &mut Dice, playing: &mut Playing) {
    let byte = d.from(194, 255) as u8;
    let place = SHEET_BYTES;
    playing.change("longer", vec![Change::State { place, byte }]);
}

/// Any bytes for a state.
fn any_state(d: &mut Dice, playing: &mut Playing) {
    let bytes = (0..STATE_BYTES).map(|place| Change::State {
        place,
        byte: d.next() as u8,
    });
    playing.change("any-state", bytes.collect());
}

// ---------------------------------------------------------------- turns

/// A play while it goes on: the rows that the registers have, what is lent, the turns so far, what was
/// taken, and earlier states.
struct Playing {
    registers: Vec<Rows>,
    lent: Lent,
    turns: Vec<Turn>,
    taken: Vec<(u64, Vec<u32>)>,
    earlier: Vec<Vec<u8>>,
}

/// A call that is not the next one; `None` where it can't be made.
type Calls = fn(&mut Dice, &mut Playing) -> Option<Case>;

const CALLS: &[(&str, usize, Calls)] = &[
    ("choose-again", 3, |d, p| {
        p.chosen()?;
        Some(p.choose(d, "choose-again"))
    }),
    ("choose-short", 3, choose_short),
    ("take-short", 2, take_short),
    ("step-0", 1, |d, p| p.deliver_as(d, "step-0", 0)),
    ("step-above", 3, step_above),
    ("step-wraps", 2, step_wraps),
    ("not-chosen", 4, not_chosen),
    ("late", 4, late),
    ("double", 4, double),
    ("delivery", 60, delivery),
];

impl Playing {
    /// Starts a request of this sheet.
    fn new(sheet: &[u8], words: &[u32], mut lent: Lent) -> Playing {
        lent.start(sheet);
        let registers = sheet::read(sheet)
            .ok()
            .and_then(|request| data::read(&request, words));
        Playing {
            registers: registers.unwrap_or_default(),
            lent,
            turns: Vec::new(),
            taken: Vec::new(),
            earlier: Vec::new(),
        }
    }

    /// Makes these changes.
    fn change(&mut self, what: &'static str, changes: Vec<Change>) {
        for change in &changes {
            change.make(&mut self.lent);
        }
        self.turns.push(Turn::Changed { what, changes });
    }

    /// Runs a call.
    fn call(&mut self, what: &'static str, act: Act, sizes: [usize; 3]) -> Case {
        self.earlier.push(self.lent.state.clone());
        let call = Call { act, sizes };
        let case = self.lent.call(&call);
        if let (Act::Take { step, sent }, Case::Taken(_)) = (&call.act, &case) {
            self.taken.push((*step, sent.clone()));
        }
        self.turns.push(Turn::Call { what, call });
        case
    }

    /// All of both tables and of the list of calls.
    fn sizes(&self) -> [usize; 3] {
        let Lent {
            first,
            second,
            calls,
            ..
        } = &self.lent;
        [first.len(), second.len(), calls.len()]
    }

    /// All, or as much as must be lent.
    fn enough(&self, d: &mut Dice) -> [usize; 3] {
        match d.once_in(4) {
            true => [8_192, 8_192, CALL_WORDS],
            false => self.sizes(),
        }
    }

    fn choose(&mut self, d: &mut Dice, what: &'static str) -> Case {
        let sizes = self.enough(d);
        self.call(what, Act::Choose, sizes)
    }

    fn take(&mut self, d: &mut Dice, what: &'static str, step: u64, sent: Vec<u32>) -> Case {
        let [first, second, _] = self.enough(d);
        self.call(what, Act::Take { step, sent }, [first, second, 0])
    }

    /// The step that is chosen.
    fn chosen(&self) -> Option<crate::steps::Chosen> {
        self.lent.read().chosen(&self.lent.first)
    }

    /// The number of the next step.
    fn next_step(&self) -> u64 {
        self.lent.read().taken() as u64 + 1
    }

    /// What is delivered for the step that is chosen, in this way. A register that is not there has no
    /// row.
    fn delivered<T>(&self, way: impl FnOnce(&Order) -> T) -> Option<T> {
        let chosen = self.chosen()?;
        let nothing = Rows::new();
        let stored = self.registers.get(chosen.register).unwrap_or(&nothing);
        // a changed sheet may have other columns
        let columns = chosen.marks.len();
        let fits = stored.iter().all(|row| row.len() == columns);
        Some(way(&Order::new(
            &chosen,
            if fits { stored } else { &nothing },
        )))
    }

    /// A delivery with this step number: right, or wrong in some way; without a step that is chosen
    /// nothing, or any words.
    fn deliver_as(&mut self, d: &mut Dice, what: &'static str, step: u64) -> Option<Case> {
        let wrong = d.once_in(3);
        let (_, way) = d.kind(delivered::WAYS);
        let sent = self.delivered(|order| match wrong {
            true => way(d, order),
            false => Some(delivered::right(d, order)),
        });
        let any = [0, 0, 1, 4][d.from(0, 3)];
        let sent = sent.flatten().unwrap_or_else(|| filled(d, any));
        Some(self.take(d, what, step, sent))
    }

    /// The next call: the step is chosen, or a right delivery is taken.
    fn next(&mut self, d: &mut Dice) -> Case {
        match self.delivered(|order| delivered::right(d, order)) {
            Some(sent) => self.take(d, "right", self.next_step(), sent),
            None => self.choose(d, "choose"),
        }
    }

    /// A call that is not the next one.
    fn other(&mut self, d: &mut Dice) -> Case {
        loop {
            let (_, call) = d.kind(CALLS);
            if let Some(case) = call(d, self) {
                return case;
            }
        }
    }

    /// Changes something.
    fn damage(&mut self, d: &mut Dice) {
        loop {
            let (what, way) = d.kind(damaged::WAYS);
            let sight = damaged::Sight {
                lent: &self.lent,
                earlier: &self.earlier,
            };
            if let Some(changes) = way(d, &sight) {
                return self.change(what, changes);
            }
        }
    }

    /// Turns until all steps are taken or one is refused with 5, and a few more.
    fn play_on(&mut self, d: &mut Dice, style: Style) {
        let turn = |d: &mut Dice, times: usize| times > 0 && d.once_in(times);
        let mut behind = if style.wrong == 0 { 0 } else { d.from(0, 4) };
        let mut ended = false;
        for _ in 0..60 {
            if turn(d, style.changed) {
                self.damage(d);
                if d.once_in(3) {
                    self.choose(d, "choose");
                }
            }
            // most wrong calls are deliveries, for which a step must be chosen
            let may = ended || self.chosen().is_some() || d.once_in(3);
            let case = match may && turn(d, style.wrong) {
                true => self.other(d),
                false => self.next(d),
            };
            ended |= case == Case::AllTaken || case.number() == 5;
            if ended && behind == 0 {
                return;
            }
            behind -= usize::from(ended);
        }
    }
}

// ---------------------------------------------------------------- calls that are not the next one

/// Sizes of which one at least is too short.
fn short(d: &mut Dice, [first, second, calls]: [usize; 3]) -> [usize; 3] {
    let few = |d: &mut Dice, least: usize| [least - 1, 0, d.from(0, least - 1)][d.from(0, 2)];
    match d.from(1, 4) {
        1 => [few(d, 8_192), second, calls],
        2 => [first, few(d, 8_192), calls],
        3 => [few(d, 8_192), few(d, 8_192), calls],
        _ => [first, second, few(d, CALL_WORDS)],
    }
}

fn choose_short(d: &mut Dice, playing: &mut Playing) -> Option<Case> {
    let sizes = short(d, playing.sizes());
    Some(playing.call("choose-short", Act::Choose, sizes))
}

/// A delivery, right or for a wrong step number, and a table that is too short.
fn take_short(d: &mut Dice, playing: &mut Playing) -> Option<Case> {
    let next = playing.next_step();
    let step = *d.pick(&[next, next, 0, next.saturating_sub(1)]);
    let right = playing.delivered(|order| delivered::right(d, order));
    let sent = right.unwrap_or_default();
    let [first, second, _] = playing.sizes();
    let sizes = match d.once_in(2) {
        true => [8_191, second, 0],
        false => [first, d.from(0, 8_191), 0],
    };
    Some(playing.call("take-short", Act::Take { step, sent }, sizes))
}

/// The number of a later step, or of none.
fn step_above(d: &mut Dice, playing: &mut Playing) -> Option<Case> {
    let next = playing.next_step();
    let lookups = playing.lent.read().request().lookups.len() as u64;
    let step = *d.pick(&[next + 1, lookups + 1, 13, 255, u64::MAX]);
    if step <= next {
        return None;
    }
    playing.deliver_as(d, "step-above", step)
}

/// A number whose low 8, 16 or 32 bits are those of the step.
fn step_wraps(d: &mut Dice, playing: &mut Playing) -> Option<Case> {
    let next = playing.next_step();
    let step = next + *d.pick(&[1 << 8, 1 << 16, 1 << 32, 1 << 63]);
    playing.deliver_as(d, "step-wraps", step)
}

/// A delivery for the next step, which is not chosen.
fn not_chosen(d: &mut Dice, playing: &mut Playing) -> Option<Case> {
    if playing.chosen().is_some() {
        return None;
    }
    let step = playing.next_step();
    playing.deliver_as(d, "not-chosen", step)
}

/// Anything for a step that is taken: what was taken for it or for another, what is right for the step
/// that is chosen, or any words.
fn late(d: &mut Dice, playing: &mut Playing) -> Option<Case> {
    let taken = playing.next_step() as usize - 1;
    if taken == 0 {
        return None;
    }
    let step = d.from(1, taken) as u64;
    let right = playing.delivered(|order| delivered::right(d, order));
    let sent = match (d.from(1, 3), &playing.taken[..]) {
        (1, [_, ..]) => d.pick(&playing.taken).1.clone(),
        (2, _) => right.unwrap_or_default(),
        _ => {
            let length = *d.pick(&[0, 1, 3, 7, 513, 3_073]);
            filled(d, length)
        }
    };
    Some(playing.take(d, "late", step, sent))
}

/// What was taken last, again.
fn double(d: &mut Dice, playing: &mut Playing) -> Option<Case> {
    let (step, sent) = playing.taken.last()?.clone();
    Some(playing.take(d, "double", step, sent))
}

/// A delivery for the chosen step, wrong in some way.
fn delivery(d: &mut Dice, playing: &mut Playing) -> Option<Case> {
    let (what, way) = d.kind(delivered::WAYS);
    let sent = playing.delivered(|order| way(d, order))??;
    let step = playing.next_step();
    Some(playing.take(d, what, step, sent))
}

// ---------------------------------------------------------------- in words

/// A turn in words.
fn turn_in_words(turn: &Turn) -> String {
    match turn {
        Turn::Call { what, call } => {
            let sizes = call.sizes;
            match &call.act {
                Act::Choose => format!("{what}: choose {sizes:?}\n"),
                Act::Take { step, sent } => format!("{what}: take {step} {sizes:?} {sent:?}\n"),
            }
        }
        Turn::Changed { what, changes } => match changes.len() {
            0..=40 => format!("{what}: {changes:?}\n"),
            count => format!("{what}: {count} changes\n"),
        },
    }
}

/// The play in words.
pub fn in_words(play: &Play) -> String {
    let mut text = format!("kind {}\n", play.kind) + &asked_in_words(&play.sheet, &play.words, 0);
    for (turn, place) in play.turns.iter().zip(1..) {
        text += &format!("{place}. {}", turn_in_words(turn));
    }
    text
}
