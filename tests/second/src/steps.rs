//! Choosing and taking, apart. A request is started from its sheet. Then the next step is chosen, and its
//! calls are listed; the rows that are delivered for it are taken; and so on. Between two calls there is
//! a state, and the list stands in the first table.
//!
//! A delivery is a set of rows, and so it stands for the register while its step is taken: the step is
//! that of a route whose register has just these rows. A caller may hand in any state and any tables.
//! What does not hold together counts as a request that asks nothing, or as an empty list.

use crate::answer::{check_route, LIMIT, TABLE};
use crate::data::Rows;
use crate::route::{first_list, known, marked, Prices, Row, Standing, Step};
use crate::sheet::{self, Register, Request};
use std::collections::BTreeSet;

/// A lent list of calls has at least this many words.
pub const CALL_WORDS: usize = 3_072;

/// The longest sheet has so many bytes.
pub const SHEET_BYTES: usize = 193;

/// A state takes so many bytes.
pub const STATE_BYTES: usize = 202;

/// The step is not yet chosen, or there is none with this number.
pub const NOT_CHOSEN: u32 = 15;

/// No call asked for a row that is delivered.
pub const NOT_ASKED: u32 = 16;

/// What is delivered is not whole rows, or over 512.
pub const NOT_ROWS: u32 = 32;

/// A request that is answered step by step, between two calls.
#[derive(Debug, Clone, PartialEq, Eq)]
pub struct State {
    /// The sheet; what stands behind its bytes does not count.
    pub sheet: [u8; SHEET_BYTES],
    /// How many bytes the sheet has.
    pub bytes: u8,
    /// The look-ups that are answered, bit i for look-up i.
    pub answered: u16,
    /// How many rows the list has.
    pub rows: u16,
    /// Whether a step is chosen, and its look-up and rule.
    pub chosen: bool,
    pub lookup: u8,
    pub rule: u8,
    /// The step that was refused with 5, or 0.
    pub over: u8,
}

/// What a call comes to.
#[derive(Debug, Clone, PartialEq, Eq)]
pub enum Case {
    /// The next step: its look-up and rule, and how many calls it has.
    Calls {
        lookup: usize,
        rule: usize,
        calls: usize,
    },
    /// No step is left.
    AllTaken,
    /// The step is taken.
    Taken(Step),
    /// The step was taken before.
    Already,
    /// A refusal.
    Refused { number: u32, detail: u32 },
}

impl Case {
    /// The refusal, or 0.
    pub fn number(&self) -> u32 {
        match self {
            Case::Refused { number, .. } => *number,
            _ => 0,
        }
    }

    /// Its detail.
    pub fn detail(&self) -> u32 {
        match self {
            Case::Refused { detail, .. } => *detail,
            _ => 0,
        }
    }

    /// The case as a line of expected results has it.
    pub fn name(&self) -> &'static str {
        match self {
            Case::Calls { .. } => "calls",
            Case::AllTaken => "all-taken",
            Case::Taken(_) => "taken",
            Case::Already => "already",
            Case::Refused { .. } => "refused",
        }
    }

    /// Look-up, rule and number of calls; of a step that is taken also the rows after it, the rows sent
    /// and the charge.
    pub fn values(&self) -> Vec<u64> {
        match self {
            Case::Calls {
                lookup,
                rule,
                calls,
            } => vec![*lookup as u64, *rule as u64, *calls as u64],
            Case::Taken(step) => {
                let (lookup, rule) = (step.lookup as u64, step.rule as u64);
                vec![lookup, rule, step.calls, step.rows, step.sent, step.charge]
            }
            _ => Vec::new(),
        }
    }
}

/// A refusal without a detail.
fn refused(number: u32) -> Case {
    Case::Refused { number, detail: 0 }
}

/// Puts these words at the start of what is lent, then zeros up to its room. What stands beyond stays.
fn put<'a>(lent: &mut [u32], words: impl Iterator<Item = &'a u32>, room: usize) {
    let words = words.chain(std::iter::repeat(&0));
    for (place, word) in lent.iter_mut().take(room).zip(words) {
        *place = *word;
    }
}

/// Starting: number and detail of the route check, and the state before the first step; where the
/// sheet is refused, a state with nothing to choose.
pub fn start(sheet: &[u8]) -> (u32, u32, State) {
    let mut state = State::from_bytes([0; STATE_BYTES]);
    let (number, detail) = check_route(sheet);
    if number == 0 {
        state.sheet[..sheet.len()].copy_from_slice(sheet);
        state.bytes = sheet.len() as u8;
        state.rows = 1;
    }
    (number, detail, state)
}

/// The step that is chosen: its look-up, rule and variables, its calls, and what is known before it.
#[derive(Debug, Clone, PartialEq, Eq)]
pub struct Chosen {
    pub lookup: usize,
    pub rule: usize,
    /// The register, and a variable for each of its columns.
    pub register: usize,
    pub variables: Vec<usize>,
    /// A mark for each column; `true` is "must give".
    pub marks: Vec<bool>,
    pub calls: BTreeSet<Vec<u32>>,
    pub known: BTreeSet<usize>,
}

impl Chosen {
    /// Whether some call asks for a row: it gives what the row has in the must-give columns.
    pub fn asks_for(&self, row: &[u32]) -> bool {
        self.calls.contains(&marked(&self.marks, row))
    }
}

/// What a state holds with a first table: the request, the look-ups that are answered, the list, and
/// registers without a row, since none is delivered yet. The choice is by calls alone, and needs none.
struct Held {
    request: Request,
    answered: BTreeSet<usize>,
    list: BTreeSet<Row>,
    registers: Vec<Rows>,
}

impl Held {
    /// Where the route stands.
    fn standing(&self) -> Standing<'_> {
        let (request, list) = (&self.request, self.list.clone());
        Standing::at(
            request,
            &self.registers,
            Prices::CALLS,
            &self.answered,
            list,
        )
    }

    /// This look-up by this rule, if it is open and the rule can be used.
    fn chosen(&self, lookup: usize, rule: usize) -> Option<Chosen> {
        let standing = self.standing();
        if !standing.usable(lookup, rule) {
            return None;
        }
        let asked = &self.request.lookups[lookup];
        let Register { rules, .. } = &self.request.registers[asked.register];
        Some(Chosen {
            lookup,
            rule,
            register: asked.register,
            variables: asked.variables.clone(),
            marks: rules[rule].clone(),
            calls: standing.calls(lookup, rule).into_iter().collect(),
            known: known(&self.request, &self.answered),
        })
    }
}

impl State {
    /// The state of these bytes: those of the sheet, how many count, the answered look-ups and the rows
    /// with two bytes each, highest first, and one byte each for the rest.
    pub fn from_bytes(bytes: [u8; STATE_BYTES]) -> State {
        let (sheet, rest) = bytes.split_at(SHEET_BYTES);
        State {
            sheet: sheet.try_into().expect("193 bytes"),
            bytes: rest[0],
            answered: u16::from_be_bytes([rest[1], rest[2]]),
            rows: u16::from_be_bytes([rest[3], rest[4]]),
            chosen: rest[5] != 0,
            lookup: rest[6],
            rule: rest[7],
            over: rest[8],
        }
    }

    /// The bytes of the state.
    pub fn to_bytes(&self) -> [u8; STATE_BYTES] {
        let (answered, rows) = (self.answered.to_be_bytes(), self.rows.to_be_bytes());
        let step = [u8::from(self.chosen), self.lookup, self.rule, self.over];
        let parts = [&self.sheet[..], &[self.bytes], &answered, &rows, &step];
        parts.concat().try_into().expect("202 bytes")
    }

    /// The request of its sheet. One that is not sound asks nothing.
    pub(crate) fn request(&self) -> Request {
        let bytes = usize::from(self.bytes).min(SHEET_BYTES);
        let nothing = Request {
            registers: Vec::new(),
            givens: Vec::new(),
            lookups: Vec::new(),
        };
        sheet::read(&self.sheet[..bytes]).unwrap_or(nothing)
    }

    /// The list where some look-up is answered: the first rows of the first table. It is empty where they
    /// are over 512, do not ascend, or have another word than 0 at a variable that is not known.
    fn list(&self, known: &BTreeSet<usize>, first: &[u32]) -> BTreeSet<Row> {
        let rows = usize::from(self.rows);
        if rows > LIMIT {
            return BTreeSet::new();
        }
        let row = |words: &[u32]| Row::try_from(words).expect("16 words");
        let rows: Vec<Row> = first.chunks(16).take(rows).map(row).collect();
        let list: BTreeSet<Row> = rows.iter().copied().collect();
        // they ascend where they stand as the set's rows do
        let ascend = list.iter().eq(&rows);
        let mut words = rows.iter().flat_map(|row| row.iter().enumerate());
        let blank = words.all(|(variable, word)| *word == 0 || known.contains(&variable));
        match ascend && blank {
            true => list,
            false => BTreeSet::new(),
        }
    }

    /// The look-ups of a request that are answered.
    pub(crate) fn answered(&self, request: &Request) -> BTreeSet<usize> {
        let lookups = 0..request.lookups.len();
        lookups.filter(|l| self.answered >> l & 1 == 1).collect()
    }

    /// What it holds with this first table. With no look-up answered the sheet gives the list.
    fn held(&self, first: &[u32]) -> Held {
        let request = self.request();
        let answered = self.answered(&request);
        let list = match answered.is_empty() {
            true => first_list(&request),
            false => self.list(&known(&request, &answered), first),
        };
        Held {
            registers: vec![Rows::new(); request.registers.len()],
            request,
            answered,
            list,
        }
    }

    /// How many steps are taken.
    pub fn taken(&self) -> usize {
        self.answered(&self.request()).len()
    }

    /// The step that is chosen, if there is one that can be taken. The first table has 8,192 words.
    pub fn chosen(&self, first: &[u32]) -> Option<Chosen> {
        self.chosen_in(&self.held(first))
    }

    /// The same with what the state holds.
    fn chosen_in(&self, held: &Held) -> Option<Chosen> {
        let (lookup, rule) = (usize::from(self.lookup), usize::from(self.rule));
        match self.chosen {
            true => held.chosen(lookup, rule),
            false => None,
        }
    }

    /// A step was refused with 5: that is told again, and both tables are zeroed again.
    fn told_again(&self, first: &mut [u32], second: &mut [u32]) -> Option<Case> {
        if self.over == 0 {
            return None;
        }
        put(first, [].iter(), TABLE);
        put(second, [].iter(), TABLE);
        Some(Case::Refused {
            number: 5,
            detail: u32::from(self.over),
        })
    }

    /// Chooses the next step and lists its calls, ascending, each as its must-give values in the order
    /// of their columns.
    pub fn choose(&mut self, first: &mut [u32], second: &mut [u32], calls: &mut [u32]) -> Case {
        if first.len() < TABLE || second.len() < TABLE || calls.len() < CALL_WORDS {
            return refused(1);
        }
        if let Some(again) = self.told_again(first, second) {
            return again;
        }
        let held = self.held(first);
        let standing = held.standing();
        let Some((lookup, rule)) = standing.choice() else {
            return Case::AllTaken;
        };
        let listed: BTreeSet<Vec<u32>> = standing.calls(lookup, rule).into_iter().collect();
        put(calls, listed.iter().flatten(), CALL_WORDS);
        self.chosen = true;
        self.lookup = lookup as u8;
        self.rule = rule as u8;
        Case::Calls {
            lookup,
            rule,
            calls: listed.len(),
        }
    }

    /// Takes the rows that are delivered for a step number.
    pub fn take(&mut self, step: u64, sent: &[u32], first: &mut [u32], second: &mut [u32]) -> Case {
        if first.len() < TABLE || second.len() < TABLE {
            return refused(1);
        }
        if let Some(again) = self.told_again(first, second) {
            return again;
        }
        let mut held = self.held(first);
        let taken = held.answered.len() as u64;
        if (1..=taken).contains(&step) {
            return Case::Already;
        }
        let chosen = match self.chosen_in(&held) {
            Some(chosen) if step == taken + 1 => chosen,
            _ => return refused(NOT_CHOSEN),
        };
        let lines = sent.chunks_exact(chosen.marks.len());
        if !lines.remainder().is_empty() || lines.len() > LIMIT {
            return refused(NOT_ROWS);
        }
        let rows: Rows = lines.map(<[u32]>::to_vec).collect();
        if !rows.iter().all(|row| chosen.asks_for(row)) {
            return refused(NOT_ASKED);
        }
        held.registers[chosen.register] = rows;
        let mut standing = held.standing();
        let made = standing.take(chosen.lookup, chosen.rule);
        self.after(made, standing.list(), step, first, second)
    }

    /// What comes back of a step that was made, and the list after it.
    fn after(
        &mut self,
        made: Step,
        list: &BTreeSet<Row>,
        step: u64,
        first: &mut [u32],
        second: &mut [u32],
    ) -> Case {
        if list.len() > LIMIT {
            self.over = step as u8;
            return self.told_again(first, second).expect("a step is over");
        }
        put(first, list.iter().flatten(), TABLE);
        put(second, [].iter(), TABLE);
        self.answered |= 1 << made.lookup;
        self.rows = list.len() as u16;
        (self.chosen, self.lookup, self.rule) = (false, 0, 0);
        Case::Taken(made)
    }
}

// ---------------------------------------------------------------- calls

/// What is asked for in a call.
#[derive(Debug, Clone, PartialEq, Eq)]
pub enum Act {
    /// Choosing the next step.
    Choose,
    /// Taking what is delivered for a step number.
    Take { step: u64, sent: Vec<u32> },
}

/// A call. Of both tables and of the list of calls so many first words are lent.
#[derive(Debug, Clone, PartialEq, Eq)]
pub struct Call {
    pub act: Act,
    pub sizes: [usize; 3],
}

/// What is handed over from call to call: the bytes of the state, both tables and the list of calls.
#[derive(Debug, Clone, PartialEq, Eq)]
pub struct Lent {
    pub state: Vec<u8>,
    pub first: Vec<u32>,
    pub second: Vec<u32>,
    pub calls: Vec<u32>,
}

impl Lent {
    /// The state.
    pub fn read(&self) -> State {
        let (bytes, _) = self
            .state
            .split_first_chunk()
            .expect("202 bytes are handed over");
        State::from_bytes(*bytes)
    }

    /// Writes the state back. Bytes beyond it stay.
    fn write(&mut self, state: &State) {
        self.state[..STATE_BYTES].copy_from_slice(&state.to_bytes());
    }

    /// Starts a request: number and detail.
    pub fn start(&mut self, sheet: &[u8]) -> (u32, u32) {
        let (number, detail, state) = start(sheet);
        self.write(&state);
        (number, detail)
    }

    /// Runs a call.
    pub fn call(&mut self, call: &Call) -> Case {
        let [first, second, calls] = call.sizes;
        let mut state = self.read();
        let (first, second) = (&mut self.first[..first], &mut self.second[..second]);
        let case = match &call.act {
            Act::Choose => state.choose(first, second, &mut self.calls[..calls]),
            Act::Take { step, sent } => state.take(*step, sent, first, second),
        };
        self.write(&state);
        case
    }
}
