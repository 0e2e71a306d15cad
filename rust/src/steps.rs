//! A request answered step by step, where rows arrive call by call: choosing the next step with its calls,
//! and taking the rows that were sent for it, apart.
//!
//! [`State::start`] makes a state of a sheet. [`State::choose`] says which look-up is asked next, and lists
//! its calls. The caller makes them, and hands the rows that were sent for all of them to [`State::take`],
//! with the step's number. And so on, until all steps are taken: then the first table holds the list.
//!
//! Promised: where both tables come back as they were left, and each delivery is exactly the register's rows
//! that have the values of some call in the rule's must-give columns, the steps are those of
//! [`answer_into`](crate::answer_into) with all rows, up to a refusal with 5, and so are both tables in the
//! end. Rows of a delivery may come in any order, and each more than once. A delivery that lacks rows is taken
//! as it is, and the list then lacks what they join with: a caller takes a step when each of its calls is
//! answered.
//!
//! Between two steps the state can be kept as bytes and taken up again, by another process too. Of the first
//! table the rows of the list are read, once a step is taken, and of the second nothing.

use crate::linked::{self, TURN_PLACES};
use crate::{answered, read_sheet, Refusal, Step};

pub use crate::linked::{CALL_WORDS, STATE_BYTES};

/// The case of the next step with its calls; the other of choosing is that all steps are taken.
const CALLS: usize = 1;

/// The case of a step that is taken now; the other of taking is that it was taken before.
const TAKEN: usize = 3;

/// In the bytes of a state: how many bytes its sheet has, the look-ups answered, and the rows of the list.
const BYTES: usize = 193;
const ANSWERED: usize = 194;
const ROWS: usize = 196;

/// A request between two steps: its sheet, the look-ups answered, how many rows the list has, the step that
/// is chosen, if one is, and the step that was refused with 5, if one was.
#[derive(Debug, Clone, PartialEq, Eq)]
pub struct State {
    bytes: [u8; STATE_BYTES],
}

/// What comes next.
#[derive(Debug, Clone, Copy, PartialEq, Eq)]
pub enum Next {
    /// A step, whose calls stand in the list of calls.
    Calls {
        /// The look-up that is asked, from 0.
        lookup: usize,
        /// The rule that it is asked by, from 0.
        rule: usize,
        /// The calls that it needs.
        calls: usize,
    },
    /// All steps are taken.
    AllTaken,
}

/// What became of a delivery.
#[derive(Debug, Clone, Copy, PartialEq, Eq)]
pub enum Took {
    /// The step is taken. Its rows sent are the different rows delivered, and its charge is its calls.
    Taken(Step),
    /// The step was taken before: nothing has changed.
    Already,
}

impl State {
    /// The state before the first step, or the refusal of [`check_route`](crate::check_route).
    /// Contract: `apart::start_request`, handed on by `export::ebbcandle_start`.
    pub fn start(sheet: &[u8]) -> Result<State, Refusal> {
        let mut bytes = [0; STATE_BYTES];
        let (number, detail) = linked::start(sheet, &mut bytes);
        answered(number, detail)?;
        Ok(State { bytes })
    }

    /// The state in bytes, the same on each processor.
    pub fn to_bytes(&self) -> [u8; STATE_BYTES] {
        self.bytes
    }

    /// The state that these bytes are. Any may be given: a state whose sheet is not sound has nothing to
    /// choose, and a chosen step that can't be asked next counts as not chosen. Where choosing or taking
    /// changes nothing the state stays, and so do its bytes, but that the byte for whether a step is chosen,
    /// if it is none of 0 and 1, is written as 1.
    pub fn from_bytes(bytes: [u8; STATE_BYTES]) -> State {
        State { bytes }
    }

    /// The number of steps taken, 0 where the sheet is not sound. The next step has the number behind it.
    pub fn steps_taken(&self) -> usize {
        let bytes = BYTES.min(self.bytes[BYTES].into());
        let lookups = read_sheet(&self.bytes[..bytes]).map_or(0, |sheet| sheet.lookups.len());
        let taken = self.two_bytes(ANSWERED) & ((1 << lookups) - 1);
        taken.count_ones() as usize
    }

    /// The rows of the list, as the state has them. They stand in the first table once a step is taken;
    /// before that the list is one row, which the sheet gives, and stands in no table.
    pub fn rows(&self) -> usize {
        self.two_bytes(ROWS) as usize
    }

    fn two_bytes(&self, place: usize) -> u32 {
        u16::from_be_bytes([self.bytes[place], self.bytes[place + 1]]).into()
    }

    /// The next step, with its calls at the start of the lent list of calls, ascending, each once; or that
    /// all steps are taken, and then nothing is written. Refusal 1, or 5 where a step was refused so before.
    ///
    /// A call is the values of the rule's must-give columns, in the order of the columns, so it has as many
    /// words as the rule has such columns ([`read_sheet`] gives the rule). Where nothing must be given there
    /// is one call, of no words. Zeros follow up to word 3,072.
    ///
    /// Promised: both tables stay as they came, but under 5, which zeroes the first 8,192 words of each.
    /// Asked twice, it gives the same. Under a refusal no word of the list of calls changes.
    /// Contract: `apart::choose_next`, handed on by `export::ebbcandle_choose`.
    pub fn choose(
        &mut self,
        first: &mut [u32],
        second: &mut [u32],
        calls: &mut [u32],
    ) -> Result<Next, Refusal> {
        let mut out = [0; TURN_PLACES];
        let number = linked::choose(&mut self.bytes, first, second, calls, &mut out);
        answered(number, out[1])?;
        Ok(match out[2..6] {
            [CALLS, lookup, rule, calls] => Next::Calls {
                lookup,
                rule,
                calls,
            },
            _ => Next::AllTaken,
        })
    }

    /// Takes the rows that were sent for a step, from 1: a word a column, one row behind the other. Where
    /// that step is taken already, nothing changes, whatever was sent. Refusal 1; 5 where a step was refused
    /// so before; 15 for a step that is not yet chosen, or is none; 32 for what is not whole rows, or over
    /// 512; 16 for a row that no call asked for; and 5 where the step yields over 512 rows.
    ///
    /// Promised: a step that is taken leaves the list in the first table, 16 words a row, and zeros up to
    /// word 8,192, and in the second zeros up to there. Under 15, 32, 16 and 1 nothing changes, and the
    /// chosen step can still be taken. Under 5 both tables hold zeros up to word 8,192, and each later call
    /// is refused so. Words beyond 8,192 always stay.
    /// Contract: `apart::take_rows`, handed on by `export::ebbcandle_take`.
    pub fn take(
        &mut self,
        step: usize,
        sent: &[u32],
        first: &mut [u32],
        second: &mut [u32],
    ) -> Result<Took, Refusal> {
        let mut out = [0; TURN_PLACES];
        let number = linked::take(sent, step, &mut self.bytes, first, second, &mut out);
        answered(number, out[1])?;
        Ok(match out[2..] {
            [TAKEN, lookup, rule, calls, rows, sent, charge] => Took::Taken(Step {
                lookup,
                rule,
                calls,
                rows,
                sent,
                charge,
            }),
            _ => Took::Already,
        })
    }
}
