//! What a sheet says, as owned values.

use crate::linked::{self, SHEET_PLACES};
use crate::{answered, Refusal};

/// A register: its columns and its rules.
#[derive(Debug, Clone, PartialEq, Eq)]
pub struct Register {
    /// How many columns it has, 1 to 6.
    pub columns: usize,
    /// Its rules, 1 to 8: a mark per column, first column first; `true` is "must give".
    pub rules: Vec<Vec<bool>>,
}

/// A look-up: a register, and one variable per column.
#[derive(Debug, Clone, PartialEq, Eq)]
pub struct LookUp {
    /// The register, from 0.
    pub register: usize,
    /// The variable of each column, from 0.
    pub variables: Vec<usize>,
}

/// What a sheet says.
#[derive(Debug, Clone, PartialEq, Eq)]
pub struct Sheet {
    /// The registers, 1 to 12.
    pub registers: Vec<Register>,
    /// For each variable, 1 to 16 of them, the value that is given, if one is. It is not 0.
    pub given: Vec<Option<u32>>,
    /// The look-ups, 1 to 12.
    pub lookups: Vec<LookUp>,
}

impl Sheet {
    /// How many variables there are.
    pub fn variables(&self) -> usize {
        self.given.len()
    }
}

/// The marks of a rule's number, first column first.
fn marks(rule: usize, columns: usize) -> Vec<bool> {
    (0..columns).rev().map(|bit| rule >> bit & 1 == 1).collect()
}

/// The sheet that the places of a reading have.
pub(crate) fn said(places: &[usize; SHEET_PLACES]) -> Sheet {
    let (counts, rest) = places.split_at(6);
    let (start, rest) = rest.split_at(16);
    let (registers, lookups) = rest.split_at(12 * 10);
    let register = |entry: &[usize]| Register {
        columns: entry[0],
        rules: entry[2..][..entry[1]]
            .iter()
            .map(|rule| marks(*rule, entry[0]))
            .collect(),
    };
    let lookup = |entry: &[usize]| LookUp {
        register: entry[0],
        variables: entry[2..][..entry[1]].to_vec(),
    };
    let given = |variable: usize| (counts[4] >> variable & 1 == 1).then(|| start[variable] as u32);
    Sheet {
        registers: registers
            .chunks_exact(10)
            .take(counts[2])
            .map(register)
            .collect(),
        given: (0..counts[3]).map(given).collect(),
        lookups: lookups
            .chunks_exact(8)
            .take(counts[5])
            .map(lookup)
            .collect(),
    }
}

/// What a sheet says, or its refusal, which is 2 or 7 to 12: the first fault in reading order.
///
/// Promised: the fields are those of the sheet, and a sheet with any fault is
/// refused. Contract: `sheet::read_sheet`, handed on by `export::ebbcandle_read_sheet`.
pub fn read_sheet(sheet: &[u8]) -> Result<Sheet, Refusal> {
    let mut out = [0; SHEET_PLACES];
    let number = linked::read_sheet(sheet, &mut out);
    answered(number, out[1])?;
    Ok(said(&out))
}
