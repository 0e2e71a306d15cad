//! A sheet written from what it says.

use crate::linked::{self, SHEET_BYTES, SHEET_PLACES};
use crate::reading::{LookUp, Register, Sheet};
use crate::{answered, Refusal};

/// A number that is out of every range: the library refuses the field that has it.
const NONE: usize = usize::MAX;

/// The number of a rule, the first column's mark the highest bit.
fn number_of(marks: &[bool]) -> usize {
    marks
        .iter()
        .fold(0, |rule, mark| rule << 1 | usize::from(*mark))
}

/// The ten places of a register. It has no number of columns where a rule has another number of
/// marks.
fn register_places(register: &Register) -> [usize; 10] {
    let mut places = [0; 10];
    let columns = register.columns;
    let whole = register.rules.iter().all(|rule| rule.len() == columns);
    places[0] = if whole { columns } else { NONE };
    places[1] = register.rules.len();
    for (place, rule) in places[2..].iter_mut().zip(&register.rules) {
        *place = number_of(rule);
    }
    places
}

/// The eight places of a look-up. It names no register where that has another number of columns.
fn look_up_places(lookup: &LookUp, registers: &[Register]) -> [usize; 8] {
    let mut places = [0; 8];
    let LookUp {
        register,
        variables,
    } = lookup;
    let named = registers.get(*register);
    let whole = named.is_some_and(|named| named.columns == variables.len());
    places[0] = if whole { *register } else { NONE };
    places[1] = variables.len();
    for (place, variable) in places[2..].iter_mut().zip(variables) {
        *place = *variable;
    }
    places
}

/// The places of a sheet, as a reading has them. Entries for which there is no room make the number
/// of entries too large, which is refused.
fn places(sheet: &Sheet) -> [usize; SHEET_PLACES] {
    let mut places = [0; SHEET_PLACES];
    let (counts, rest) = places.split_at_mut(6);
    let (start, rest) = rest.split_at_mut(16);
    let (registers, lookups) = rest.split_at_mut(12 * 10);
    counts[2] = sheet.registers.len();
    counts[3] = sheet.variables();
    counts[5] = sheet.lookups.len();
    for (variable, (word, given)) in start.iter_mut().zip(&sheet.given).enumerate() {
        if let Some(value) = given {
            counts[4] |= 1 << variable;
            *word = *value as usize;
        }
    }
    for (entry, register) in registers.chunks_exact_mut(10).zip(&sheet.registers) {
        entry.copy_from_slice(&register_places(register));
    }
    for (entry, lookup) in lookups.chunks_exact_mut(8).zip(&sheet.lookups) {
        entry.copy_from_slice(&look_up_places(lookup, &sheet.registers));
    }
    places
}

impl Sheet {
    /// Writes the sheet to the beginning of a lent buffer, and gives how many bytes it has. Bytes
    /// behind it stay.
    ///
    /// Refused with 8, 9, 10 or 12 for the first of its fields that is wrong, with the place that it
    /// would have in the sheet; then with 13 where the buffer is shorter than the sheet, with the
    /// bytes that the sheet has. A refusal writes nothing. A register of which a rule has not one
    /// mark a column is refused with 8, at its number of columns, and a look-up that has not one
    /// variable a column with 9, at its register.
    ///
    /// Promised: [`read_sheet`](crate::read_sheet) of the bytes gives this sheet, and a sheet that
    /// was read is written as the bytes that were read. Contract: `write::write_sheet`, handed on by
    /// `export::ebbcandle_write_sheet`.
    pub fn write_into(&self, buffer: &mut [u8]) -> Result<usize, Refusal> {
        let (number, detail, bytes) = linked::write_sheet(&places(self), buffer);
        answered(number, detail)?;
        Ok(bytes)
    }

    /// The bytes of the sheet, or its refusal, which is 8, 9, 10 or 12: see
    /// [`write_into`](Sheet::write_into).
    pub fn to_bytes(&self) -> Result<Vec<u8>, Refusal> {
        let mut buffer = vec![0; SHEET_BYTES];
        let bytes = self.write_into(&mut buffer)?;
        buffer.truncate(bytes);
        Ok(buffer)
    }
}
