//! The row data: per register the row count, then its rows.

use crate::sheet::Request;
use std::collections::BTreeSet;

/// Row data holds at most this many words.
pub const MOST_WORDS: usize = 16_384;

/// A register has at most this many rows.
pub const MOST_ROWS: u32 = 512;

/// A register is a set of rows.
pub type Rows = BTreeSet<Vec<u32>>;

/// The words of `data.bin`, four bytes each, highest first, and how many bytes are left over.
pub fn words(data: &[u8]) -> (Vec<u32>, usize) {
    let whole = data.chunks_exact(4);
    let left_over = whole.remainder().len();
    let word = |b: &[u8]| u32::from_be_bytes([b[0], b[1], b[2], b[3]]);
    (whole.map(word).collect(), left_over)
}

/// The rows of each register, or `None` where the data is refused.
pub fn read(request: &Request, words: &[u32]) -> Option<Vec<Rows>> {
    if words.len() > MOST_WORDS {
        return None;
    }
    let mut words = words.iter().copied();
    let mut registers = Vec::new();
    for register in &request.registers {
        let count = words.next()?;
        if count > MOST_ROWS {
            return None;
        }
        let mut rows = Rows::new();
        for _ in 0..count {
            let mut row = Vec::new();
            for _ in 0..register.columns {
                row.push(words.next()?);
            }
            rows.insert(row);
        }
        registers.push(rows);
    }
    // Nothing may follow the last register.
    if words.next().is_some() {
        return None;
    }
    Some(registers)
}
