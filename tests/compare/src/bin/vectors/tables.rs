//! Lent tables and buffers, before and after a call.

use crate::line::{malformed, number};
use compare::dice::Dice;

/// No line has a longer table or buffer.
const MOST: usize = 1 << 20;

/// So many numbers of noise, for a table or a buffer of this length.
fn noise(length: &str, what: [&str; 2], dice: &mut Dice) -> Result<Vec<u64>, String> {
    let length: usize = number(length)?;
    if length > MOST {
        return malformed(format!("a {} of {length} {}", what[0], what[1]));
    }
    Ok((0..length).map(|_| dice.next()).collect())
}

/// A table of this length, filled with noise.
pub fn lent(length: &str, dice: &mut Dice) -> Result<Vec<u32>, String> {
    let noise = noise(length, ["table", "words"], dice)?;
    Ok(noise.into_iter().map(|word| word as u32).collect())
}

/// A buffer of this length, filled with noise.
pub fn lent_bytes(length: &str, dice: &mut Dice) -> Result<Vec<u8>, String> {
    let noise = noise(length, ["buffer", "bytes"], dice)?;
    Ok(noise.into_iter().map(|byte| byte as u8).collect())
}

/// A table that came as this, and then has these words and zeros up to its room. What stands beyond
/// stays.
pub fn holding(before: &[u32], words: &[u32], room: usize) -> Vec<u32> {
    let mut after = before.to_vec();
    let words = words.iter().copied().chain(std::iter::repeat(0));
    for (place, word) in after.iter_mut().take(room).zip(words) {
        *place = word;
    }
    after
}
