//! A fast hash, and the two tables that use it.

use crate::LIMIT;

/// One more word taken into a hash.
#[inline]
pub fn mix(hash: u64, word: u32) -> u64 {
    (hash.rotate_left(5) ^ u64::from(word)).wrapping_mul(0x9e37_79b9_7f4a_7c15)
}

/// The hash of some words.
#[inline]
pub fn hash(words: impl Iterator<Item = u32>) -> u64 {
    words.fold(0, mix)
}

/// Twice as many places as entries, a power of two: the shift that takes a hash to its place.
fn shift(entries: usize) -> u32 {
    64 - (2 * entries.max(1)).next_power_of_two().trailing_zeros()
}

/// A set of entries, each a number below 512, by open addressing. A place holds one more than the
/// entry in its low bits, and bits of the entry's hash above them; 0 where it is free.
pub struct Set {
    places: [u32; 2 * LIMIT],
    shift: u32,
}

/// The low bits that hold one more than the entry.
const ENTRY: u32 = 0x3ff;

impl Set {
    pub fn new(entries: usize) -> Set {
        Set {
            places: [0; 2 * LIMIT],
            shift: shift(entries),
        }
    }

    /// The place of an entry that is the same, or else the free place for one.
    #[inline]
    fn place(&self, hash: u64, same: impl Fn(usize) -> bool) -> (usize, bool) {
        let mask = (1_usize << (64 - self.shift)) - 1;
        let mut place = (hash >> self.shift) as usize;
        loop {
            let other = self.places[place];
            if other == 0 {
                return (place, false);
            }
            if other & !ENTRY == marked(hash) && same((other & ENTRY) as usize - 1) {
                return (place, true);
            }
            place = (place + 1) & mask;
        }
    }

    /// Adds the entry unless one that is the same stands there; whether it was added.
    #[inline]
    pub fn add(&mut self, entry: usize, hash: u64, same: impl Fn(usize) -> bool) -> bool {
        let (place, found) = self.place(hash, same);
        if !found {
            self.places[place] = marked(hash) | (entry as u32 + 1);
        }
        !found
    }

    /// Whether an entry that is the same stands there.
    #[inline]
    pub fn has(&self, hash: u64, same: impl Fn(usize) -> bool) -> bool {
        self.place(hash, same).1
    }
}

/// The bits of a hash that a place holds above the entry.
#[inline]
fn marked(hash: u64) -> u32 {
    (hash >> 20) as u32 & !ENTRY
}

/// An index of entries by a hash: the entries of one bucket hang together.
pub struct Index {
    heads: [u16; 2 * LIMIT],
    next: [u16; LIMIT],
    shift: u32,
}

impl Index {
    /// An entry without a hash is left out.
    pub fn new(entries: usize, hash: impl Fn(usize) -> Option<u64>) -> Index {
        let mut index = Index {
            heads: [0; 2 * LIMIT],
            next: [0; LIMIT],
            shift: shift(entries),
        };
        for entry in 0..entries {
            let Some(hash) = hash(entry) else {
                continue;
            };
            let head = &mut index.heads[(hash >> index.shift) as usize];
            index.next[entry] = *head;
            *head = entry as u16 + 1;
        }
        index
    }

    /// The entries that may have this hash.
    #[inline]
    pub fn at(&self, hash: u64) -> impl Iterator<Item = usize> + '_ {
        let mut next = self.heads[(hash >> self.shift) as usize];
        std::iter::from_fn(move || {
            let entry = usize::from(next).checked_sub(1)?;
            next = self.next[entry];
            Some(entry)
        })
    }
}
