//! The places of a sheet's fields: what a sheet says put into them, and the sheet written from them.

use crate::sheet::{fault, Fault, Request, LONGEST};

/// So many places: six numbers, 16 words, ten for each of 12 registers, eight for each of 12 look-ups.
pub const PLACES: usize = 238;

/// Where the words, the registers and the look-ups begin.
const WORDS: usize = 6;
const REGISTERS: usize = WORDS + 16;
const LOOKUPS: usize = REGISTERS + 12 * 10;

/// What a sheet says, put behind the first two places, which are zero.
pub fn put(request: &Request, out: &mut [usize; PLACES]) {
    *out = [0; PLACES];
    out[2] = request.register_count;
    out[3] = request.variable_count;
    out[4] = usize::from(request.given);
    out[5] = request.lookup_count;
    for (place, word) in out[WORDS..].iter_mut().zip(request.start) {
        *place = word as usize;
    }
    let registers = &request.registers[..request.register_count];
    for (entry, register) in out[REGISTERS..].chunks_exact_mut(10).zip(registers) {
        entry[0] = register.columns;
        entry[1] = register.rule_count;
        for (place, rule) in entry[2..].iter_mut().zip(register.rules) {
            *place = usize::from(rule.reverse_bits()) >> (8 - register.columns);
        }
    }
    let lookups = &request.lookups[..request.lookup_count];
    for (entry, lookup) in out[LOOKUPS..].chunks_exact_mut(8).zip(lookups) {
        entry[0] = lookup.register;
        entry[1] = lookup.columns;
        for (place, variable) in entry[2..].iter_mut().zip(lookup.variables) {
            *place = usize::from(variable);
        }
    }
}

/// The sheet so far: its full groups of four bytes, and fewer than 32 bits behind them.
struct Bits {
    bytes: [u8; LONGEST.next_multiple_of(4)],
    full: usize,
    word: u64,
    held: usize,
}

impl Bits {
    fn new() -> Bits {
        Bits {
            bytes: [0; LONGEST.next_multiple_of(4)],
            full: 0,
            word: 0,
            held: 0,
        }
    }

    /// The place of the next bit.
    fn at(&self) -> usize {
        8 * self.full + self.held
    }

    /// Puts a field of up to 32 bits. Its value has no more.
    #[inline]
    fn field(&mut self, width: usize, value: usize) {
        self.word = self.word << width | value as u64;
        self.held += width;
        if self.held >= 32 {
            self.held -= 32;
            let group = (self.word >> self.held) as u32;
            self.bytes[self.full..][..4].copy_from_slice(&group.to_be_bytes());
            self.full += 4;
        }
    }

    /// Puts a field, if its value is from `low` to `high`, else this refusal.
    #[inline]
    fn ranged(
        &mut self,
        width: usize,
        value: usize,
        low: usize,
        high: usize,
        refusal: u32,
    ) -> Result<(), Fault> {
        if value < low || value > high {
            return fault(refusal, self.at());
        }
        self.field(width, value);
        Ok(())
    }

    /// Zero bits up to a full byte; gives the number of bytes.
    fn ending(&mut self) -> usize {
        let bytes = self.at().div_ceil(8);
        self.field(32 - self.held, 0);
        bytes
    }
}

/// A register; gives its columns.
fn register(bits: &mut Bits, entry: &[usize]) -> Result<usize, Fault> {
    let (columns, rules) = (entry[0], entry[1]);
    bits.ranged(3, columns, 1, 6, 8)?;
    bits.ranged(4, rules, 1, 8, 8)?;
    for rule in &entry[2..][..rules] {
        bits.field(columns, rule & ((1 << columns) - 1));
    }
    Ok(columns)
}

/// Which variables are given, and their values; gives the set.
fn given(bits: &mut Bits, places: &[usize; PLACES], variables: usize) -> Result<u16, Fault> {
    let given = places[4] as u16 & (u16::MAX >> (16 - variables));
    // Variable 0 comes first, and has the lowest bit of the set.
    bits.field(
        variables,
        usize::from(given.reverse_bits()) >> (16 - variables),
    );
    for (variable, word) in places[WORDS..][..variables].iter().enumerate() {
        if given >> variable & 1 == 1 {
            bits.ranged(32, *word, 1, u32::MAX as usize, 12)?;
        }
    }
    Ok(given)
}

/// A look-up in one of the registers with so many columns; gives the set of its variables.
fn lookup(
    bits: &mut Bits,
    entry: &[usize],
    columns: &[usize],
    variables: usize,
) -> Result<u16, Fault> {
    bits.ranged(4, entry[0], 0, columns.len() - 1, 9)?;
    let mut used = 0;
    for variable in &entry[2..][..columns[entry[0]]] {
        bits.ranged(4, *variable, 0, variables - 1, 9)?;
        used |= 1 << variable;
    }
    Ok(used)
}

/// The sheet that the places say, and its number of bytes; or the first field that is broken.
fn sheet(places: &[usize; PLACES]) -> Result<(Bits, usize), Fault> {
    let (registers, variables, lookups) = (places[2], places[3], places[5]);
    let mut bits = Bits::new();
    bits.field(3, 1);
    bits.ranged(4, registers, 1, 12, 8)?;
    bits.ranged(4, variables.wrapping_sub(1), 0, 15, 8)?;
    bits.ranged(4, lookups, 1, 12, 8)?;
    let mut columns = [0; 12];
    let columns = &mut columns[..registers];
    for (own, entry) in columns.iter_mut().zip(places[REGISTERS..].chunks_exact(10)) {
        *own = register(&mut bits, entry)?;
    }
    let mut used = given(&mut bits, places, variables)?;
    for entry in places[LOOKUPS..].chunks_exact(8).take(lookups) {
        used |= lookup(&mut bits, entry, columns, variables)?;
    }
    let lowest_unused = used.trailing_ones() as usize;
    if lowest_unused < variables {
        return fault(10, lowest_unused);
    }
    let bytes = bits.ending();
    Ok((bits, bytes))
}

/// Whether each of the words has 32 bits.
pub fn words_fit(places: &[usize; PLACES]) -> bool {
    let all = places[WORDS..REGISTERS]
        .iter()
        .fold(0, |all, word| all | word);
    u32::try_from(all).is_ok()
}

/// Writes the sheet that the places say to the beginning of the buffer; gives its bytes.
pub fn write(places: &[usize; PLACES], buffer: &mut [u8]) -> Result<usize, Fault> {
    let (bits, bytes) = sheet(places)?;
    match buffer.get_mut(..bytes) {
        Some(start) => start.copy_from_slice(&bits.bytes[..bytes]),
        None => return fault(13, bytes),
    }
    Ok(bytes)
}
