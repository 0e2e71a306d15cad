//! The sheet, bit by bit.

/// The longest sheet, in bytes. Nothing behind them is read as a field.
pub const LONGEST: usize = 193;

/// A refusal of the sheet: its number, and the first bit of the faulty field, or the unused variable.
#[derive(Clone, Copy)]
pub struct Fault {
    pub number: u32,
    pub detail: u32,
}

#[cold]
pub fn fault<T>(number: u32, detail: usize) -> Result<T, Fault> {
    let detail = detail as u32;
    Err(Fault { number, detail })
}

/// A register: its columns, and its rules as sets of columns, bit c for column c.
#[derive(Clone, Copy, Default)]
pub struct Register {
    pub columns: usize,
    pub rule_count: usize,
    pub rules: [u8; 8],
}

/// A look-up: its register, one variable per column, all its variables as a set, and per rule the
/// set of the variables that it must be given.
#[derive(Clone, Copy, Default)]
pub struct Lookup {
    pub register: usize,
    pub columns: usize,
    pub variables: [u8; 6],
    pub all: u16,
    pub rule_count: usize,
    pub gives: [u16; 8],
}

/// What a sheet says.
#[derive(Default)]
pub struct Request {
    pub register_count: usize,
    pub registers: [Register; 12],
    pub variable_count: usize,
    pub given: u16,
    pub start: [u32; 16],
    pub lookup_count: usize,
    pub lookups: [Lookup; 12],
}

/// The sheet with room behind it, so that eight bytes can be read at any place.
struct Bits {
    bytes: [u8; LONGEST + 8],
    at: usize,
    end: usize,
}

impl Bits {
    fn of(sheet: &[u8]) -> Bits {
        let mut bytes = [0; LONGEST + 8];
        let held = sheet.len().min(LONGEST);
        bytes[..held].copy_from_slice(&sheet[..held]);
        Bits {
            bytes,
            at: 0,
            end: 8 * sheet.len(),
        }
    }

    /// The next field of 1 to 32 bits.
    #[inline]
    fn field(&mut self, width: usize) -> Result<usize, Fault> {
        let from = self.at;
        self.at += width;
        let word = match self.bytes[from / 8..].first_chunk() {
            Some(window) if self.at <= self.end => u64::from_be_bytes(*window) << (from % 8),
            _ => return fault(2, from),
        };
        Ok((word >> (64 - width)) as usize)
    }

    /// The next field, if its value is from `low` to `high`, else this refusal.
    #[inline]
    fn ranged(
        &mut self,
        width: usize,
        low: usize,
        high: usize,
        refusal: u32,
    ) -> Result<usize, Fault> {
        let from = self.at;
        let value = self.field(width)?;
        if (low..=high).contains(&value) {
            Ok(value)
        } else {
            fault(refusal, from)
        }
    }

    /// Zero bits up to a full byte, and no byte behind it.
    fn ending(&mut self) -> Result<(), Fault> {
        let padding = self.at.wrapping_neg() % 8;
        if padding != 0 {
            self.ranged(padding, 0, 0, 11)?;
        }
        if self.at < self.end {
            return fault(11, self.at);
        }
        Ok(())
    }
}

fn register(bits: &mut Bits) -> Result<Register, Fault> {
    let columns = bits.ranged(3, 1, 6, 8)?;
    let rule_count = bits.ranged(4, 1, 8, 8)?;
    let mut rules = [0; 8];
    for rule in &mut rules[..rule_count] {
        // The first column is the highest bit of the field.
        *rule = (bits.field(columns)? as u8).reverse_bits() >> (8 - columns);
    }
    Ok(Register {
        columns,
        rule_count,
        rules,
    })
}

/// The set of the variables in these columns.
fn set_of(variables: &[u8; 6], columns: u8) -> u16 {
    let bit = |c: usize| u16::from(columns >> c & 1) << variables[c];
    (0..6).map(bit).fold(0, |set, bit| set | bit)
}

fn lookup(bits: &mut Bits, registers: &[Register], variable_count: usize) -> Result<Lookup, Fault> {
    let number = bits.ranged(4, 0, registers.len() - 1, 9)?;
    let register = &registers[number];
    let mut variables = [0; 6];
    for variable in &mut variables[..register.columns] {
        *variable = bits.ranged(4, 0, variable_count - 1, 9)? as u8;
    }
    Ok(Lookup {
        register: number,
        columns: register.columns,
        variables,
        all: set_of(&variables, (1 << register.columns) - 1),
        rule_count: register.rule_count,
        gives: register.rules.map(|rule| set_of(&variables, rule)),
    })
}

/// The request that the sheet holds, or its first fault in reading order.
pub fn read(sheet: &[u8]) -> Result<Request, Fault> {
    let mut bits = Bits::of(sheet);
    let mut request = Request::default();
    bits.ranged(3, 1, 1, 7)?;
    request.register_count = bits.ranged(4, 1, 12, 8)?;
    let variable_count = bits.field(4)? + 1;
    request.variable_count = variable_count;
    request.lookup_count = bits.ranged(4, 1, 12, 8)?;
    for place in &mut request.registers[..request.register_count] {
        *place = register(&mut bits)?;
    }
    // Variable 0 comes first, and has the lowest bit of the set.
    let given = bits.field(variable_count)? as u16;
    request.given = given.reverse_bits() >> (16 - variable_count);
    for variable in 0..variable_count {
        if request.given >> variable & 1 == 1 {
            request.start[variable] = bits.ranged(32, 1, u32::MAX as usize, 12)? as u32;
        }
    }
    let mut used = request.given;
    let registers = &request.registers[..request.register_count];
    for place in &mut request.lookups[..request.lookup_count] {
        *place = lookup(&mut bits, registers, variable_count)?;
        used |= place.all;
    }
    let lowest_unused = used.trailing_ones() as usize;
    if lowest_unused < variable_count {
        return fault(10, lowest_unused);
    }
    bits.ending()?;
    Ok(request)
}

impl Request {
    /// The variables that never take the value 0, as a set: the given ones, and those that stand in
    /// more than one column over all look-ups.
    pub fn never_zero(&self) -> u16 {
        let (mut met, mut again) = (self.given, self.given);
        for lookup in &self.lookups[..self.lookup_count] {
            for variable in &lookup.variables[..lookup.columns] {
                again |= met & 1 << variable;
                met |= 1 << variable;
            }
        }
        again
    }

    /// The look-ups that are never answerable, as a set.
    pub fn never_answerable(&self) -> u16 {
        let mut known = self.given;
        let mut open = (1_u16 << self.lookup_count) - 1;
        loop {
            let before = open;
            for (number, lookup) in self.lookups[..self.lookup_count].iter().enumerate() {
                if open >> number & 1 == 1 && lookup.usable(known) {
                    open &= !(1 << number);
                    known |= lookup.all;
                }
            }
            if open == 0 || open == before {
                return open;
            }
        }
    }
}

impl Lookup {
    /// Whether a rule can be used.
    fn usable(&self, known: u16) -> bool {
        let mut rules = self.gives[..self.rule_count].iter();
        rules.any(|gives| gives & !known == 0)
    }
}
