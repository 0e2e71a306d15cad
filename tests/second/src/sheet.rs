//! The sheet, bit by bit.

/// A register: its number of columns and its rules.
/// A rule has one mark per column, first column first; `true` is "must give".
#[derive(Debug, Clone, PartialEq, Eq)]
pub struct Register {
    pub columns: usize,
    pub rules: Vec<Vec<bool>>,
}

/// A look-up: a register and one variable per column.
#[derive(Debug, Clone, PartialEq, Eq)]
pub struct Lookup {
    pub register: usize,
    pub variables: Vec<usize>,
}

/// What a sheet says. There is one entry of `givens` per variable.
#[derive(Debug, Clone, PartialEq, Eq)]
pub struct Request {
    pub registers: Vec<Register>,
    pub givens: Vec<Option<u32>>,
    pub lookups: Vec<Lookup>,
}

/// Why a sheet is refused: its first fault in reading order (§2.13), as number and detail of the
/// refusal.
#[derive(Debug, Clone, Copy, PartialEq, Eq)]
pub struct Fault {
    pub number: u32,
    /// The place of the faulty field's first bit, from 0; for [`UNUSED`] the lowest such variable.
    pub detail: u32,
}

impl Fault {
    /// A fault at this bit, or of this variable. The longest sheet has 1,539 bits.
    pub(crate) fn at(number: u32, place: usize) -> Fault {
        Fault {
            number,
            detail: place as u32,
        }
    }
}

/// The sheet ends early.
pub const ENDS_EARLY: u32 = 2;
/// The version is not 1.
pub const VERSION: u32 = 7;
/// A count is out of its range.
pub const COUNT: u32 = 8;
/// A register or a variable is not in the sheet.
pub const NOT_IN_SHEET: u32 = 9;
/// A variable is neither given nor in a look-up.
pub const UNUSED: u32 = 10;
/// The padding is not zero, or bytes follow it.
pub const PADDING: u32 = 11;
/// A variable is given the value 0, which means "not known".
pub const GIVEN_ZERO: u32 = 12;

/// The bits of a sheet, first bit first, and the place of the first one that is unread.
struct Bits {
    bits: Vec<bool>,
    at: usize,
}

impl Bits {
    fn of(sheet: &[u8]) -> Bits {
        let mut bits = Vec::new();
        for byte in sheet {
            for place in (0..8).rev() {
                bits.push((byte >> place) & 1 == 1);
            }
        }
        Bits { bits, at: 0 }
    }

    /// The next field of this width as its bits; refused where it is not whole.
    fn marks(&mut self, width: usize) -> Result<Vec<bool>, Fault> {
        let first = self.at;
        if self.bits.len() < first + width {
            return Err(Fault::at(ENDS_EARLY, first));
        }
        self.at += width;
        Ok(self.bits[first..self.at].to_vec())
    }

    /// The next field of this width as a number, most significant bit first.
    fn field(&mut self, width: usize) -> Result<u32, Fault> {
        let marks = self.marks(width)?;
        Ok(marks.iter().fold(0, |n, bit| n * 2 + u32::from(*bit)))
    }

    /// The next field of this width, if its value is from `low` to `high`; else the refusal `number`.
    fn ranged(
        &mut self,
        width: usize,
        low: usize,
        high: usize,
        number: u32,
    ) -> Result<usize, Fault> {
        let first = self.at;
        let value = self.field(width)? as usize;
        if (low..=high).contains(&value) {
            Ok(value)
        } else {
            Err(Fault::at(number, first))
        }
    }

    /// Part 8: zero bits up to a full byte, and no byte after it.
    fn ending(&self) -> Result<(), Fault> {
        let (padding, after) = (self.at, self.at.next_multiple_of(8));
        if self.bits[padding..after].contains(&true) {
            Err(Fault::at(PADDING, padding))
        } else if self.bits.len() > after {
            Err(Fault::at(PADDING, after))
        } else {
            Ok(())
        }
    }
}

/// Part 5: a register.
fn register(bits: &mut Bits) -> Result<Register, Fault> {
    let columns = bits.ranged(3, 1, 6, COUNT)?;
    let rule_count = bits.ranged(4, 1, 8, COUNT)?;
    let mut rules = Vec::new();
    for _ in 0..rule_count {
        rules.push(bits.marks(columns)?);
    }
    Ok(Register { columns, rules })
}

/// Part 6: which variables are given, then their values, of which none is 0.
fn given_values(bits: &mut Bits, variables: usize) -> Result<Vec<Option<u32>>, Fault> {
    let mut givens = Vec::new();
    for given in bits.marks(variables)? {
        givens.push(if given {
            Some(given_value(bits)?)
        } else {
            None
        });
    }
    Ok(givens)
}

/// The value of a given variable.
fn given_value(bits: &mut Bits) -> Result<u32, Fault> {
    let first = bits.at;
    match bits.field(32)? {
        0 => Err(Fault::at(GIVEN_ZERO, first)),
        value => Ok(value),
    }
}

/// Part 7: a look-up in one of these registers.
fn lookup(bits: &mut Bits, registers: &[Register], variables: usize) -> Result<Lookup, Fault> {
    let register = bits.ranged(4, 0, registers.len() - 1, NOT_IN_SHEET)?;
    let mut named = Vec::new();
    for _ in 0..registers[register].columns {
        named.push(bits.ranged(4, 0, variables - 1, NOT_IN_SHEET)?);
    }
    Ok(Lookup {
        register,
        variables: named,
    })
}

/// The lowest variable that is neither given nor in a look-up.
fn unused(request: &Request) -> Option<usize> {
    let stands = |variable| {
        let mut lookups = request.lookups.iter();
        lookups.any(|lookup| lookup.variables.contains(&variable))
    };
    (0..request.givens.len())
        .find(|variable| request.givens[*variable].is_none() && !stands(*variable))
}

/// The request that the sheet holds, or its first fault in reading order.
pub fn read(sheet: &[u8]) -> Result<Request, Fault> {
    let mut bits = Bits::of(sheet);
    bits.ranged(3, 1, 1, VERSION)?;
    let register_count = bits.ranged(4, 1, 12, COUNT)?;
    let variables = bits.ranged(4, 0, 15, COUNT)? + 1;
    let lookup_count = bits.ranged(4, 1, 12, COUNT)?;
    let mut registers = Vec::new();
    for _ in 0..register_count {
        registers.push(register(&mut bits)?);
    }
    let givens = given_values(&mut bits, variables)?;
    let mut lookups = Vec::new();
    for _ in 0..lookup_count {
        lookups.push(lookup(&mut bits, &registers, variables)?);
    }
    let request = Request {
        registers,
        givens,
        lookups,
    };
    // Unused variables are looked for between the last look-up and the padding.
    if let Some(variable) = unused(&request) {
        return Err(Fault::at(UNUSED, variable));
    }
    bits.ending()?;
    Ok(request)
}
