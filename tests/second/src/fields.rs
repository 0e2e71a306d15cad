//! The sheet written from its fields, into a lent buffer.
//!
//! Any fields are taken. They are written in the order of reading, and the first that is broken is
//! told, with its place in the sheet that would be written. The version is no field. What a sheet
//! has no field for is not looked at. Only where all fields are sound does the buffer's length count,
//! and a refusal writes nothing.

use crate::sheet::{Fault, Lookup, Register, Request};
use crate::sheet::{COUNT, GIVEN_ZERO, NOT_IN_SHEET, UNUSED};
use crate::write::Written;

/// The buffer is shorter than the sheet; the detail is the bytes needed.
pub const SHORT_BUFFER: u32 = 13;

/// The fields of a register, with room for 8 rules of 6 columns. A mark that is `true` is "must give".
#[derive(Debug, Clone, Copy, Default, PartialEq, Eq)]
pub struct RegisterFields {
    pub columns: usize,
    pub rule_count: usize,
    pub rules: [[bool; 6]; 8],
}

/// The fields of a look-up, with room for 6 variables.
#[derive(Debug, Clone, Copy, Default, PartialEq, Eq)]
pub struct LookupFields {
    pub register: usize,
    pub variables: [usize; 6],
}

/// The fields of a sheet: numbers in their range or not, and room for as much as a sheet can have.
#[derive(Debug, Clone, Default, PartialEq, Eq)]
pub struct Fields {
    pub register_count: usize,
    pub variable_count: usize,
    pub lookup_count: usize,
    pub registers: [RegisterFields; 12],
    pub given: [bool; 16],
    pub values: [u32; 16],
    pub lookups: [LookupFields; 12],
}

/// What writing gives: 0, 0 and the bytes written; or number and detail of the refusal, and 0.
#[derive(Debug, Clone, Copy, PartialEq, Eq)]
pub struct Outcome {
    pub number: u32,
    pub detail: u32,
    pub bytes: usize,
}

impl Fields {
    /// The fields that say this request, which fits into the room; 0 for what it does not have.
    pub fn of(request: &Request) -> Fields {
        let mut fields = Fields {
            register_count: request.registers.len(),
            variable_count: request.givens.len(),
            lookup_count: request.lookups.len(),
            ..Fields::default()
        };
        for (place, register) in fields.registers.iter_mut().zip(&request.registers) {
            place.columns = register.columns;
            place.rule_count = register.rules.len();
            for (place, rule) in place.rules.iter_mut().zip(&register.rules) {
                place[..rule.len()].copy_from_slice(rule);
            }
        }
        for (variable, given) in request.givens.iter().enumerate() {
            fields.given[variable] = given.is_some();
            fields.values[variable] = given.unwrap_or(0);
        }
        for (place, lookup) in fields.lookups.iter_mut().zip(&request.lookups) {
            place.register = lookup.register;
            place.variables[..lookup.variables.len()].copy_from_slice(&lookup.variables);
        }
        fields
    }

    /// What the sheet of these fields says, and no more. The fields are sound.
    pub fn request(&self) -> Request {
        let register = |register: &RegisterFields| Register {
            columns: register.columns,
            rules: (register.rules[..register.rule_count].iter())
                .map(|rule| rule[..register.columns].to_vec())
                .collect(),
        };
        let lookup = |lookup: &LookupFields| Lookup {
            register: lookup.register,
            variables: lookup.variables[..self.registers[lookup.register].columns].to_vec(),
        };
        let registers = &self.registers[..self.register_count];
        let lookups = &self.lookups[..self.lookup_count];
        Request {
            registers: registers.iter().map(register).collect(),
            givens: (0..self.variable_count)
                .map(|variable| self.given[variable].then_some(self.values[variable]))
                .collect(),
            lookups: lookups.iter().map(lookup).collect(),
        }
    }
}

/// A sheet while its fields are tested and written.
#[derive(Default)]
struct Writing(Written);

impl Writing {
    /// The place of the next field.
    fn at(&self) -> usize {
        self.0.bits.len()
    }

    /// Writes a number of this width less `less`, if it is from `low` to `high`; else the refusal
    /// `number`, at the place of this field.
    fn ranged(
        &mut self,
        (name, width, less): (&'static str, usize, usize),
        value: usize,
        (low, high): (usize, usize),
        number: u32,
    ) -> Result<(), Fault> {
        if value < low || value > high {
            return Err(Fault::at(number, self.at()));
        }
        self.0.field(name, width, (value - less) as u32);
        Ok(())
    }

    /// Parts 1 to 4: the version, and the three counts.
    fn head(&mut self, fields: &Fields) -> Result<(), Fault> {
        self.0.field("version", 3, 1);
        self.ranged(("registers", 4, 0), fields.register_count, (1, 12), COUNT)?;
        self.ranged(("variables", 4, 1), fields.variable_count, (1, 16), COUNT)?;
        self.ranged(("look-ups", 4, 0), fields.lookup_count, (1, 12), COUNT)
    }

    /// Part 5: a register.
    fn register(&mut self, register: &RegisterFields) -> Result<(), Fault> {
        self.ranged(("columns", 3, 0), register.columns, (1, 6), COUNT)?;
        self.ranged(("rules", 4, 0), register.rule_count, (1, 8), COUNT)?;
        for rule in &register.rules[..register.rule_count] {
            let marks = rule[..register.columns].iter();
            self.0.marks("rule", marks.copied());
        }
        Ok(())
    }

    /// Part 6: which variables are given, then their values, of which none is 0.
    fn given(&mut self, fields: &Fields) -> Result<(), Fault> {
        let variables = 0..fields.variable_count;
        let marks = variables.clone().map(|variable| fields.given[variable]);
        self.0.marks("given", marks);
        for variable in variables.filter(|variable| fields.given[*variable]) {
            match fields.values[variable] {
                0 => return Err(Fault::at(GIVEN_ZERO, self.at())),
                value => self.0.field("value", 32, value),
            }
        }
        Ok(())
    }

    /// Part 7: a look-up, with a variable for each column of its register.
    fn lookup(&mut self, lookup: &LookupFields, fields: &Fields) -> Result<(), Fault> {
        let below = |count: usize| (0, count - 1);
        let registers = below(fields.register_count);
        self.ranged(("register", 4, 0), lookup.register, registers, NOT_IN_SHEET)?;
        for variable in &lookup.variables[..fields.registers[lookup.register].columns] {
            let variables = below(fields.variable_count);
            self.ranged(("variable", 4, 0), *variable, variables, NOT_IN_SHEET)?;
        }
        Ok(())
    }
}

/// The lowest variable that is neither given nor in a look-up.
fn unused(fields: &Fields) -> Option<usize> {
    let lookups = &fields.lookups[..fields.lookup_count];
    let columns = |lookup: &LookupFields| fields.registers[lookup.register].columns;
    let stands = |variable| {
        (lookups.iter()).any(|lookup| lookup.variables[..columns(lookup)].contains(&variable))
    };
    (0..fields.variable_count).find(|variable| !fields.given[*variable] && !stands(*variable))
}

/// The sheet of these fields, or the first that is broken.
pub fn written(fields: &Fields) -> Result<Written, Fault> {
    let mut sheet = Writing::default();
    sheet.head(fields)?;
    for register in &fields.registers[..fields.register_count] {
        sheet.register(register)?;
    }
    sheet.given(fields)?;
    for lookup in &fields.lookups[..fields.lookup_count] {
        sheet.lookup(lookup, fields)?;
    }
    match unused(fields) {
        Some(variable) => Err(Fault::at(UNUSED, variable)),
        None => Ok(sheet.0),
    }
}

/// Writes the sheet of these fields to the beginning of the buffer; zero bits up to a full byte.
pub fn write(fields: &Fields, buffer: &mut [u8]) -> Outcome {
    let refused = |Fault { number, detail }| Outcome {
        number,
        detail,
        bytes: 0,
    };
    let sheet = match written(fields) {
        Ok(sheet) => sheet.bytes(),
        Err(fault) => return refused(fault),
    };
    match buffer.get_mut(..sheet.len()) {
        None => refused(Fault::at(SHORT_BUFFER, sheet.len())),
        Some(start) => {
            start.copy_from_slice(&sheet);
            Outcome {
                number: 0,
                detail: 0,
                bytes: sheet.len(),
            }
        }
    }
}
