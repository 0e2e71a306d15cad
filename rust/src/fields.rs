//! The fields of a sheet in reading order: what each is, where it stands, and what it may be. `explain`
//! names by them the field that a fault's place begins. Tested, not proved; which fault a sheet has is
//! told by the proved reading alone.

use std::fmt;

/// What a field is. Registers, rules, variables, look-ups and columns are numbered from 0.
#[derive(Debug, Clone, Copy, PartialEq, Eq)]
#[allow(missing_docs)] // the numbers say of which register, rule, variable, look-up or column
pub enum Name {
    /// The version.
    Version,
    /// The number of registers.
    Registers,
    /// The number of variables less one.
    Variables,
    /// The number of look-ups.
    LookUps,
    /// A register's number of columns.
    Columns { register: usize },
    /// A register's number of rules.
    Rules { register: usize },
    /// A rule: a bit a column.
    Rule { register: usize, rule: usize },
    /// A bit a variable: whether it is given.
    Given,
    /// The value of a variable that is given, which is not 0.
    Value { variable: usize },
    /// The register of a look-up.
    Register { lookup: usize },
    /// The variable in a column of a look-up.
    Variable { lookup: usize, column: usize },
    /// The zero bits up to a full byte.
    Padding,
    /// The bytes behind the padding, which no sound sheet has.
    Extra,
}

impl fmt::Display for Name {
    fn fmt(&self, f: &mut fmt::Formatter<'_>) -> fmt::Result {
        match self {
            Name::Version => f.write_str("the version"),
            Name::Registers => f.write_str("the number of registers"),
            Name::Variables => f.write_str("the number of variables"),
            Name::LookUps => f.write_str("the number of look-ups"),
            Name::Columns { register } => write!(f, "the number of columns of register {register}"),
            Name::Rules { register } => write!(f, "the number of rules of register {register}"),
            Name::Rule { register, rule } => write!(f, "rule {rule} of register {register}"),
            Name::Given => f.write_str("the bits that say which variables are given"),
            Name::Value { variable } => write!(f, "the given value of variable {variable}"),
            Name::Register { lookup } => write!(f, "the register of look-up {lookup}"),
            Name::Variable { lookup, column } => write!(f, "column {column} of look-up {lookup}"),
            Name::Padding => f.write_str("the padding"),
            Name::Extra => f.write_str("the bytes behind the padding"),
        }
    }
}

/// A field of a sheet.
#[derive(Debug, Clone, Copy, PartialEq, Eq)]
pub struct Field {
    /// What it is.
    pub name: Name,
    /// Its first bit, counted from 0.
    pub place: usize,
    /// How many bits it takes, whether the sheet has them all or not.
    pub bits: usize,
    /// Its value, the highest bit first, where the sheet has all of it; extra bytes have none.
    pub value: Option<u32>,
    /// The least that it may be.
    pub least: u32,
    /// The most that it may be.
    pub most: u32,
}

impl Field {
    /// The value, where it is one that the field may have.
    pub fn sound(&self) -> Option<u32> {
        self.value
            .filter(|value| (self.least..=self.most).contains(value))
    }
}

/// The number that these bits of a sheet make, at most 32, if it has them all.
fn value(sheet: &[u8], place: usize, bits: usize) -> Option<u32> {
    (place..place + bits).try_fold(0, |value, bit| {
        let byte = sheet.get(bit / 8)?;
        Some(value << 1 | u32::from(byte >> (7 - bit % 8) & 1))
    })
}

/// The fields met so far, and the bit behind them.
struct Walk<'a> {
    sheet: &'a [u8],
    fields: Vec<Field>,
    at: usize,
}

impl Walk<'_> {
    /// The next field; its value where it is sound, so that the walk can go on.
    fn field(&mut self, name: Name, bits: usize, least: u32, most: u32) -> Option<usize> {
        let field = Field {
            name,
            place: self.at,
            bits,
            value: value(self.sheet, self.at, bits),
            least,
            most,
        };
        self.at += bits;
        self.fields.push(field);
        field.sound().map(|value| value as usize)
    }

    /// A register; gives its columns.
    fn register(&mut self, register: usize) -> Option<usize> {
        let columns = self.field(Name::Columns { register }, 3, 1, 6)?;
        for rule in 0..self.field(Name::Rules { register }, 4, 1, 8)? {
            self.field(Name::Rule { register, rule }, columns, 0, u32::MAX)?;
        }
        Some(columns)
    }

    /// Which variables are given, and their values.
    fn given(&mut self, variables: usize) -> Option<()> {
        let given = self.field(Name::Given, variables, 0, u32::MAX)?;
        for variable in 0..variables {
            if given >> (variables - 1 - variable) & 1 == 1 {
                self.field(Name::Value { variable }, 32, 1, u32::MAX)?;
            }
        }
        Some(())
    }

    /// A look-up in one of the registers with so many columns.
    fn look_up(&mut self, lookup: usize, columns: &[usize], variables: usize) -> Option<()> {
        let last = columns.len() as u32 - 1;
        let register = self.field(Name::Register { lookup }, 4, 0, last)?;
        for column in 0..columns[register] {
            let last = variables as u32 - 1;
            self.field(Name::Variable { lookup, column }, 4, 0, last)?;
        }
        Some(())
    }

    /// The padding, where there is some, and what follows.
    fn ending(&mut self) -> Option<()> {
        let padding = self.at.next_multiple_of(8) - self.at;
        if padding > 0 {
            self.field(Name::Padding, padding, 0, 0)?;
        }
        let extra = 8 * self.sheet.len() - self.at;
        if extra > 0 {
            self.fields.push(Field {
                name: Name::Extra,
                place: self.at,
                bits: extra,
                value: None,
                least: 0,
                most: 0,
            });
        }
        Some(())
    }

    /// All of the sheet, as far as its fields are sound.
    fn all(&mut self) -> Option<()> {
        self.field(Name::Version, 3, 1, 1)?;
        let registers = self.field(Name::Registers, 4, 1, 12)?;
        let variables = 1 + self.field(Name::Variables, 4, 0, 15)?;
        let lookups = self.field(Name::LookUps, 4, 1, 12)?;
        let columns = (0..registers).map(|register| self.register(register));
        let columns: Vec<usize> = columns.collect::<Option<_>>()?;
        self.given(variables)?;
        for lookup in 0..lookups {
            self.look_up(lookup, &columns, variables)?;
        }
        self.ending()
    }
}

/// The fields of a sheet in reading order, up to the first that is not sound, which is the last one
/// then. Any bytes are taken.
pub fn fields(sheet: &[u8]) -> Vec<Field> {
    let mut walk = Walk {
        sheet,
        fields: Vec::new(),
        at: 0,
    };
    walk.all();
    walk.fields
}
