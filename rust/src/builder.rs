//! A sheet put together by hand: rules as letters, registers, variables and look-ups by number.

use crate::reading::{LookUp, Register, Sheet};
use crate::Refusal;
use std::fmt;

/// As many variables are too many for a sheet, and so are more.
const TOO_MANY: usize = 17;

/// A rule that is none: it has another letter than b and f, or not as many as the register's first.
#[derive(Debug, Clone, Copy, PartialEq, Eq)]
pub struct NoRule {
    /// The register, from 0.
    pub register: usize,
    /// Which of its rules, from 0.
    pub rule: usize,
}

impl fmt::Display for NoRule {
    fn fmt(&self, f: &mut fmt::Formatter<'_>) -> fmt::Result {
        let NoRule { register, rule } = self;
        write!(
            f,
            "rule {rule} of register {register} is not a letter b or f for each column"
        )
    }
}

impl std::error::Error for NoRule {}

/// A sheet put together by hand.
///
/// Registers and look-ups are numbered from 0 as they are added, variables by whoever builds. A
/// sheet has the variables from 0 up to the highest that is named, and each must be given or in a
/// look-up. This is the depot's request of docs/RULES.md:
///
/// ```
/// use ebbcandle::SheetBuilder;
///
/// # fn main() -> Result<(), Box<dyn std::error::Error>> {
/// // variables: 0 depot, 1 machine, 2 condition, 3 truck
/// let sheet = SheetBuilder::new()
///     .register(&["bf"])? // 0: stock(depot, machine), asked by its depot
///     .register(&["bf"])? // 1: state(machine, condition), by its machine
///     .register(&["bf"])? // 2: carrier(machine, truck), by its machine
///     .given(0, 7) // depot 7
///     .given(2, 1) // condition 1
///     .look_up(1, &[1, 2]) // state(machine, condition)
///     .look_up(2, &[1, 3]) // carrier(machine, truck)
///     .look_up(0, &[0, 1]) // stock(depot, machine)
///     .to_bytes()?;
/// assert_eq!(sheet[..4], [0x26, 0x66, 0x86, 0x43]);
/// assert_eq!(sheet.len(), 19);
/// # Ok(())
/// # }
/// ```
#[derive(Debug, Clone, Default, PartialEq, Eq)]
pub struct SheetBuilder {
    registers: Vec<Register>,
    given: Vec<(usize, u32)>,
    lookups: Vec<LookUp>,
}

/// The marks of a rule's letters, if each is b or f.
fn marks(rule: &str) -> Option<Vec<bool>> {
    let mark = |letter| match letter {
        'b' => Some(true),
        'f' => Some(false),
        _ => None,
    };
    rule.chars().map(mark).collect()
}

impl SheetBuilder {
    /// A sheet that has nothing yet.
    pub fn new() -> SheetBuilder {
        SheetBuilder::default()
    }

    /// Adds a register by its rules: a letter a column, b where it must be given, f where it is free.
    /// An error where that is no rule, or not as long as the first.
    pub fn register(mut self, rules: &[&str]) -> Result<SheetBuilder, NoRule> {
        let columns = rules.first().map_or(0, |rule| rule.len());
        let register = self.registers.len();
        let marks = |(rule, letters): (usize, &&str)| {
            let marks = marks(letters).filter(|marks| marks.len() == columns);
            marks.ok_or(NoRule { register, rule })
        };
        let rules = rules
            .iter()
            .enumerate()
            .map(marks)
            .collect::<Result<_, _>>()?;
        self.registers.push(Register { columns, rules });
        Ok(self)
    }

    /// Gives a variable its value. A later value for the same variable takes its place.
    pub fn given(mut self, variable: usize, value: u32) -> SheetBuilder {
        self.given.push((variable, value));
        self
    }

    /// Adds a look-up: its register, and a variable for each of the register's columns. The register
    /// may be added later.
    pub fn look_up(mut self, register: usize, variables: &[usize]) -> SheetBuilder {
        self.lookups.push(LookUp {
            register,
            variables: variables.to_vec(),
        });
        self
    }

    /// How many variables there are: the highest that is named, and one.
    fn variables(&self) -> usize {
        let given = self.given.iter().map(|(variable, _)| variable);
        let asked = self.lookups.iter().flat_map(|lookup| &lookup.variables);
        let highest = given.chain(asked).max();
        highest.map_or(0, |highest| highest.saturating_add(1))
    }

    /// The sheet, whether it can be written or not.
    pub fn sheet(&self) -> Sheet {
        // a sheet with more of them is refused alike
        let mut given = vec![None; self.variables().min(TOO_MANY)];
        for (variable, value) in &self.given {
            if let Some(place) = given.get_mut(*variable) {
                *place = Some(*value);
            }
        }
        Sheet {
            registers: self.registers.clone(),
            given,
            lookups: self.lookups.clone(),
        }
    }

    /// The bytes of the sheet, or its refusal, which is 8, 9, 10 or 12: see [`Sheet::write_into`].
    pub fn to_bytes(&self) -> Result<Vec<u8>, Refusal> {
        self.sheet().to_bytes()
    }
}
