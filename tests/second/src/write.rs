//! Writes sheets and row data. The fields are written as they come, sound or not:
//! a value too large for its field loses its high bits.

use crate::sheet::Request;

/// A field of a written sheet: its name, the place of its first bit and its width. A rule is one
/// field, and so are the bits that say which variables are given.
#[derive(Debug, Clone, PartialEq, Eq)]
pub struct Field {
    pub name: &'static str,
    pub at: usize,
    pub width: usize,
}

/// A sheet while it is written.
#[derive(Debug, Clone, Default, PartialEq, Eq)]
pub struct Written {
    /// The bits without the padding.
    pub bits: Vec<bool>,
    pub fields: Vec<Field>,
}

impl Written {
    pub(crate) fn field(&mut self, name: &'static str, width: usize, value: u32) {
        let bits = (0..width).rev().map(|place| (value >> place) & 1 == 1);
        self.marks(name, bits);
    }

    /// A field of marks, the first mark first.
    pub(crate) fn marks(&mut self, name: &'static str, marks: impl Iterator<Item = bool>) {
        let at = self.bits.len();
        self.bits.extend(marks);
        let width = self.bits.len() - at;
        self.fields.push(Field { name, at, width });
    }

    /// Puts another value into a field.
    pub fn put(&mut self, field: &Field, value: u32) {
        for place in 0..field.width {
            let bit = (value >> (field.width - 1 - place)) & 1 == 1;
            if let Some(old) = self.bits.get_mut(field.at + place) {
                *old = bit;
            }
        }
    }

    /// The sheet: zero bits up to a full byte.
    pub fn bytes(&self) -> Vec<u8> {
        let byte = |bits: &[bool]| {
            (0..8).fold(0, |byte, i| byte * 2 + u8::from(bits.get(i) == Some(&true)))
        };
        self.bits.chunks(8).map(byte).collect()
    }
}

/// The bits and fields of the sheet that says this.
pub fn written(request: &Request) -> Written {
    let mut sheet = Written::default();
    sheet.field("version", 3, 1);
    sheet.field("registers", 4, request.registers.len() as u32);
    sheet.field(
        "variables",
        4,
        (request.givens.len() as u32).wrapping_sub(1),
    );
    sheet.field("look-ups", 4, request.lookups.len() as u32);
    for register in &request.registers {
        sheet.field("columns", 3, register.columns as u32);
        sheet.field("rules", 4, register.rules.len() as u32);
        for rule in &register.rules {
            sheet.marks("rule", rule.iter().copied());
        }
    }
    let given = request.givens.iter().map(Option::is_some);
    sheet.marks("given", given);
    for value in request.givens.iter().flatten() {
        sheet.field("value", 32, *value);
    }
    for lookup in &request.lookups {
        sheet.field("register", 4, lookup.register as u32);
        for variable in &lookup.variables {
            sheet.field("variable", 4, *variable as u32);
        }
    }
    sheet
}

/// The sheet that says this.
pub fn sheet(request: &Request) -> Vec<u8> {
    written(request).bytes()
}

/// The row data of registers with these rows.
pub fn words(registers: &[Vec<Vec<u32>>]) -> Vec<u32> {
    let mut words = Vec::new();
    for rows in registers {
        words.push(rows.len() as u32);
        for row in rows {
            words.extend(row);
        }
    }
    words
}

/// Words as the bytes of `data.bin`, highest byte first.
pub fn bytes(words: &[u32]) -> Vec<u8> {
    words.iter().flat_map(|word| word.to_be_bytes()).collect()
}
