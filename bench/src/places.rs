//! The fields of a sheet in the places in which the library and the peer have them.

use peer::SHEET_PLACES;
use second::fields::{Fields, LookupFields, RegisterFields};

/// A rule's number: as many of its marks as there are columns, the first the highest bit. Marks beyond
/// them stand above, where they are no field.
fn rule(marks: &[bool; 6], columns: usize) -> usize {
    let (own, beyond) = marks.split_at(columns.min(6));
    let number = |marks: &[bool]| marks.iter().fold(0, |n, must| 2 * n + usize::from(*must));
    number(beyond) << own.len() | number(own)
}

fn register(register: &RegisterFields) -> [usize; 10] {
    let mut places = [
        register.columns,
        register.rule_count,
        0,
        0,
        0,
        0,
        0,
        0,
        0,
        0,
    ];
    for (place, marks) in places[2..].iter_mut().zip(&register.rules) {
        *place = rule(marks, register.columns);
    }
    places
}

/// A look-up has the columns of its register, if there is one.
fn lookup(lookup: &LookupFields, fields: &Fields) -> [usize; 8] {
    let register = fields.registers.get(lookup.register);
    let columns = register.map_or(0, |register| register.columns);
    let mut places = [lookup.register, columns, 0, 0, 0, 0, 0, 0];
    places[2..].copy_from_slice(&lookup.variables);
    places
}

/// The places of these fields, the number and the detail 0.
pub fn of(fields: &Fields) -> [usize; SHEET_PLACES] {
    let given = (0..16).filter(|variable| fields.given[*variable]);
    let mut places = vec![
        0,
        0,
        fields.register_count,
        fields.variable_count,
        given.map(|variable| 1 << variable).sum(),
        fields.lookup_count,
    ];
    places.extend(fields.values.map(|value| value as usize));
    let registers = &fields.registers[..];
    places.extend(registers.iter().flat_map(register));
    let lookups = fields.lookups.iter();
    // a look-up that the sheet does not have says nothing of columns
    places.extend(lookups.enumerate().flat_map(|(number, own)| {
        if number < fields.lookup_count {
            lookup(own, fields)
        } else {
            lookup(own, &Fields::default())
        }
    }));
    places.try_into().expect("as many places")
}
