//! What a sheet says, in the places in which the library's reading puts it and its writing takes it.

use crate::dice::Dice;
use crate::SHEET_PLACES;
use second::fields::{Fields, LookupFields, RegisterFields};
use second::sheet::Request;

/// A rule as a number, the first column's mark the highest bit.
fn number(rule: &[bool]) -> usize {
    rule.iter().fold(0, |n, must| 2 * n + usize::from(*must))
}

/// Numbers behind the others, with zeros up to so many places.
fn put(places: &mut Vec<usize>, numbers: &[usize], count: usize) {
    let end = places.len() + count;
    places.extend(numbers);
    places.resize(end, 0);
}

/// What a sheet says as reading puts it, behind the fault and its place.
pub fn said(request: &Request) -> Vec<usize> {
    let givens = || request.givens.iter().enumerate();
    let set = givens().filter(|(_, given)| given.is_some());
    let mut places = vec![
        request.registers.len(),
        request.givens.len(),
        set.map(|(variable, _)| 1 << variable).sum(),
        request.lookups.len(),
    ];
    let values: Vec<usize> = givens()
        .map(|(_, given)| given.unwrap_or(0) as usize)
        .collect();
    put(&mut places, &values, 16);
    for register in &request.registers {
        let mut numbers = vec![register.columns, register.rules.len()];
        numbers.extend(register.rules.iter().map(|rule| number(rule)));
        put(&mut places, &numbers, 10);
    }
    put(&mut places, &[], 10 * (12 - request.registers.len()));
    for lookup in &request.lookups {
        let mut numbers = vec![lookup.register, lookup.variables.len()];
        numbers.extend(&lookup.variables);
        put(&mut places, &numbers, 8);
    }
    put(&mut places, &[], 8 * (12 - request.lookups.len()));
    places
}

/// Noise for places and bits that are not looked at; at times there is none.
struct Noise<'a>(Option<&'a mut Dice>);

impl Noise<'_> {
    /// Any number, small or large, or this one where there is no noise.
    fn or(&mut self, number: usize) -> usize {
        match &mut self.0 {
            None => number,
            Some(dice) => match dice.below(4) {
                0 => 0,
                1 => dice.below(17),
                2 => usize::MAX,
                _ => dice.next() as usize,
            },
        }
    }
}

/// A register's ten numbers. The bits of a rule's number beyond the columns are no field.
fn register_numbers(register: &RegisterFields, noise: &mut Noise) -> Vec<usize> {
    let mut numbers = vec![register.columns, register.rule_count];
    for rule in &register.rules {
        let (own, beyond) = rule.split_at(register.columns.min(6));
        let beyond = number(beyond) | noise.or(0) << beyond.len();
        numbers.push(number(own) | beyond << own.len());
    }
    numbers
}

/// A look-up's eight numbers. Its own number of columns is no field.
fn lookup_numbers(lookup: &LookupFields, fields: &Fields, noise: &mut Noise) -> Vec<usize> {
    let register = fields.registers.get(lookup.register);
    let columns = noise.or(register.map_or(0, |register| register.columns));
    let mut numbers = vec![lookup.register, columns];
    numbers.extend(lookup.variables);
    numbers
}

/// Fields as writing takes them. Half of the time there is noise in all that is not looked at: the
/// first two places, bits of the given set beyond the 16, bits of a rule beyond its columns, a
/// look-up's own number of columns, and places behind the last.
pub fn places(fields: &Fields, dice: &mut Dice) -> Vec<usize> {
    let with_noise = dice.below(2) == 0;
    let mut noise = Noise(with_noise.then_some(dice));
    let mut places = vec![noise.or(0), noise.or(0)];
    let given = (0..16).filter(|variable| fields.given[*variable]);
    let given: usize = given.map(|variable| 1 << variable).sum();
    places.extend([
        fields.register_count,
        fields.variable_count,
        given | noise.or(0) << 16,
        fields.lookup_count,
    ]);
    places.extend(fields.values.map(|value| value as usize));
    for register in &fields.registers {
        places.extend(register_numbers(register, &mut noise));
    }
    for lookup in &fields.lookups {
        places.extend(lookup_numbers(lookup, fields, &mut noise));
    }
    assert_eq!(places.len(), SHEET_PLACES);
    let more = noise.or(0) % 4;
    places.extend((0..more).map(|place| noise.or(place)));
    places
}
