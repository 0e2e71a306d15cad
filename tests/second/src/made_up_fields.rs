//! Made-up fields from a seed, for the writing of sheets: sound ones, fields broken in each way, and
//! what stands beyond the counts. With them go lengths of a buffer.

use crate::fields::{self, Fields, LookupFields, RegisterFields};
use crate::made_up::{self, marks, Dice};
use crate::sheet::{Fault, UNUSED};

/// Fields, the lengths of the buffers that they are written to, and what kind of fields they are.
#[derive(Debug, Clone, PartialEq, Eq)]
pub struct Case {
    pub fields: Fields,
    pub lengths: Vec<usize>,
    pub kind: &'static str,
}

/// A kind: its name, its weight and what makes it.
type Kind = (&'static str, usize, fn(&mut Dice) -> Fields);

const KINDS: &[Kind] = &[
    // Sound.
    ("requested", 10, requested),
    ("plain", 20, plain),
    ("longest", 2, longest),
    ("beyond", 24, |d| {
        let mut fields = plain(d);
        put_beyond(d, &mut fields);
        fields
    }),
    // Broken in one way.
    ("count", 9, |d| broken(d, &[count])),
    ("columns-or-rules", 9, |d| broken(d, &[columns_or_rules])),
    ("named", 10, |d| broken(d, &[named])),
    ("given-zero", 6, |d| broken(d, &[given_zero])),
    ("unused", 8, |d| broken(d, &[unused])),
    // Broken in several.
    ("two-faults", 14, |d| {
        let ways = [*d.pick(WAYS), *d.pick(WAYS)];
        broken(d, &ways)
    }),
    ("noise", 8, noise),
];

/// A way to break fields, sound or broken before.
type Way = fn(&mut Dice, &mut Fields);

const WAYS: &[Way] = &[count, columns_or_rules, named, given_zero, unused];

/// The names of all kinds.
pub fn kinds() -> Vec<&'static str> {
    KINDS.iter().map(|(kind, _, _)| *kind).collect()
}

/// The case of this seed.
pub fn case(seed: u64) -> Case {
    let mut dice = Dice::new(seed);
    let (kind, make) = dice.kind(KINDS);
    let fields = make(&mut dice);
    let lengths = lengths(&mut dice, &fields);
    Case {
        fields,
        lengths,
        kind,
    }
}

/// Lengths of a buffer: some that are long enough and some that are not, if the fields are sound;
/// once in 16 all from 0 to 3 more than the sheet needs.
fn lengths(d: &mut Dice, fields: &Fields) -> Vec<usize> {
    match fields::written(fields) {
        Ok(sheet) => {
            let need = sheet.bytes().len();
            if d.once_in(16) {
                return (0..=need + 3).collect();
            }
            let more = *d.pick(&[need + 1, need + 2, need + 3, 193, 194, 300]);
            vec![d.from(0, need - 1), need - 1, need, more.max(need)]
        }
        Err(_) => vec![0, d.from(1, 192), *d.pick(&[193, 194, 300])],
    }
}

// ---------------------------------------------------------------- sound fields

/// The fields of a made-up request.
fn requested(d: &mut Dice) -> Fields {
    Fields::of(&made_up::sound(d))
}

/// A number from 1 to `most`, often one of these two.
fn size(d: &mut Dice, most: usize) -> usize {
    match d.from(1, 6) {
        1 => 1,
        2 => most,
        _ => d.from(1, most),
    }
}

/// A value that is not 0.
fn value(d: &mut Dice) -> u32 {
    let other = d.next() as u32 | 1;
    *d.pick(&[1, 7, 128, 256, 65_536, 1 << 31, u32::MAX, other])
}

/// Gives each variable that stands nowhere.
fn give_unused(d: &mut Dice, fields: &mut Fields) {
    while let Err(Fault {
        number: UNUSED,
        detail,
    }) = fields::written(fields)
    {
        fields.given[detail as usize] = true;
        fields.values[detail as usize] = value(d);
    }
}

/// Sound fields with such counts, and 0 for what the sheet does not have. Out of 4, `given` variables
/// are given.
fn sized(
    d: &mut Dice,
    counts: [usize; 3],
    given: usize,
    columns: fn(&mut Dice) -> usize,
    rules: fn(&mut Dice) -> usize,
) -> Fields {
    let mut fields = Fields {
        register_count: counts[0],
        variable_count: counts[1],
        lookup_count: counts[2],
        ..Fields::default()
    };
    for register in &mut fields.registers[..counts[0]] {
        (register.columns, register.rule_count) = (columns(d), rules(d));
        for rule in &mut register.rules[..register.rule_count] {
            rule[..register.columns].fill_with(|| d.once_in(2));
        }
    }
    for variable in 0..counts[1] {
        if d.from(1, 4) <= given {
            fields.given[variable] = true;
            fields.values[variable] = value(d);
        }
    }
    for lookup in &mut fields.lookups[..counts[2]] {
        lookup.register = d.from(0, counts[0] - 1);
        let columns = fields.registers[lookup.register].columns;
        lookup.variables[..columns].fill_with(|| d.from(0, counts[1] - 1));
    }
    give_unused(d, &mut fields);
    fields
}

/// Sound fields of any size.
fn plain(d: &mut Dice) -> Fields {
    let counts = [size(d, 12), size(d, 16), size(d, 12)];
    let given = d.from(0, 4);
    sized(d, counts, given, |d| size(d, 6), |d| size(d, 8))
}

/// Fields of a sheet of 193 bytes: each number at its most, and each variable given.
fn longest(d: &mut Dice) -> Fields {
    sized(d, [12, 16, 12], 4, |_| 6, |_| 8)
}

// ---------------------------------------------------------------- beyond the counts

/// Any number, in some range or in none.
fn any(d: &mut Dice) -> usize {
    let (small, other) = (d.from(1, 17), d.next() as usize);
    *d.pick(&[0, small, small, 255, 256, usize::MAX, other])
}

/// A count as far as there are entries.
fn room(count: usize, most: usize) -> usize {
    count.min(most)
}

/// The columns that a look-up has a variable for.
fn columns_of(fields: &Fields, lookup: &LookupFields) -> usize {
    let register = fields.registers.get(lookup.register);
    room(register.map_or(6, |register| register.columns), 6)
}

/// Anything in what the sheet has no field for.
fn put_beyond(d: &mut Dice, fields: &mut Fields) {
    let counted = room(fields.register_count, 12);
    for register in &mut fields.registers[counted..] {
        (register.columns, register.rule_count) = (any(d), any(d));
        register.rules = [[false; 6]; 8].map(|rule| rule.map(|_| d.once_in(2)));
    }
    for register in &mut fields.registers[..counted] {
        let (columns, rules) = (room(register.columns, 6), room(register.rule_count, 8));
        for (place, rule) in register.rules.iter_mut().enumerate() {
            let from = if place < rules { columns } else { 0 };
            rule[from..].fill_with(|| d.once_in(2));
        }
    }
    for variable in 0..16 {
        if variable >= fields.variable_count {
            fields.given[variable] = d.once_in(2);
        }
        if variable >= fields.variable_count || !fields.given[variable] {
            let other = value(d);
            fields.values[variable] = *d.pick(&[0, other]);
        }
    }
    let counted = room(fields.lookup_count, 12);
    for place in 0..12 {
        let mut lookup = fields.lookups[place];
        let mut from = 0;
        if place < counted {
            from = columns_of(fields, &lookup);
        } else {
            lookup.register = any(d);
        }
        lookup.variables[from..].fill_with(|| any(d));
        fields.lookups[place] = lookup;
    }
}

// ---------------------------------------------------------------- broken fields

/// Fields broken in these ways, of which one may undo another, but not all; every second time with
/// anything beyond the counts, put there before or behind.
fn broken(d: &mut Dice, ways: &[Way]) -> Fields {
    loop {
        let mut fields = match d.once_in(4) {
            true => requested(d),
            false => plain(d),
        };
        let beyond = d.from(1, 4);
        if beyond == 1 {
            put_beyond(d, &mut fields);
        }
        for way in ways {
            way(d, &mut fields);
        }
        if beyond == 2 {
            put_beyond(d, &mut fields);
        }
        if fields::written(&fields).is_err() {
            return fields;
        }
    }
}

/// A number that is not from `low` to `high`: one next to them, the highest of the field's bits, a
/// huge one, or one that is sound if it is cut to the field's bits, a byte, or half of a number.
fn out_of(d: &mut Dice, (low, high): (usize, usize), bits: usize, sound: usize) -> usize {
    let cut = [bits, 8, 16, 32, 63].map(|bits| sound.wrapping_add(1 << bits));
    let huge = [255, 256, 300, 1 << 32, usize::MAX, usize::MAX - 15];
    let near = [low.wrapping_sub(1), high + 1, (1 << bits) - 1, 1 << bits];
    loop {
        let number = match d.from(1, 3) {
            1 => *d.pick(&cut),
            2 => *d.pick(&huge),
            _ => *d.pick(&near),
        };
        if number < low || number > high {
            return number;
        }
    }
}

/// One of the three counts.
fn count(d: &mut Dice, fields: &mut Fields) {
    let (count, most) = match d.from(1, 3) {
        1 => (&mut fields.register_count, 12),
        2 => (&mut fields.variable_count, 16),
        _ => (&mut fields.lookup_count, 12),
    };
    *count = out_of(d, (1, most), 4, *count);
}

/// The number of columns or of rules of a register.
fn columns_or_rules(d: &mut Dice, fields: &mut Fields) {
    let last = fields.register_count.clamp(1, 12) - 1;
    let register = &mut fields.registers[d.from(0, last)];
    if d.once_in(2) {
        register.columns = out_of(d, (1, 6), 3, register.columns);
    } else {
        register.rule_count = out_of(d, (1, 8), 4, register.rule_count);
    }
}

/// The register or a variable of a look-up.
fn named(d: &mut Dice, fields: &mut Fields) {
    let last = |count: usize, most: usize| count.clamp(1, most) - 1;
    let place = d.from(0, last(fields.lookup_count, 12));
    let columns = columns_of(fields, &fields.lookups[place]);
    let lookup = &mut fields.lookups[place];
    if d.once_in(3) {
        let registers = (0, last(fields.register_count, 12));
        lookup.register = out_of(d, registers, 4, lookup.register);
    } else {
        let variable = &mut lookup.variables[d.from(0, last(columns, 6))];
        *variable = out_of(d, (0, last(fields.variable_count, 16)), 4, *variable);
    }
}

/// A given value of 0.
fn given_zero(d: &mut Dice, fields: &mut Fields) {
    let variables = fields.variable_count.clamp(1, 16);
    let given: Vec<usize> = (0..variables).filter(|v| fields.given[*v]).collect();
    let variable = match given[..] {
        [] => d.from(0, variables - 1),
        _ => *d.pick(&given),
    };
    fields.given[variable] = true;
    fields.values[variable] = 0;
}

/// One or two variables that stand nowhere: behind the others, or in the place of others, for which
/// the look-ups then have another.
fn unused(d: &mut Dice, fields: &mut Fields) {
    let variables = fields.variable_count.clamp(1, 16);
    if variables == 1 || (variables < 16 && d.once_in(3)) {
        let more = d.from(1, 2).min(16 - variables);
        fields.variable_count = variables + more;
        fields.given[variables..variables + more].fill(false);
        return;
    }
    for _ in 0..d.from(1, 2) {
        let variable = d.from(0, variables - 1);
        let other = (variable + d.from(1, variables - 1)) % variables;
        fields.given[variable] = false;
        for lookup in &mut fields.lookups {
            let named = lookup.variables.iter_mut();
            named
                .filter(|named| **named == variable)
                .for_each(|named| *named = other);
        }
    }
}

/// Sound fields of which some numbers, few of them, are any.
fn noise(d: &mut Dice) -> Fields {
    let mut fields = plain(d);
    put_beyond(d, &mut fields);
    let rarely = |d: &mut Dice, number: &mut usize| {
        if d.once_in(60) {
            *number = any(d);
        }
    };
    rarely(d, &mut fields.register_count);
    rarely(d, &mut fields.variable_count);
    rarely(d, &mut fields.lookup_count);
    for register in &mut fields.registers {
        rarely(d, &mut register.columns);
        rarely(d, &mut register.rule_count);
    }
    for variable in 0..16 {
        fields.given[variable] ^= d.once_in(40);
    }
    for lookup in &mut fields.lookups {
        rarely(d, &mut lookup.register);
        lookup.variables.iter_mut().for_each(|v| rarely(d, v));
    }
    fields
}

// ---------------------------------------------------------------- in words

/// Parts of a text with this mark between each two.
fn parted<T>(parts: &[T], mark: &str, text: impl Fn(&T) -> String) -> String {
    parts.iter().map(text).collect::<Vec<_>>().join(mark)
}

/// A register's fields: columns, rules, and the marks of each rule.
fn register_in_words(register: &RegisterFields) -> String {
    let rules = parted(&register.rules, ",", |rule| marks(rule));
    format!("{}:{}:{rules}", register.columns, register.rule_count)
}

/// A look-up's fields: its register, and its variables.
fn lookup_in_words(lookup: &LookupFields) -> String {
    let variables = parted(&lookup.variables, ",", usize::to_string);
    format!("{},{variables}", lookup.register)
}

/// The fields as a line of expected results has them.
pub fn in_words(fields: &Fields) -> String {
    format!(
        "registers={} variables={} lookups={} register={} given={} value={} lookup={}",
        fields.register_count,
        fields.variable_count,
        fields.lookup_count,
        parted(&fields.registers, ";", register_in_words),
        parted(&fields.given, "", |given| u8::from(*given).to_string()),
        parted(&fields.values, ",", u32::to_string),
        parted(&fields.lookups, ";", lookup_in_words),
    )
}
