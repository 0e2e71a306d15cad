//! What the made-up fields cover, and which wrong writers they tell from the right one.

use second::fields::{write, written, Fields, LookupFields, Outcome, SHORT_BUFFER};
use second::made_up_fields::{case, in_words, kinds, Case};
use second::sheet::{Fault, COUNT, GIVEN_ZERO, NOT_IN_SHEET, UNUSED};
use std::collections::{BTreeMap, BTreeSet};

const SEEDS: u64 = 6_000;

fn all() -> impl Iterator<Item = Case> {
    (0..SEEDS).map(case)
}

/// The columns of the register that a look-up names.
fn columns(fields: &Fields, lookup: &LookupFields) -> usize {
    let register = fields.registers.get(lookup.register);
    register.map_or(6, |register| register.columns).min(6)
}

#[test]
fn each_seed_makes_fields_of_its_own() {
    let different: BTreeSet<String> = (0..1_000)
        .map(|seed| in_words(&case(seed).fields))
        .collect();
    assert!(different.len() > 995, "{}", different.len());
    assert_eq!(case(7), case(7));
    let depot = Fields::of(&second::examples::depot().request);
    let words = in_words(&depot);
    assert!(words.starts_with("registers=3 variables=4 lookups=3 register=2:1:bfffff,ffffff,"));
    assert!(words.contains(" given=1010000000000000 value=7,0,1,0,0,0,0,0,0,0,0,0,0,0,0,0 "));
    assert!(words.contains(" lookup=1,1,2,0,0,0,0;2,1,3,0,0,0,0;0,0,1,0,0,0,0;0,0,"));
}

/// Each kind gives the numbers that it is for, and nothing else.
#[test]
fn each_kind_and_each_number_occurs() {
    let mut by_kind: BTreeMap<&str, BTreeMap<u32, usize>> = BTreeMap::new();
    for Case { fields, kind, .. } in all() {
        let number = written(&fields).map_or_else(|fault| fault.number, |_| 0);
        *by_kind.entry(kind).or_default().entry(number).or_default() += 1;
    }
    assert_eq!(by_kind.len(), kinds().len());
    for (kind, numbers) in [
        ("requested", &[0][..]),
        ("plain", &[0]),
        ("longest", &[0]),
        ("beyond", &[0]),
        ("count", &[COUNT]),
        ("columns-or-rules", &[COUNT]),
        ("named", &[NOT_IN_SHEET]),
        ("given-zero", &[GIVEN_ZERO]),
        ("unused", &[UNUSED]),
        ("two-faults", &[COUNT, NOT_IN_SHEET, UNUSED, GIVEN_ZERO]),
        ("noise", &[0, COUNT, NOT_IN_SHEET, UNUSED, GIVEN_ZERO]),
    ] {
        let there: Vec<u32> = by_kind[kind].keys().copied().collect();
        assert_eq!(there, numbers, "{kind}");
        let times: usize = by_kind[kind].values().sum();
        assert!(times >= 60, "{kind} occurs {times} times");
    }
}

/// The numbers of fields that have a range, in the order of reading: the kind of field, the number, and
/// the range. Behind a number that is out of its range there are none.
fn ranged(fields: &Fields) -> Vec<(&'static str, usize, usize, usize)> {
    let mut all = vec![
        ("registers", fields.register_count, 1, 12),
        ("variables", fields.variable_count, 1, 16),
        ("look-ups", fields.lookup_count, 1, 12),
    ];
    let fits = |all: &[(&str, usize, usize, usize)]| {
        (all.iter()).all(|(_, number, low, high)| (low..=high).contains(&number))
    };
    if !fits(&all) {
        return all;
    }
    for register in &fields.registers[..fields.register_count] {
        all.push(("columns", register.columns, 1, 6));
        all.push(("rules", register.rule_count, 1, 8));
    }
    if !fits(&all) {
        return all;
    }
    for lookup in &fields.lookups[..fields.lookup_count] {
        all.push(("register", lookup.register, 0, fields.register_count - 1));
        for variable in &lookup.variables[..columns(fields, lookup)] {
            all.push(("variable", *variable, 0, fields.variable_count - 1));
        }
    }
    all
}

/// Each kind of number is out of its range in each way: next to it, too large for its bits, too large
/// for a byte, sound if cut to its bits or to a byte, and the largest of all.
#[test]
fn each_number_is_out_of_its_range_in_each_way() {
    let mut times: BTreeMap<(&str, &str), usize> = BTreeMap::new();
    for Case { fields, .. } in all() {
        let all = ranged(&fields);
        let out = all.iter().find(|(_, n, low, high)| n < low || n > high);
        let Some((name, number, low, high)) = out.copied() else {
            continue;
        };
        let bits = if name == "columns" { 3 } else { 4 };
        let less = usize::from(name == "variables");
        let sound = |number: usize| (low..=high).contains(&number);
        let cut = (number.wrapping_sub(less) % (1 << bits)) + less;
        for (way, there) in [
            ("0", number == 0),
            ("one too large", number == high + 1),
            (
                "too large for its bits",
                number.wrapping_sub(less) >= 1 << bits,
            ),
            ("too large for a byte", number > 255),
            ("sound in its bits", sound(cut)),
            ("sound in a byte", sound(number % 256)),
            ("sound in 32 bits", sound(number % (1 << 32))),
            ("the largest", number == usize::MAX),
        ] {
            *times.entry((name, way)).or_default() += usize::from(there);
        }
    }
    for ((name, way), times) in &times {
        // Register and variable 0 are in every sheet.
        let never = *way == "0" && ["register", "variable"].contains(name);
        assert!(never || *times >= 3, "{name}, {way}: {times} times");
    }
    assert_eq!(times.len(), 7 * 8);
}

/// Sound fields of every size, and buffers of every length from 0 to 3 bytes more than the sheet needs.
#[test]
fn sound_fields_reach_every_size() {
    let mut times: BTreeMap<(&str, usize), usize> = BTreeMap::new();
    let (mut each_length, mut padding) = (0, [0; 8]);
    for case in all() {
        let fields = &case.fields;
        let Ok(sheet) = written(fields) else {
            assert!(case.lengths.contains(&0));
            assert!(case.lengths.iter().any(|length| *length >= 193));
            continue;
        };
        let need = sheet.bytes().len();
        padding[8 * need - sheet.bits.len()] += 1;
        let (short, long) = (case.lengths.iter()).partition::<Vec<usize>, _>(|len| **len < need);
        assert!(!short.is_empty() && long.contains(&need));
        each_length += usize::from(case.lengths.iter().copied().eq(0..=need + 3));
        let mut reached = vec![
            ("registers", fields.register_count),
            ("variables", fields.variable_count),
            ("look-ups", fields.lookup_count),
            ("193 bytes", usize::from(need == 193)),
        ];
        for register in &fields.registers[..fields.register_count] {
            reached.push(("columns", register.columns));
            reached.push(("rules", register.rule_count));
        }
        let given = (0..fields.variable_count).filter(|variable| fields.given[*variable]);
        reached.push(("given", given.count()));
        for lookup in &fields.lookups[..fields.lookup_count] {
            reached.push(("register", lookup.register));
            let variables = &lookup.variables[..columns(fields, lookup)];
            reached.extend(variables.iter().map(|variable| ("variable", *variable)));
        }
        for one in reached {
            *times.entry(one).or_default() += 1;
        }
    }
    for (what, low, high) in [
        ("registers", 1, 12),
        ("variables", 1, 16),
        ("look-ups", 1, 12),
        ("columns", 1, 6),
        ("rules", 1, 8),
        ("given", 0, 16),
        ("register", 0, 11),
        ("variable", 0, 15),
        ("193 bytes", 0, 1),
    ] {
        for size in low..=high {
            let reached = times.get(&(what, size)).copied().unwrap_or(0);
            assert!(reached >= 20, "{what} {size}: {reached} times");
        }
    }
    assert!(each_length >= 100, "{each_length}");
    assert!(padding.iter().all(|times| *times >= 100), "{padding:?}");
}

// ---------------------------------------------------------------- wrong writers

/// A writer, right or wrong.
type Writer = fn(&Fields, &mut [u8]) -> Outcome;

/// What a refusal gives.
fn refused(number: u32, detail: usize) -> Outcome {
    Outcome {
        number,
        detail: detail as u32,
        bytes: 0,
    }
}

/// The fields with a change, written as they should be.
fn changed(fields: &Fields, buffer: &mut [u8], change: impl Fn(&mut Fields)) -> Outcome {
    let mut fields = fields.clone();
    change(&mut fields);
    write(&fields, buffer)
}

/// Each number of the fields with a change.
fn each_number(fields: &mut Fields, change: impl Fn(&mut usize)) {
    change(&mut fields.register_count);
    change(&mut fields.variable_count);
    change(&mut fields.lookup_count);
    for register in &mut fields.registers {
        change(&mut register.columns);
        change(&mut register.rule_count);
    }
    for lookup in &mut fields.lookups {
        change(&mut lookup.register);
        lookup.variables.iter_mut().for_each(&change);
    }
}

/// The variables that are neither given nor in one of so many columns of so many look-ups.
fn unused(fields: &Fields, lookups: usize, all_columns: bool) -> Vec<usize> {
    let named = fields.lookups[..lookups].iter().flat_map(|lookup| {
        let columns = if all_columns {
            6
        } else {
            columns(fields, lookup)
        };
        &lookup.variables[..columns]
    });
    let named: BTreeSet<usize> = named.copied().collect();
    (0..fields.variable_count)
        .filter(|variable| !fields.given[*variable] && !named.contains(variable))
        .collect()
}

/// 10 for these variables, or nothing wrong; and what is right where it is not 10.
fn told_unused(right: Outcome, unused: &[usize]) -> Outcome {
    match (right.number, unused) {
        (UNUSED, []) => refused(SHORT_BUFFER, 0),
        (UNUSED, [lowest, ..]) => refused(UNUSED, *lowest),
        _ => right,
    }
}

/// Wrong ideas, each as a writer that is right but for it.
const WRONG: &[(&str, Writer)] = &[
    ("a rule's marks last column first", |fields, buffer| {
        changed(fields, buffer, |fields| {
            for register in &mut fields.registers {
                let columns = register.columns.min(6);
                (register.rules.iter_mut()).for_each(|rule| rule[..columns].reverse());
            }
        })
    }),
    ("all six marks of a rule", |fields, buffer| {
        changed(fields, buffer, |fields| {
            for register in &mut fields.registers {
                let columns = register.columns.min(6);
                (register.rules.iter_mut()).for_each(|rule| rule.rotate_right(6 - columns));
            }
        })
    }),
    ("V as it is, not less one", |fields, buffer| {
        let outcome = write(fields, buffer);
        if outcome.number == 0 {
            let head = u16::from_be_bytes([buffer[0], buffer[1]]);
            let head = head & !0x01e0 | (fields.variable_count as u16 & 15) << 5;
            buffer[..2].copy_from_slice(&head.to_be_bytes());
        }
        outcome
    }),
    ("bits put over old content", |fields, buffer| {
        let before = buffer.to_vec();
        let outcome = write(fields, buffer);
        for (byte, old) in buffer.iter_mut().zip(before) {
            *byte |= old;
        }
        outcome
    }),
    ("the padding as it was", |fields, buffer| {
        let before = buffer.to_vec();
        let outcome = write(fields, buffer);
        if outcome.number == 0 {
            let padding = 8 * outcome.bytes - written(fields).unwrap().bits.len();
            buffer[outcome.bytes - 1] |= before[outcome.bytes - 1] & ((1 << padding) - 1) as u8;
        }
        outcome
    }),
    ("zeros behind the sheet", |fields, buffer| {
        let outcome = write(fields, buffer);
        if outcome.number == 0 {
            buffer[outcome.bytes..].fill(0);
        }
        outcome
    }),
    ("the first bytes before 13 is found", |fields, buffer| {
        let outcome = write(fields, buffer);
        if outcome.number == SHORT_BUFFER {
            let sheet = written(fields).unwrap().bytes();
            buffer.copy_from_slice(&sheet[..buffer.len()]);
        }
        outcome
    }),
    ("the fields before the broken one", |fields, buffer| {
        let outcome = write(fields, buffer);
        if !buffer.is_empty() && ![0, SHORT_BUFFER].contains(&outcome.number) {
            buffer[0] = 0x20 | (fields.register_count as u8 & 15) << 1;
        }
        outcome
    }),
    ("13 before the fields", |fields, buffer| {
        match buffer.len() {
            0..=3 => refused(SHORT_BUFFER, 4),
            _ => write(fields, buffer),
        }
    }),
    ("13 at just the length", |fields, buffer| {
        let outcome = write(fields, &mut buffer.to_vec());
        match outcome.bytes == buffer.len() {
            true if outcome.number == 0 => refused(SHORT_BUFFER, outcome.bytes),
            _ => write(fields, buffer),
        }
    }),
    ("13 with the bytes that are missing", |fields, buffer| {
        let mut outcome = write(fields, buffer);
        if outcome.number == SHORT_BUFFER {
            outcome.detail -= buffer.len() as u32;
        }
        outcome
    }),
    ("numbers cut to 4 bits", |fields, buffer| {
        let cut = |number: &mut usize| *number %= 16;
        changed(fields, buffer, |fields| each_number(fields, cut))
    }),
    ("numbers cut to a byte", |fields, buffer| {
        let cut = |number: &mut usize| *number %= 256;
        changed(fields, buffer, |fields| each_number(fields, cut))
    }),
    ("numbers cut to 32 bits", |fields, buffer| {
        let cut = |number: &mut usize| *number %= 1 << 32;
        changed(fields, buffer, |fields| each_number(fields, cut))
    }),
    ("V less one, cut to 4 bits", |fields, buffer| {
        changed(fields, buffer, |fields| {
            fields.variable_count = fields.variable_count.wrapping_sub(1) % 16 + 1;
        })
    }),
    ("13 registers", |fields, buffer| {
        match fields.register_count {
            13 => changed(fields, buffer, |fields| fields.register_count = 12),
            _ => write(fields, buffer),
        }
    }),
    ("each of the 12 registers tested", |fields, buffer| {
        let right = write(fields, buffer);
        let sound = |columns: usize| (1..=6).contains(&columns);
        match (fields.registers.iter()).all(|register| sound(register.columns)) {
            false if right.number == 0 => refused(COUNT, 15),
            _ => right,
        }
    }),
    ("each of the 12 look-ups tested", |fields, buffer| {
        let right = write(fields, buffer);
        match (fields.lookups.iter()).all(|lookup| lookup.register < fields.register_count) {
            false if right.number == 0 => refused(NOT_IN_SHEET, 15),
            _ => right,
        }
    }),
    ("each of the 6 variables tested", |fields, buffer| {
        let right = write(fields, buffer);
        if right.number != 0 {
            return right;
        }
        let lookups = &fields.lookups[..fields.lookup_count];
        let mut variables = lookups.iter().flat_map(|lookup| lookup.variables);
        match variables.all(|variable| variable < fields.variable_count) {
            true => right,
            false => refused(NOT_IN_SHEET, 15),
        }
    }),
    ("each of the 16 marks is a given one", |fields, buffer| {
        let right = write(fields, buffer);
        match (fields.variable_count..16).any(|variable| fields.given[variable]) {
            true if right.number == 0 => refused(SHORT_BUFFER, right.bytes + 4),
            _ => right,
        }
    }),
    (
        "0 told of a variable that is not given",
        |fields, buffer| {
            let right = write(fields, buffer);
            match right.number {
                0 if fields.values[..fields.variable_count].contains(&0) => refused(GIVEN_ZERO, 0),
                _ => right,
            }
        },
    ),
    ("a value of 0 written", |fields, buffer| {
        changed(fields, buffer, |fields| {
            (fields.values.iter_mut()).for_each(|value| *value = (*value).max(1));
        })
    }),
    ("in use beyond the columns", |fields, buffer| {
        let right = write(fields, buffer);
        match right.number {
            UNUSED => told_unused(right, &unused(fields, fields.lookup_count, true)),
            _ => right,
        }
    }),
    ("in use by look-ups beyond the last", |fields, buffer| {
        let right = write(fields, buffer);
        match right.number {
            UNUSED => told_unused(right, &unused(fields, 12, false)),
            _ => right,
        }
    }),
    ("the highest unused variable", |fields, buffer| {
        let right = write(fields, buffer);
        match right.number {
            UNUSED => {
                let highest = unused(fields, fields.lookup_count, false).pop();
                refused(UNUSED, highest.unwrap())
            }
            _ => right,
        }
    }),
    ("10 before 9", |fields, buffer| {
        let right = write(fields, buffer);
        if right.number != NOT_IN_SHEET {
            return right;
        }
        match unused(fields, fields.lookup_count, false)[..] {
            [lowest, ..] => refused(UNUSED, lowest),
            [] => right,
        }
    }),
    ("the lowest number: 9 and 10 before 12", |fields, buffer| {
        let right = write(fields, buffer);
        let mut other = fields.clone();
        (other.values.iter_mut()).for_each(|value| *value = (*value).max(1));
        match (right.number, written(&other)) {
            (GIVEN_ZERO, Err(Fault { number, detail })) => refused(number, detail as usize),
            _ => right,
        }
    }),
    ("12 before a later 8", |fields, buffer| {
        let right = write(fields, buffer);
        let variables = fields.variable_count.min(16);
        let zero = |variable| fields.given[variable] && fields.values[variable] == 0;
        match (0..variables).find(|variable| zero(*variable)) {
            Some(_) if right.number == COUNT => refused(GIVEN_ZERO, 0),
            _ => right,
        }
    }),
    ("look-ups counted before variables", |fields, buffer| {
        let right = write(fields, buffer);
        match (right.number, right.detail, fields.lookup_count) {
            (COUNT, 7, 1..=12) => right,
            (COUNT, 7, _) => refused(COUNT, 11),
            _ => right,
        }
    }),
    ("the values of all variables", |fields, buffer| {
        let right = write(fields, buffer);
        match right.number {
            0 if fields.given[..fields.variable_count].contains(&false) => {
                refused(SHORT_BUFFER, right.bytes + 4)
            }
            _ => right,
        }
    }),
];

/// Whether a writer gives something else than the right one, in some buffer of the case.
fn told_apart(case: &Case, seed: u64, wrong: Writer) -> bool {
    case.lengths.iter().any(|length| {
        let noise = |place: usize| (place as u64 * 89 + seed * 37) as u8;
        let before: Vec<u8> = (0..*length).map(noise).collect();
        let (mut one, mut other) = (before.clone(), before);
        let right = write(&case.fields, &mut one);
        wrong(&case.fields, &mut other) != right || other != one
    })
}

/// Each wrong writer is told from the right one by several of the cases.
#[test]
fn wrong_writers_are_told_apart() {
    let cases: Vec<Case> = (0..3_000).map(case).collect();
    for (idea, wrong) in WRONG {
        let apart = |(case, seed): &(&Case, u64)| told_apart(case, *seed, *wrong);
        let times = cases.iter().zip(0..).filter(apart).count();
        assert!(times >= 5, "{idea}: {times} times");
    }
    let right = |(case, seed): (&Case, u64)| told_apart(case, seed, write);
    assert!(!cases.iter().zip(0..).any(right));
}
