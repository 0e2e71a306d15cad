//! A sheet written from what it says: the same bytes, each refusal with its place, the lent buffer, and
//! the builder.

use ebbcandle::linked::{self, Detail, NO_ROOM, SHEET_BYTES, SHEET_PLACES};
use ebbcandle::*;
use std::path::Path;

/// The sheet of each folder of examples/.
fn examples() -> Vec<Vec<u8>> {
    let top = Path::new(env!("CARGO_MANIFEST_DIR")).join("../examples");
    let folders = std::fs::read_dir(top).unwrap();
    folders
        .map(|folder| folder.unwrap().path())
        .filter(|folder| folder.is_dir())
        .map(|folder| std::fs::read(folder.join("sheet.bin")).unwrap())
        .collect()
}

/// The sheet of one folder.
fn example(name: &str) -> Vec<u8> {
    let top = Path::new(env!("CARGO_MANIFEST_DIR")).join("../examples");
    std::fs::read(top.join(name).join("sheet.bin")).unwrap()
}

/// What the depot case's sheet says.
fn depot() -> Sheet {
    read_sheet(&example("depot")).unwrap()
}

/// The depot case's request, put together.
fn depot_built() -> Result<SheetBuilder, NoRule> {
    let request = SheetBuilder::new()
        .register(&["bf"])?
        .register(&["bf"])?
        .register(&["bf"])?
        .given(0, 7)
        .given(2, 1)
        .look_up(1, &[1, 2])
        .look_up(2, &[1, 3])
        .look_up(0, &[0, 1]);
    Ok(request)
}

/// The places of a sheet that is sound.
fn read(sheet: &[u8]) -> [usize; SHEET_PLACES] {
    let mut places = [0; SHEET_PLACES];
    assert_eq!(linked::read_sheet(sheet, &mut places), 0, "{sheet:02X?}");
    places
}

fn refused(number: u32, detail: Detail) -> Refusal {
    Refusal { number, detail }
}

/// A sheet that is sound is written as the same bytes, and any other is not read.
fn same_bytes(sheet: &[u8]) -> usize {
    let Ok(said) = read_sheet(sheet) else {
        return 0;
    };
    assert_eq!(said.to_bytes().as_deref(), Ok(sheet), "{sheet:02X?}");
    1
}

#[test]
fn what_was_read_is_written_as_the_same_bytes() {
    let sound: usize = examples().iter().map(|sheet| same_bytes(sheet)).sum();
    assert!(sound > 40, "{sound}");
    let mut changed = 0;
    for name in ["depot", "longest-sheet", "full-byte-sheet"] {
        let mut sheet = example(name);
        for bit in 0..8 * sheet.len() {
            sheet[bit / 8] ^= 0x80 >> (bit % 8);
            changed += same_bytes(&sheet);
            sheet[bit / 8] ^= 0x80 >> (bit % 8);
        }
    }
    assert!(changed > 1_000, "{changed}");
}

#[test]
fn the_longest_sheet_fills_the_longest_buffer() {
    let sheet = example("longest-sheet");
    let mut buffer = [0; SHEET_BYTES];
    let said = read_sheet(&sheet).unwrap();
    assert_eq!(said.write_into(&mut buffer), Ok(SHEET_BYTES));
    assert_eq!(buffer[..], sheet[..]);
}

/// Numbers that look random, the same in each run.
struct Dice(u64);

impl Dice {
    fn below(&mut self, limit: usize) -> usize {
        self.0 = self.0.wrapping_mul(6_364_136_223_846_793_005);
        self.0 = self.0.wrapping_add(1_442_695_040_888_963_407);
        (self.0 >> 33) as usize % limit
    }

    /// So many, at least one.
    fn upto(&mut self, most: usize) -> usize {
        1 + self.below(most)
    }

    fn register(&mut self) -> Register {
        let columns = self.upto(6);
        let mut rule = |_| (0..columns).map(|_| self.below(2) == 1).collect();
        let rules = (0..8).map(&mut rule).collect::<Vec<_>>();
        let rules = rules[..self.upto(8)].to_vec();
        Register { columns, rules }
    }

    /// A sheet with numbers in their ranges, of which a variable may be unused.
    fn sheet(&mut self) -> Sheet {
        let registers: Vec<Register> = (0..self.upto(12)).map(|_| self.register()).collect();
        let variables = self.upto(16);
        let lookups = (0..self.upto(12)).map(|_| {
            let register = self.below(registers.len());
            let columns = 0..registers[register].columns;
            LookUp {
                register,
                variables: columns.map(|_| self.below(variables)).collect(),
            }
        });
        let lookups = lookups.collect();
        let given = (0..variables)
            .map(|_| (self.below(2) == 1).then(|| self.upto(u32::MAX as usize) as u32))
            .collect();
        Sheet {
            registers,
            given,
            lookups,
        }
    }
}

/// The lowest variable that is neither given nor in a look-up.
fn unused(sheet: &Sheet) -> Option<usize> {
    let asked = |variable| {
        let mut lookups = sheet.lookups.iter();
        lookups.any(|lookup| lookup.variables.contains(&variable))
    };
    (0..sheet.variables()).find(|variable| sheet.given[*variable].is_none() && !asked(*variable))
}

#[test]
fn what_was_written_reads_back() {
    let mut dice = Dice(7);
    let (mut sound, mut lacking) = (0, 0);
    for _ in 0..3_000 {
        let sheet = dice.sheet();
        match unused(&sheet) {
            Some(variable) => {
                assert_eq!(sheet.to_bytes(), Err(refused(10, variable)), "{sheet:?}");
                lacking += 1;
            }
            None => {
                let bytes = sheet.to_bytes().unwrap();
                assert_eq!(read_sheet(&bytes), Ok(sheet));
                sound += 1;
            }
        }
    }
    assert!(sound > 1_000 && lacking > 500, "{sound} {lacking}");
}

/// The depot case's sheet with something changed is refused so, and no byte of the buffer changes.
fn refuses(number: u32, detail: Detail, change: impl Fn(&mut Sheet)) {
    let mut sheet = depot();
    change(&mut sheet);
    let refusal = refused(number, detail);
    assert_eq!(sheet.to_bytes(), Err(refusal), "{sheet:?}");
    // a field that is wrong comes before a buffer that is short
    for length in [0, 18, 19, SHEET_BYTES] {
        let mut buffer = vec![0xA5; length];
        assert_eq!(sheet.write_into(&mut buffer), Err(refusal), "{sheet:?}");
        assert!(buffer.iter().all(|byte| *byte == 0xA5));
    }
}

#[test]
fn a_count_out_of_its_range() {
    refuses(8, 3, |sheet| sheet.registers.clear());
    refuses(8, 3, |sheet| {
        sheet.registers.resize(13, depot().registers[0].clone());
    });
    refuses(8, 7, |sheet| sheet.given.clear());
    refuses(8, 7, |sheet| sheet.given.resize(17, Some(1)));
    refuses(8, 7, |sheet| sheet.given.resize(1_000, Some(1)));
    refuses(8, 11, |sheet| sheet.lookups.clear());
    refuses(8, 11, |sheet| {
        sheet.lookups.resize(13, depot().lookups[0].clone());
    });
    let columns = |register: &mut Register, columns| {
        register.columns = columns;
        register.rules = vec![vec![true; columns]];
    };
    refuses(8, 15, |sheet| columns(&mut sheet.registers[0], 0));
    refuses(8, 24, |sheet| columns(&mut sheet.registers[1], 7));
    refuses(8, 33, |sheet| columns(&mut sheet.registers[2], 300));
    refuses(8, 18, |sheet| sheet.registers[0].rules.clear());
    refuses(8, 36, |sheet| {
        sheet.registers[2].rules.resize(9, vec![false, true]);
    });
    refuses(8, 27, |sheet| {
        sheet.registers[1].rules.resize(257, vec![false, true]);
    });
}

#[test]
fn a_number_that_is_not_in_the_sheet() {
    for register in [3, 16, 255, 256, usize::MAX] {
        refuses(9, 122, |sheet| sheet.lookups[1].register = register);
    }
    for variable in [4, 16, 255, 256, 257, usize::MAX] {
        refuses(9, 114, |sheet| sheet.lookups[0].variables[0] = variable);
        refuses(9, 142, |sheet| sheet.lookups[2].variables[1] = variable);
    }
}

#[test]
fn a_given_0_and_a_variable_that_is_unused() {
    refuses(12, 46, |sheet| sheet.given[0] = Some(0));
    refuses(12, 78, |sheet| sheet.given[2] = Some(0));
    refuses(12, 110, |sheet| sheet.given[3] = Some(0));
    refuses(10, 4, |sheet| sheet.given.resize(16, None));
    refuses(10, 3, |sheet| sheet.lookups[1].variables[1] = 1);
}

/// The first field in reading order is told.
#[test]
fn the_first_of_two_faults() {
    refuses(8, 11, |sheet| {
        sheet.lookups.clear();
        sheet.registers[0].rules.clear();
    });
    refuses(12, 46, |sheet| {
        sheet.given = vec![Some(0), None, Some(0), None];
        sheet.lookups[0].register = 3;
    });
    refuses(9, 118, |sheet| {
        sheet.lookups[0].variables[1] = 4;
        sheet.lookups[2].register = 5;
    });
}

/// What no place can say is refused at the field beside it.
#[test]
fn marks_and_variables_for_other_columns() {
    for marks in [0, 1, 3, 100] {
        refuses(8, 24, |sheet| {
            sheet.registers[1].rules[0] = vec![true; marks]
        });
    }
    refuses(8, 15, |sheet| sheet.registers[0].rules.push(vec![true]));
    for variables in [0, 1, 3, 7] {
        refuses(9, 134, |sheet| {
            sheet.lookups[2].variables = vec![0; variables]
        });
    }
}

#[test]
fn a_buffer_of_each_length() {
    let sheet = example("depot");
    for length in 0..=sheet.len() + 3 {
        let mut buffer = vec![0xA5; length];
        let given = depot().write_into(&mut buffer);
        let (start, behind) = buffer.split_at(length.min(sheet.len()));
        assert!(behind.iter().all(|byte| *byte == 0xA5));
        if length < sheet.len() {
            assert_eq!(given, Err(refused(13, 19)));
            assert!(start.iter().all(|byte| *byte == 0xA5));
        } else {
            assert_eq!(given, Ok(19));
            assert_eq!(start, sheet);
        }
    }
}

/// The raw operation with some places changed: what it gives, and the bytes that it wrote.
fn written(sheet: &[u8], changes: &[(usize, usize)]) -> ((u32, Detail, usize), Vec<u8>) {
    let mut places = read(sheet);
    for (place, number) in changes {
        places[*place] = *number;
    }
    let mut buffer = vec![0xA5; SHEET_BYTES];
    let given = linked::write_sheet(&places, &mut buffer);
    let behind = buffer.split_off(given.2.min(SHEET_BYTES));
    assert!(behind.iter().all(|byte| *byte == 0xA5), "{changes:?}");
    (given, buffer)
}

#[test]
fn places_that_a_sheet_has_no_field_for() {
    let sheet = example("depot");
    let whole = ((0, 0, 19), sheet.clone());
    assert_eq!(written(&sheet, &[]), whole);
    for changes in [
        // the number and the detail of the reading
        &[(0, 9), (1, usize::MAX)][..],
        // given variables beyond the fourth, and words of those that are not given
        &[(4, 0xFFF5)],
        &[(4, usize::MAX - 10)],
        &[(7, 1), (9, u32::MAX as usize), (21, 1)],
        // bits of a rule beyond its two columns, and rules beyond the first
        &[(24, 0xFE), (35, usize::MAX)],
        &[(34, 0xFF02)],
        // the fourth register and the fourth look-up
        &[(52, 6), (53, 8), (54, 63)],
        &[(166, 2), (167, 6), (168, 15)],
        // a look-up's own columns, and its variables beyond them
        &[(143, 0), (151, 6), (159, usize::MAX)],
        &[(146, 15), (157, usize::MAX)],
    ] {
        assert_eq!(written(&sheet, changes), whole, "{changes:?}");
    }
}

/// A number that no byte holds is out of range, and is not taken for its lowest bits.
#[test]
fn numbers_over_255() {
    let sheet = example("depot");
    for (place, number, detail) in [
        (2, 8, 3),
        (3, 8, 7),
        (5, 8, 11),
        (22, 8, 15),
        (23, 8, 18),
        (32, 8, 24),
        (142, 9, 110),
        (144, 9, 114),
        (160, 9, 138),
    ] {
        let own = read(&sheet)[place];
        for over in [256, 1 << 16, 1 << 32] {
            let given = written(&sheet, &[(place, own + over)]).0;
            assert_eq!(given, (number, detail, 0), "{place} {over}");
        }
    }
}

#[test]
fn places_that_are_not_taken() {
    let places = read(&example("depot"));
    let untouched = (NO_ROOM, usize::MAX, usize::MAX);
    let mut buffer = [0xA5; SHEET_BYTES];
    for length in [0, 1, SHEET_PLACES - 1] {
        let given = linked::write_sheet(&places[..length], &mut buffer);
        assert_eq!(given, untouched);
    }
    // a word of more than 32 bits, of a variable that is given or not
    for place in 6..22 {
        let mut places = places;
        places[place] = 1 << 32;
        assert_eq!(linked::write_sheet(&places, &mut buffer), untouched);
    }
    assert!(buffer.iter().all(|byte| *byte == 0xA5));
    // places behind are not looked at
    let longer = [&places[..], &[usize::MAX; 3]].concat();
    assert_eq!(linked::write_sheet(&longer, &mut buffer), (0, 0, 19));
}

#[test]
fn the_depot_case_built() {
    let built = depot_built().unwrap();
    assert_eq!(built.sheet(), depot());
    assert_eq!(built.to_bytes(), Ok(example("depot")));
}

#[test]
fn rules_as_letters() {
    let built = SheetBuilder::new().register(&["bff", "fbb", "fff", "bbb"]);
    let register = &built.unwrap().sheet().registers[0];
    let (b, f) = (true, false);
    assert_eq!(register.columns, 3);
    assert_eq!(
        register.rules,
        [[b, f, f], [f, b, b], [f, f, f], [b, b, b]].map(Vec::from)
    );
}

#[test]
fn rules_that_are_none() {
    for (rules, rule) in [
        (&["bx"][..], 0),
        (&["bf", "Bf"], 1),
        (&["b", "é"], 1),
        (&["bf", "f", "bff"], 1),
        (&["bf", "ff", ""], 2),
    ] {
        let built = SheetBuilder::new().register(&["b"]).unwrap();
        let no_rule = NoRule { register: 1, rule };
        assert_eq!(built.register(rules), Err(no_rule), "{rules:?}");
    }
    let no_rule = NoRule {
        register: 4,
        rule: 2,
    };
    assert_eq!(
        no_rule.to_string(),
        "rule 2 of register 4 is not a letter b or f for each column"
    );
}

/// What is built is refused as a sheet is.
#[test]
fn a_builder_that_is_refused() {
    let builds = |number, detail, built: SheetBuilder| {
        assert_eq!(built.to_bytes(), Err(refused(number, detail)), "{built:?}");
    };
    let depot = || depot_built().unwrap();
    builds(8, 3, SheetBuilder::new());
    builds(8, 7, SheetBuilder::new().register(&["b"]).unwrap());
    builds(
        8,
        11,
        SheetBuilder::new().register(&["b"]).unwrap().given(0, 1),
    );
    let empty = SheetBuilder::new().given(0, 1).look_up(0, &[]);
    builds(8, 15, empty.clone().register(&[]).unwrap());
    builds(8, 15, empty.clone().register(&[""]).unwrap());
    builds(8, 15, empty.clone().register(&["bbbbbbb"]).unwrap());
    builds(8, 18, empty.register(&["f"; 9]).unwrap());
    let registers = (3..13).try_fold(depot(), |built, _| built.register(&["b"]));
    builds(8, 3, registers.unwrap());
    builds(
        8,
        11,
        (3..13).fold(depot(), |built, _| built.look_up(1, &[0, 1])),
    );
    for variable in [16, 17, 1_000_000, usize::MAX] {
        builds(8, 7, depot().given(variable, 5));
        builds(8, 7, depot().look_up(0, &[variable, 0]));
    }
    builds(9, 146, depot().look_up(3, &[0, 1]));
    builds(9, 146, depot().look_up(0, &[0]));
    builds(9, 146, depot().look_up(0, &[0, 1, 2]));
    builds(10, 4, depot().given(5, 9));
    builds(12, 78, depot().given(2, 0));
}

/// The later of two values is the variable's.
#[test]
fn a_variable_that_is_given_twice() {
    let built = depot_built().unwrap().given(0, 9).given(0, 8);
    assert_eq!(built.sheet().given[0], Some(8));
    let built = built.given(0, 7);
    assert_eq!(built.to_bytes(), Ok(example("depot")));
}
