//! The fields of a sheet, held to the library's reading, and the sentence for each fault of a sheet.

mod examples;

use ebbcandle::fields::{fields, Field, Name};
use ebbcandle::*;
use examples::examples;
use std::path::Path;

/// What is said of a refusal that the files don't have.
const NOT_THEIRS: &str = "The files are not those that were refused.";

/// The contents of a file of examples/.
fn example(name: &str) -> Vec<u8> {
    let top = Path::new(env!("CARGO_MANIFEST_DIR")).join("../examples");
    std::fs::read(top.join(name)).unwrap()
}

/// A sheet with one bit changed.
fn changed(sheet: &[u8], bit: usize) -> Vec<u8> {
    let mut sheet = sheet.to_vec();
    sheet[bit / 8] ^= 0x80 >> (bit % 8);
    sheet
}

/// Numbers that look random, the same in each run.
fn dice() -> impl FnMut() -> u64 {
    let mut state = 7_u64;
    move || {
        state = state.wrapping_mul(6_364_136_223_846_793_005);
        state = state.wrapping_add(1_442_695_040_888_963_407);
        state >> 33
    }
}

/// Bytes that look random, most of them behind the start of a sheet that has version 1.
fn made_up() -> Vec<Vec<u8>> {
    let mut dice = dice();
    let mut sheet = |_| {
        let length = dice() % 200;
        let mut sheet: Vec<u8> = (0..length).map(|_| dice() as u8).collect();
        if let (Some(first), 1..) = (sheet.first_mut(), dice() % 8) {
            *first = 0x20 | *first & 0x1F;
        }
        sheet
    };
    (0..5_000).map(&mut sheet).collect()
}

#[test]
fn the_fields_of_the_depot_sheet() {
    let sheet = example("depot/sheet.bin");
    let met: Vec<_> = fields(&sheet)
        .iter()
        .map(|field| (field.name, field.place, field.bits, field.value.unwrap()))
        .collect();
    let mut wanted = vec![
        (Name::Version, 0, 3, 1),
        (Name::Registers, 3, 4, 3),
        (Name::Variables, 7, 4, 3),
        (Name::LookUps, 11, 4, 3),
    ];
    for (register, at) in [15, 24, 33].into_iter().enumerate() {
        wanted.push((Name::Columns { register }, at, 3, 2));
        wanted.push((Name::Rules { register }, at + 3, 4, 1));
        wanted.push((Name::Rule { register, rule: 0 }, at + 7, 2, 2));
    }
    wanted.push((Name::Given, 42, 4, 0b1010));
    wanted.push((Name::Value { variable: 0 }, 46, 32, 7));
    wanted.push((Name::Value { variable: 2 }, 78, 32, 1));
    for (lookup, numbers) in [[1, 1, 2], [2, 1, 3], [0, 0, 1]].into_iter().enumerate() {
        let at = 110 + 12 * lookup;
        wanted.push((Name::Register { lookup }, at, 4, numbers[0]));
        for column in 0..2 {
            let name = Name::Variable { lookup, column };
            wanted.push((name, at + 4 + 4 * column, 4, numbers[1 + column]));
        }
    }
    wanted.push((Name::Padding, 146, 6, 0));
    assert_eq!(met, wanted);
}

/// What the fields of a sound sheet say.
fn said(sheet: &[u8]) -> Sheet {
    let mut said = Sheet {
        registers: Vec::new(),
        given: Vec::new(),
        lookups: Vec::new(),
    };
    for field in fields(sheet) {
        let word = field.sound().unwrap();
        let value = word as usize;
        match field.name {
            Name::Variables => said.given = vec![None; value + 1],
            Name::Columns { .. } => said.registers.push(Register {
                columns: value,
                rules: Vec::new(),
            }),
            Name::Rule { register, .. } => {
                let marks = (0..field.bits).rev().map(|bit| word >> bit & 1 == 1);
                said.registers[register].rules.push(marks.collect());
            }
            Name::Value { variable } => said.given[variable] = Some(word),
            Name::Register { .. } => said.lookups.push(LookUp {
                register: value,
                variables: Vec::new(),
            }),
            Name::Variable { lookup, .. } => said.lookups[lookup].variables.push(value),
            _ => {}
        }
    }
    said
}

/// The number of the refusal for a field that is not sound.
fn number_of(field: &Field) -> u32 {
    match (field.name, field.value) {
        (Name::Padding | Name::Extra, _) => 11,
        (_, None) => 2,
        (Name::Version, _) => 7,
        (Name::Registers | Name::LookUps, _) => 8,
        (Name::Columns { .. } | Name::Rules { .. }, _) => 8,
        (Name::Register { .. } | Name::Variable { .. }, _) => 9,
        (Name::Value { .. }, _) => 12,
        (name, _) => panic!("{name} may have any value"),
    }
}

/// Holds the fields of a sheet to what the library reads: they stand side by side, the library's
/// fault is at the last of them, and all others are sound.
fn hold(sheet: &[u8]) {
    let fields = fields(sheet);
    let mut end = 0;
    for field in &fields {
        assert_eq!(field.place, end, "{sheet:02X?}");
        end += field.bits;
    }
    let (last, others) = fields.split_last().unwrap();
    assert!(others.iter().all(|field| field.sound().is_some()));
    match read_sheet(sheet) {
        Ok(read) => {
            assert_eq!((end, said(sheet)), (8 * sheet.len(), read), "{sheet:02X?}");
        }
        Err(Refusal { number: 10, detail }) => {
            let ends = |field: &Field| matches!(field.name, Name::Padding | Name::Extra);
            assert!(last.sound().is_some() || ends(last), "{sheet:02X?}");
            let sentence = format!("Variable {detail} is neither given nor in a look-up.");
            assert_eq!(explained(sheet), sentence);
        }
        Err(refusal) => {
            assert_eq!(last.sound(), None, "{sheet:02X?}");
            let Refusal { number, detail } = refusal;
            assert_eq!((number, detail), (number_of(last), last.place));
            assert_ne!(explained(sheet), NOT_THEIRS, "{sheet:02X?}");
        }
    }
}

/// The sentence for a sheet that is refused.
fn explained(sheet: &[u8]) -> String {
    explain::refusal(read_sheet(sheet).unwrap_err(), sheet, &[])
}

#[test]
fn fields_of_each_example() {
    let examples = examples();
    assert!(examples.len() > 50, "{}", examples.len());
    examples.iter().for_each(|(sheet, _)| hold(sheet));
}

#[test]
fn fields_of_each_start_of_a_sheet() {
    for name in ["depot", "longest-sheet-byte-more", "cheaper-later-rule"] {
        let sheet = example(&format!("{name}/sheet.bin"));
        (0..sheet.len()).for_each(|length| hold(&sheet[..length]));
    }
}

#[test]
fn fields_with_each_bit_changed() {
    for name in ["depot", "longest-sheet", "full-byte-sheet"] {
        let sheet = example(&format!("{name}/sheet.bin"));
        for bit in 0..8 * sheet.len() {
            hold(&changed(&sheet, bit));
            // and where more is wrong behind it
            hold(&[changed(&sheet, bit), vec![0xFF; 2]].concat());
        }
    }
}

#[test]
fn fields_of_made_up_bytes() {
    made_up().iter().for_each(|sheet| hold(sheet));
}

/// The start of a sheet ends in this field, at this bit.
#[test]
fn a_sheet_that_ends_early() {
    for (name, length, field, place) in [
        ("depot", 0, "the version", 0),
        ("depot", 1, "the number of variables", 7),
        ("depot", 2, "the number of columns of register 0", 15),
        ("depot", 3, "the number of columns of register 1", 24),
        ("depot", 5, "rule 0 of register 2", 40),
        ("depot", 6, "the given value of variable 0", 46),
        ("depot", 13, "the given value of variable 2", 78),
        ("depot", 14, "the register of look-up 0", 110),
        ("depot", 16, "column 0 of look-up 1", 126),
        ("depot", 18, "column 1 of look-up 2", 142),
        ("longest-sheet", 7, "rule 5 of register 0", 52),
        (
            "longest-sheet",
            16,
            "the number of rules of register 2",
            128,
        ),
        (
            "longest-sheet",
            85,
            "the bits that say which variables are given",
            675,
        ),
        ("longest-sheet", 150, "the given value of variable 15", 1171),
        ("longest-sheet", 192, "column 5 of look-up 11", 1535),
    ] {
        let sheet = example(&format!("{name}/sheet.bin"));
        let sentence = format!(
            "The sheet ends early, in {field}: the field that starts at bit {place} is not whole."
        );
        assert_eq!(explained(&sheet[..length]), sentence, "{name} {length}");
    }
}

/// Holds each sheet to its sentence.
fn hold_words<const COUNT: usize>(cases: [(Vec<u8>, &str); COUNT]) {
    for (sheet, sentence) in cases {
        assert_eq!(explained(&sheet), sentence, "{sheet:02X?}");
    }
}

/// The depot sheet with one bit changed, up to the end of that byte.
fn cut_behind(bit: usize) -> Vec<u8> {
    changed(&example("depot/sheet.bin"), bit)[..bit / 8 + 1].to_vec()
}

/// A sheet of one register, one variable and one look-up, which fill four bytes.
const SMALL: [u8; 4] = [0x22, 0x02, 0x44, 0x00];

#[test]
fn a_number_out_of_its_range() {
    let number = |what: &str, at: usize, most: usize| {
        format!("The number of {what}, at bit {at}, is not from 1 to {most}.")
    };
    hold_words([
        (vec![0x40], "The version, at bit 0, is not 1."),
        (vec![0x20], &number("registers", 3, 12)),
        (vec![0x26, 0x60], &number("look-ups", 11, 12)),
        (cut_behind(16), &number("columns of register 0", 15, 6)),
        (cut_behind(30), &number("rules of register 1", 27, 8)),
    ]);
}

#[test]
fn a_number_that_is_not_in_the_sheet() {
    hold_words([
        (
            cut_behind(125),
            "Look-up 1 names register 3 at bit 122, and the sheet has registers 0 to 2.",
        ),
        (
            cut_behind(131),
            "Look-up 1, column 1, names variable 7 at bit 130, and the sheet has variables 0 to 3.",
        ),
        (
            changed(&SMALL, 27),
            "Look-up 0 names register 1 at bit 24, and the sheet has register 0 alone.",
        ),
        (
            changed(&SMALL, 31),
            "Look-up 0, column 0, names variable 1 at bit 28, and the sheet has variable 0 alone.",
        ),
    ]);
}

/// The variable that is given 0 is named, and not how many were given before it.
#[test]
fn a_given_value_of_0() {
    let given = |variable, place| {
        format!(
            "Variable {variable} is given 0 at bit {place}, and 0 means not known: a register row \
             with 0 there is left out, but a given 0 is refused."
        )
    };
    // the depot sheet's second given value is that of variable 2, and is 1, its last bit
    let condition = changed(&example("depot/sheet.bin"), 109);
    let longest = example("longest-sheet/sheet.bin");
    let last = (1171..1203).fold(longest, |sheet, bit| changed(&sheet, bit));
    hold_words([
        (example("zero-given/sheet.bin"), &given(0, 46)),
        (example("zero-given-later/sheet.bin"), &given(2, 78)),
        (condition.clone(), &given(2, 78)),
        (condition[..14].to_vec(), &given(2, 78)),
        (last.clone(), &given(15, 1171)),
        ([&last[..], &[0]].concat(), &given(15, 1171)),
    ]);
}

/// A register row that is left out for a 0 is no refusal, so nothing is said of it.
#[test]
fn a_row_that_is_left_out_is_not_refused() {
    for name in [
        "zero-not-joined",
        "zero-in-a-repeated-variable",
        "zero-for-one-lookup",
    ] {
        let sheet = example(&format!("{name}/sheet.bin"));
        let data = example(&format!("{name}/data.bin"));
        assert!(answer_bytes(&sheet, &data).is_ok(), "{name}");
        let refusal = Refusal {
            number: 12,
            detail: 0,
        };
        assert_eq!(explain::refusal(refusal, &sheet, &data), NOT_THEIRS);
    }
}

#[test]
fn a_fault_behind_the_last_look_up() {
    let depot = example("depot/sheet.bin");
    hold_words([
        (
            vec![0x22, 0x22, 0x44, 0x00, 0x00],
            "Variable 1 is neither given nor in a look-up.",
        ),
        (
            changed(&depot, 151),
            "The padding, from bit 146 up to a full byte, is not zero.",
        ),
        (
            [&depot[..], &[0]].concat(),
            "The sheet ends before bit 152, and a byte follows.",
        ),
        (
            [&SMALL[..], &[7]].concat(),
            "The sheet ends before bit 32, and a byte follows.",
        ),
    ]);
}

/// Any numbers may be asked about, of any files: those that are not theirs are told from those that are.
#[test]
fn a_refusal_that_the_files_do_not_have() {
    let numbers = (0..=13).chain([u32::MAX]);
    for (sheet, data) in examples() {
        let refused = answer_bytes(&sheet, &data).err();
        let own = refused.map_or(7, |refusal| refusal.detail);
        for number in numbers.clone() {
            for detail in [own, 0, 1, 2, 42, 152, usize::MAX] {
                let refusal = Refusal { number, detail };
                let theirs = number == 1
                    || refused == Some(refusal)
                    || (number == 4 && check_route(&sheet) == Err(refusal));
                let sentence = explain::refusal(refusal, &sheet, &data);
                assert_eq!(sentence != NOT_THEIRS, theirs, "{refusal:?} {sheet:02X?}");
            }
        }
    }
    for sheet in made_up() {
        let refusal = Refusal {
            number: 9,
            detail: sheet.len(),
        };
        explain::refusal(refusal, &sheet, &sheet);
    }
}
