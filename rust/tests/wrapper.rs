//! The wrapper: what each function hands back, every refusal's number, and the words of the tables.

use ebbcandle::linked::{self, Detail, NO_ROOM, PLACES, SHEET_PLACES};
use ebbcandle::*;

const SHEET: [u8; 19] = [
    0x26, 0x66, 0x86, 0x43, 0x21, 0xA8, 0x00, 0x00, 0x00, 0x1C, 0x00, 0x00, 0x00, 0x04, 0x44, 0x88,
    0x4C, 0x00, 0x40,
];
const WORDS: [u32; 23] = [
    4, 7, 101, 7, 102, 7, 103, 8, 104, 4, 101, 1, 102, 2, 103, 1, 104, 1, 2, 101, 51, 103, 52,
];

/// The files of a folder of examples/, the row data as words.
fn example(name: &str) -> (Vec<u8>, Vec<u32>) {
    let folder = std::path::Path::new(env!("CARGO_MANIFEST_DIR"))
        .join("../examples")
        .join(name);
    let read = |name| std::fs::read(folder.join(name)).unwrap();
    (read("sheet.bin"), words_of(&read("data.bin")).unwrap())
}

/// Tables of 8,200 words, all 4,294,967,295.
fn tables() -> (Vec<u32>, Vec<u32>) {
    (vec![u32::MAX; 8_200], vec![u32::MAX; 8_200])
}

fn refused(number: u32, detail: Detail) -> Refusal {
    Refusal { number, detail }
}

#[test]
fn the_depot_case() {
    let answer = answer(&SHEET, &WORDS).unwrap();
    let step = |lookup, calls, rows, sent| Step {
        lookup,
        rule: 0,
        calls,
        rows,
        sent,
        charge: calls,
    };
    let steps = [step(2, 1, 3, 3), step(0, 3, 2, 3), step(1, 2, 2, 2)];
    assert_eq!(answer.steps, steps);
    assert_eq!((answer.calls, answer.charge), (6, 6));
    assert_eq!(answer.rows, [[7, 101, 1, 51], [7, 103, 1, 52]]);
    assert_eq!(check_route(&SHEET), Ok(()));
}

#[test]
fn answered_tables() {
    let (mut first, mut second) = tables();
    let route = answer_into(&SHEET, &WORDS, &mut first, &mut second).unwrap();
    assert_eq!((route.steps.len(), route.calls, route.rows), (3, 6, 2));
    assert_eq!(first[..4], [7, 101, 1, 51]);
    assert_eq!(first[16..20], [7, 103, 1, 52]);
    assert!(first[20..TABLE].iter().all(|word| *word == 0));
    assert!(second[..TABLE].iter().all(|word| *word == 0));
    assert_eq!(first[TABLE..], [u32::MAX; 8]);
    assert_eq!(second[TABLE..], [u32::MAX; 8]);
    assert_eq!(count(&first, route.rows, 1), Ok(2));
    assert_eq!(count(&first, route.rows, 0), Ok(1));
}

#[test]
fn refusal_1() {
    for (one, two) in [(TABLE - 1, TABLE), (TABLE, TABLE - 1), (0, 0)] {
        let (mut first, mut second) = (vec![7; one], vec![7; two]);
        let route = answer_into(&[], &[], &mut first, &mut second);
        assert_eq!(route, Err(refused(1, 0)));
        assert!(first.iter().chain(&second).all(|word| *word == 7));
    }
}

#[test]
fn refusals_of_the_answer() {
    for (name, number, detail) in [
        ("byte-fewer", 2, 142),
        ("depot-byte-41", 11, 146),
        ("zero-given", 12, 46),
        ("word-missing", 3, 0),
        ("open-without-r", 4, 3),
        ("rows-23-23", 5, 2),
    ] {
        let (sheet, words) = example(name);
        let expected = refused(number, detail);
        assert_eq!(answer(&sheet, &words), Err(expected));
        let (mut first, mut second) = tables();
        let route = answer_into(&sheet, &words, &mut first, &mut second);
        assert_eq!(route, Err(expected));
        // Under 5 the first 8,192 words are zero; all others stay as they came.
        let within = if number == 5 { 0 } else { u32::MAX };
        for table in [first, second] {
            assert!(table[..TABLE].iter().all(|word| *word == within));
            assert_eq!(table[TABLE..], [u32::MAX; 8]);
        }
        let checked = if number == 3 || number == 5 {
            Ok(())
        } else {
            Err(expected)
        };
        assert_eq!(check_route(&sheet), checked);
    }
}

/// The bytes of words.
fn bytes_of(words: &[u32]) -> Vec<u8> {
    words.iter().flat_map(|word| word.to_be_bytes()).collect()
}

#[test]
fn words_are_whole() {
    let data = bytes_of(&WORDS);
    assert_eq!(words_of(&data), Ok(WORDS.to_vec()));
    assert_eq!(words_of(&[]), Ok(Vec::new()));
    for left_over in 1..4 {
        assert_eq!(words_of(&data[..left_over]), Err(refused(3, 0)));
        assert_eq!(words_of(&data[..88 + left_over]), Err(refused(3, 0)));
    }
}

/// Bytes that are left over are refusal 3, behind the sheet's and before 4 and 5.
#[test]
fn bytes_left_over() {
    let depot = bytes_of(&WORDS);
    assert_eq!(answer_bytes(&SHEET, &depot), answer(&SHEET, &WORDS));
    for name in ["open-without-r", "rows-23-23"] {
        let (sheet, words) = example(name);
        let mut data = bytes_of(&words);
        assert_eq!(answer_bytes(&sheet, &data), answer(&sheet, &words));
        for _ in 0..3 {
            data.push(0);
            assert_eq!(answer_bytes(&sheet, &data), Err(refused(3, 0)));
            assert_eq!(answer_bytes(&[], &data), Err(refused(2, 0)));
            assert_eq!(answer_bytes(&[0x26], &data), Err(refused(2, 7)));
            assert_eq!(answer_bytes(&[0x40], &data), Err(refused(7, 0)));
            let longer = [&SHEET[..], &[0]].concat();
            assert_eq!(answer_bytes(&longer, &data), Err(refused(11, 152)));
        }
    }
}

/// What is answered to the contents of both files is what the program prints for them.
#[test]
fn the_files_of_each_example() {
    let top = std::path::Path::new(env!("CARGO_MANIFEST_DIR")).join("../examples");
    let mut examples = 0;
    for folder in std::fs::read_dir(top).unwrap() {
        let folder = folder.unwrap().path();
        if folder.is_dir() {
            let read = |name| std::fs::read(folder.join(name)).unwrap();
            let printed = match answer_bytes(&read("sheet.bin"), &read("data.bin")) {
                Ok(answer) => answer.to_string(),
                Err(refusal) => refusal.to_string(),
            };
            assert!(printed.as_bytes() == read("expected"), "{folder:?}");
            examples += 1;
        }
    }
    assert!(examples > 50, "{examples}");
}

#[test]
fn refusal_6() {
    let table = [5; 32];
    assert_eq!(count(&table, 2, 15), Ok(1));
    assert_eq!(count(&table, 0, 0), Ok(0));
    assert_eq!(count(&table, 2, 16), Err(refused(6, 0)));
    assert_eq!(count(&table, 3, 0), Err(refused(6, 0)));
    assert_eq!(count(&[0; 8_208], 513, 0), Err(refused(6, 0)));
    assert_eq!(count(&table, usize::MAX, usize::MAX), Err(refused(6, 0)));
}

/// 0 is left out of the count: of the values 0, 0 and 5, and of zeros alone.
#[test]
fn the_count_leaves_0_out() {
    let mut table = [0; 48];
    table[32] = 5;
    assert_eq!(count(&table, 3, 0), Ok(1));
    assert_eq!(count(&table, 2, 0), Ok(0));
    assert_eq!(count(&table, 3, 15), Ok(0));
}

/// A row with 0 is left out for one look-up and stays for another on the same register.
#[test]
fn a_row_with_0() {
    let (sheet, words) = example("zero-for-one-lookup");
    let answer = answer(&sheet, &words).unwrap();
    assert_eq!(answer.rows, [[1, 5, 0, 5], [1, 5, 1, 5]]);
}

#[test]
fn the_depot_sheet() {
    let sheet = read_sheet(&SHEET).unwrap();
    let register = Register {
        columns: 2,
        rules: vec![vec![true, false]],
    };
    let lookup = |register, variables: [usize; 2]| LookUp {
        register,
        variables: variables.to_vec(),
    };
    assert_eq!(sheet.registers, vec![register; 3]);
    assert_eq!(sheet.given, [Some(7), None, Some(1), None]);
    assert_eq!(
        sheet.lookups,
        [lookup(1, [1, 2]), lookup(2, [1, 3]), lookup(0, [0, 1])]
    );
}

/// Reading, the route check and the answer refuse a sheet alike, whatever the row data is.
fn refuses(sheet: &[u8], number: u32, detail: Detail) {
    let expected = refused(number, detail);
    assert_eq!(read_sheet(sheet), Err(expected), "{sheet:02X?}");
    assert_eq!(check_route(sheet), Err(expected), "{sheet:02X?}");
    assert_eq!(answer(sheet, &WORDS), Err(expected), "{sheet:02X?}");
    assert_eq!(answer(sheet, &[]), Err(expected), "{sheet:02X?}");
    let mut out = [7; SHEET_PLACES];
    assert_eq!(linked::read_sheet(sheet, &mut out), number);
    assert_eq!((out[0], out[1]), (number as usize, detail));
    assert!(out[2..].iter().all(|place| *place == 0));
}

#[test]
fn refusals_of_a_sheet() {
    for (name, number, detail) in [
        ("empty-sheet", 2, 0),
        ("byte-fewer", 2, 142),
        ("version-2", 7, 0),
        ("registers-13", 8, 3),
        ("rules-9", 8, 45),
        ("register-not-there", 9, 122),
        ("open-without-r-x-left", 10, 0),
        ("depot-byte-41", 11, 146),
        ("depot-byte-more", 11, 152),
        ("zero-given", 12, 46),
        ("zero-given-later", 12, 78),
        ("zero-given-ends-early", 12, 46),
        ("zero-given-not-whole", 2, 46),
    ] {
        refuses(&example(name).0, number, detail);
    }
    // what is first in reading order is told
    refuses(&[0x26], 2, 7);
    refuses(&[0x40], 7, 0);
    refuses(&[0x22, 0x22, 0x44, 0x00, 0x00], 10, 1);
    refuses(&[0x22, 0x22, 0x44, 0x00, 0x01], 10, 1);
    refuses(&[0x22, 0x02, 0x44, 0x00, 0xFF], 11, 32);
    let both = [&SHEET[..18], &[0x41, 0x00]].concat();
    refuses(&both, 11, 146);
    refuses(&[&SHEET[..], &[0; 500]].concat(), 11, 152);
    refuses(&[0x40; 500], 7, 0);
}

#[test]
fn a_buffer_without_room() {
    let (mut first, mut second) = tables();
    let mut out = [7; PLACES - 1];
    let number = linked::answer(&SHEET, &WORDS, &mut first, &mut second, &mut out);
    assert_eq!(number, NO_ROOM);
    assert!(out.iter().all(|place| *place == 7));
    assert!(first.iter().chain(&second).all(|word| *word == u32::MAX));
    let mut out = [7; SHEET_PLACES - 1];
    assert_eq!(linked::read_sheet(&SHEET, &mut out), NO_ROOM);
    assert!(out.iter().all(|place| *place == 7));
    let mut out = [7; SHEET_PLACES + 2];
    assert_eq!(linked::read_sheet(&SHEET, &mut out), 0);
    assert_eq!((out[0], out[1]), (0, 152));
    assert_eq!(out[SHEET_PLACES..], [7, 7]);
    let mut out = [7; PLACES - 1];
    for p in [1, 1_001] {
        let number =
            linked::answer_charged(&SHEET, &WORDS, p, 0, &mut first, &mut second, &mut out);
        assert_eq!(number, NO_ROOM);
    }
    assert!(out.iter().all(|place| *place == 7));
    assert!(first.iter().chain(&second).all(|word| *word == u32::MAX));
}
