//! The sheet, field by field.

use second::examples::{depot, longest, made, none};
use second::made_up::{case, small, Made};
use second::sheet::{read, Fault, Request};
use second::sheet::{COUNT, ENDS_EARLY, GIVEN_ZERO, NOT_IN_SHEET, PADDING, UNUSED, VERSION};
use second::write::{sheet, written, Field};
use second::{answer, check_route, run_files};

/// Sound requests of many sizes, the shortest and the longest among them.
fn requests() -> Vec<Request> {
    let mut requests = vec![depot().request, longest().request, shortest().request];
    requests.extend((0..300).map(|seed| small(seed).request));
    requests
}

/// A sheet of 32 bits: each number at its least.
fn shortest() -> Made {
    made(&["A f"], "v", &["A(v)"], &[none()])
}

/// The first fault of a sheet. The answer, the route check and the program tell the same number and
/// detail, whatever the row data; and short tables come before it.
fn fault(sheet: &[u8]) -> (u32, usize) {
    let Fault { number, detail } = read(sheet).expect_err("a sheet with a fault");
    assert_eq!(check_route(sheet), (number, detail));
    for words in [&[][..], &[0], &[513; 20], &[0; 16_385]] {
        let got = answer(sheet, words, 8_192, 8_192);
        assert_eq!((got.number, got.detail), (number, detail));
    }
    assert_eq!(answer(sheet, &[], 8_191, 8_192).number, 1);
    for data in [&[][..], &[0], &[0; 4], &[0; 7]] {
        let line = format!("refused {number} {detail}\n");
        assert_eq!(run_files(sheet, data), line);
    }
    (number, detail as usize)
}

#[test]
fn a_written_sheet_reads_back() {
    for request in requests() {
        assert_eq!(read(&sheet(&request)), Ok(request));
    }
    assert_eq!(sheet(&shortest().request).len(), 4);
    assert_eq!(sheet(&longest().request).len(), 193);
}

/// What is read, written again, is the same bytes: no two sheets say the same.
#[test]
fn a_sheet_that_reads_is_written_the_same() {
    let mut damaged = 0;
    for seed in 0..4_000 {
        let case = case(seed);
        if let Ok(request) = read(&case.sheet) {
            assert_eq!(sheet(&request), case.sheet, "seed {seed}");
            damaged += u32::from(case.kind == "flipped-bits");
        }
    }
    assert!(damaged >= 5, "{damaged} damaged sheets are still sound");
}

/// Faults and places that were worked out by hand.
#[test]
fn faults_by_hand() {
    let depot = sheet(&depot().request);
    let mut odd = depot.clone();
    odd[18] = 0x41;
    assert_eq!(fault(&odd), (PADDING, 146));
    assert_eq!(fault(&[&odd[..], &[0]].concat()), (PADDING, 146));
    assert_eq!(fault(&[&depot[..], &[0]].concat()), (PADDING, 152));
    assert_eq!(fault(&[]), (ENDS_EARLY, 0));
    assert_eq!(fault(&[0x26]), (ENDS_EARLY, 7));
    assert_eq!(fault(&[0x22, 0x22, 0x44, 0x00, 0x00]), (UNUSED, 1));
    assert_eq!(read(&[0x22, 0x02, 0x44, 0x00]), Ok(shortest().request));
    for byte in 0..=255 {
        assert_eq!(fault(&[0x22, 0x02, 0x44, 0x00, byte]), (PADDING, 32));
    }
}

/// Each number of the depot sheet just out of its range. The places were counted by hand: 15 bits,
/// three registers of 9, 4 bits and two values, three look-ups of 12.
#[test]
fn each_field_of_the_depot_sheet() {
    let sound = written(&depot().request);
    let mut tried = 0;
    for (number, places, width, values) in [
        (VERSION, &[0][..], 3, &[0, 2, 7][..]),
        (COUNT, &[3, 11], 4, &[0, 13, 15]),
        (COUNT, &[15, 24, 33], 3, &[0, 7]),
        (COUNT, &[18, 27, 36], 4, &[0, 9, 15]),
        (GIVEN_ZERO, &[46, 78], 32, &[0]),
        (NOT_IN_SHEET, &[110, 122, 134], 4, &[3, 15]),
        (NOT_IN_SHEET, &[114, 118, 126, 130, 138, 142], 4, &[4, 15]),
    ] {
        for (at, value) in places
            .iter()
            .flat_map(|at| values.iter().map(move |v| (*at, *v)))
        {
            let mut sheet = sound.clone();
            let name = "";
            sheet.put(&Field { name, at, width }, value);
            assert_eq!(fault(&sheet.bytes()), (number, at), "{value} at bit {at}");
            tried += 1;
        }
    }
    assert_eq!(tried, 3 + 2 * 3 + 3 * 2 + 3 * 3 + 2 + 3 * 2 + 6 * 2);
}

/// Where the depot sheet ends early by its bytes, and two sheets that end in what it never ends in:
/// the number of rules and the bits that say which variables are given. No sheet ends in the number
/// of registers or of look-ups: they end at bits 7 and 15, and begin in the same byte.
#[test]
fn each_field_that_is_not_whole() {
    let depot = sheet(&depot().request);
    let places = [
        0, 7, 15, 24, 31, 40, 46, 46, 46, 46, 78, 78, 78, 78, 110, 118, 126, 134, 142,
    ];
    assert_eq!(places.len(), depot.len());
    for (length, at) in places.into_iter().enumerate() {
        assert_eq!(fault(&depot[..length]), (ENDS_EARLY, at), "{length} bytes");
    }
    let rules = made(&["A ff ff", "B f"], "v", &["B(v)"], &[none(), none()]);
    assert_eq!(fault(&sheet(&rules.request)[..4]), (ENDS_EARLY, 29));
    assert_eq!(fault(&[0x22, 0x22, 0x44]), (ENDS_EARLY, 23));
}

/// Reading order beats the numbers: the sheet ends early as well.
#[test]
fn the_first_fault_is_told_though_a_later_one_has_a_lower_number() {
    assert_eq!(fault(&[0x40]), (VERSION, 0));
    assert_eq!(fault(&[0x20]), (COUNT, 3));
    assert_eq!(fault(&[0x22, 0x00]), (COUNT, 11));
    assert_eq!(fault(&[0x22, 0x02, 0x00]), (COUNT, 15));
    assert_eq!(fault(&[0x22, 0x02, 0x40]), (COUNT, 18));
    // Two look-ups, of which the first names register 1 of one, or variable 1 of one.
    assert_eq!(fault(&[0x22, 0x04, 0x44, 0x10]), (NOT_IN_SHEET, 24));
    assert_eq!(fault(&[0x22, 0x04, 0x44, 0x01]), (NOT_IN_SHEET, 28));
    assert_eq!(fault(&[0x22, 0x04, 0x44, 0x00]), (ENDS_EARLY, 32));
}

/// A sheet of one register of one column, with this number of variables less one, these marks of the
/// given ones and these bytes behind them. The first value begins at bit 23 and as many bits as there
/// are variables.
fn giving(variables_less_one: u8, marks: &[bool], behind: &[u8]) -> Vec<u8> {
    // 23 bits: 001 0001 0000 0001 001 0001 0, with the number of variables less one as the third.
    let head = 0x11_0122 | u32::from(variables_less_one) << 12;
    let bits = (0..23).rev().map(|place| head >> place & 1 == 1);
    let mut bits: Vec<bool> = bits.chain(marks.iter().copied()).collect();
    for byte in behind {
        bits.extend((0..8).rev().map(|place| byte >> place & 1 == 1));
    }
    let fields = Vec::new();
    second::write::Written { bits, fields }.bytes()
}

/// A given 0 is told once its 32 bits are read, and before anything behind it; what stands before it
/// comes first.
#[test]
fn a_given_value_of_0_is_refused() {
    let one = |behind: &[u8]| fault(&giving(0, &[true], behind));
    // One variable, given; the look-up is the last byte, and 10 and 11 would be behind it.
    assert_eq!(one(&[0, 0, 0, 0, 0]), (GIVEN_ZERO, 24));
    assert_eq!(
        read(&giving(0, &[true], &[0, 0, 0, 1, 0])).unwrap().givens,
        [Some(1)]
    );
    assert_eq!(one(&[0, 0, 0]), (ENDS_EARLY, 24), "not whole");
    assert_eq!(
        one(&[0, 0, 0, 0]),
        (GIVEN_ZERO, 24),
        "whole, and nothing behind it"
    );
    assert_eq!(one(&[0, 0, 0, 1]), (ENDS_EARLY, 56));
    assert_eq!(
        one(&[0, 0, 0, 0, 0x11]),
        (GIVEN_ZERO, 24),
        "register 1 of one"
    );
    assert_eq!(one(&[0, 0, 0, 1, 0x11]), (NOT_IN_SHEET, 56));
    assert_eq!(one(&[0, 0, 0, 0, 0, 0]), (GIVEN_ZERO, 24), "a byte more");
    assert_eq!(one(&[0, 0, 0, 1, 0, 0]), (PADDING, 64));
    // Two given variables: the first 0 in reading order is told.
    let two = |behind: &[u8]| fault(&giving(1, &[true, true], behind));
    assert_eq!(two(&[0, 0, 0, 0, 0, 0, 0, 0]), (GIVEN_ZERO, 25));
    assert_eq!(two(&[0, 0, 0, 9, 0, 0, 0, 0]), (GIVEN_ZERO, 57));
    assert_eq!(two(&[0, 0, 0, 0, 0, 0, 0, 9]), (GIVEN_ZERO, 25));
    assert_eq!(two(&[0, 0, 0, 9, 0, 0, 0]), (ENDS_EARLY, 57));
    assert_eq!(
        two(&[0, 0, 0, 0, 0, 0, 0]),
        (GIVEN_ZERO, 25),
        "the second is not whole"
    );
    // Variable 0 is unused, which is told behind the last look-up.
    let second = |behind: &[u8]| fault(&giving(1, &[false, true], behind));
    assert_eq!(second(&[0, 0, 0, 0, 0x01]), (GIVEN_ZERO, 25));
    assert_eq!(second(&[0, 0, 0, 1, 0x01]), (UNUSED, 0));
}

/// Each given value of many requests put to 0, alone and with all behind it.
#[test]
fn each_given_value_of_0_is_told_at_its_place() {
    let mut tried = 0;
    for request in requests() {
        let sound = written(&request);
        let mut sheet = sound.clone();
        for field in sound.fields.iter().rev().filter(|f| f.name == "value") {
            let mut alone = sound.clone();
            alone.put(field, 0);
            assert_eq!(fault(&alone.bytes()), (GIVEN_ZERO, field.at));
            sheet.put(field, 0);
            assert_eq!(fault(&sheet.bytes()), (GIVEN_ZERO, field.at));
            tried += 1;
        }
    }
    assert!(tried > 100, "{tried}");
}

/// A sheet that is cut ends early at the first field that is not whole.
#[test]
fn no_other_length_is_taken() {
    for request in requests() {
        let fields = written(&request).fields;
        let sheet = sheet(&request);
        for length in 0..sheet.len() {
            let cut = |field: &&Field| field.at + field.width > 8 * length;
            let at = fields.iter().find(cut).unwrap().at;
            assert_eq!(fault(&sheet[..length]), (ENDS_EARLY, at));
        }
        for more in [&[0][..], &[1], &[128], &[255], &[0; 2]] {
            let longer = [&sheet[..], more].concat();
            assert_eq!(fault(&longer), (PADDING, 8 * sheet.len()));
        }
    }
}

#[test]
fn each_padding_bit_is_zero() {
    let mut seen = [false; 8];
    for request in requests() {
        let bits = written(&request).bits.len();
        let mut bytes = sheet(&request);
        let padding = bytes.len() * 8 - bits;
        seen[padding] = true;
        for place in 0..padding {
            let last = bytes.len() - 1;
            bytes[last] ^= 1 << place;
            assert_eq!(fault(&bytes), (PADDING, bits));
            assert_eq!(fault(&[&bytes[..], &[0]].concat()), (PADDING, bits));
            bytes[last] ^= 1 << place;
        }
        assert_eq!(read(&bytes), Ok(request));
    }
    assert_eq!(seen, [true; 8], "each number of padding bits occurs");
}

/// The fault of this value in this field of the request; `None` where the rules allow it.
fn out_of_range(request: &Request, field: &Field, value: u32) -> Option<u32> {
    let (allowed, number) = match field.name {
        "version" => (value == 1, VERSION),
        "registers" | "look-ups" => ((1..=12).contains(&value), COUNT),
        "columns" => ((1..=6).contains(&value), COUNT),
        "rules" => ((1..=8).contains(&value), COUNT),
        "register" => (value < request.registers.len() as u32, NOT_IN_SHEET),
        "variable" => (value < request.givens.len() as u32, NOT_IN_SHEET),
        _ => return None,
    };
    (!allowed).then_some(number)
}

#[test]
fn a_field_out_of_its_range_is_refused() {
    let mut refused = 0;
    for request in requests() {
        let sound = written(&request);
        for field in sound.fields.iter().filter(|field| field.width <= 4) {
            for value in 0..1 << field.width {
                if let Some(number) = out_of_range(&request, field, value) {
                    let mut sheet = sound.clone();
                    sheet.put(field, value);
                    let told = fault(&sheet.bytes());
                    assert_eq!(told, (number, field.at), "{field:?} is {value}");
                    refused += 1;
                }
            }
        }
    }
    assert!(refused > 10_000, "{refused}");
}

/// Any mark is taken, and any value but 0.
#[test]
fn values_and_marks_are_free() {
    for request in requests() {
        let sound = written(&request);
        for field in &sound.fields {
            let values: &[u32] = match field.name {
                "rule" => &[0, 1, 0b101010, 0b111111],
                "value" => &[1, 2_147_483_648, 4_294_967_295],
                _ => continue,
            };
            for value in values {
                let mut sheet = sound.clone();
                sheet.put(field, *value);
                assert!(read(&sheet.bytes()).is_ok(), "{field:?} is {value}");
            }
        }
    }
}

/// A variable that is not given stands in some look-up; else the lowest is told, before the padding.
#[test]
fn a_variable_that_is_nowhere_is_refused() {
    for mut request in requests() {
        let variables = request.givens.len();
        if variables < 16 {
            request.givens.push(None);
            assert_eq!(fault(&sheet(&request)), (UNUSED, variables));
            let longer = [sheet(&request), vec![1]].concat();
            assert_eq!(fault(&longer), (UNUSED, variables));
            request.givens.pop();
            request.givens.push(Some(1));
            assert_eq!(read(&sheet(&request)), Ok(request));
        }
    }
    let of = |variables| {
        let made = made(&["A f"], variables, &["A(c)"], &[none()]);
        fault(&sheet(&made.request))
    };
    assert_eq!(of("a b c d"), (UNUSED, 0));
    assert_eq!(of("a=1 b c d"), (UNUSED, 1));
    assert_eq!(of("a=1 b=1 c d"), (UNUSED, 3));
}
