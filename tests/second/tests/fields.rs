//! The sheet written from its fields.

use second::examples::{depot, longest, made, none};
use second::fields::{write, written, Fields, Outcome, SHORT_BUFFER};
use second::made_up::{small, Made};
use second::made_up_fields::case;
use second::sheet::{read, Lookup, Register, Request};
use second::sheet::{COUNT, GIVEN_ZERO, NOT_IN_SHEET, UNUSED};
use second::write::sheet;

/// The most that a buffer needs, and some bytes more.
const ROOM: usize = 200;

/// Noise in a buffer of this length.
fn lent(length: usize) -> Vec<u8> {
    (0..length).map(|place| (place * 89 + 167) as u8).collect()
}

/// What writing gives with a buffer of this length. All of the buffer is looked at: what is written
/// stands at its beginning, and the rest is as it was.
fn given(fields: &Fields, length: usize) -> (Outcome, Vec<u8>) {
    let (before, mut buffer) = (lent(length), lent(length));
    let outcome = write(fields, &mut buffer);
    assert_eq!(buffer[outcome.bytes..], before[outcome.bytes..]);
    buffer.truncate(outcome.bytes);
    assert_eq!(outcome.number == 0, outcome.bytes > 0);
    (outcome, buffer)
}

/// The bytes that are written.
fn bytes(fields: &Fields) -> Vec<u8> {
    let (outcome, bytes) = given(fields, ROOM);
    assert_eq!((outcome.number, outcome.detail), (0, 0));
    bytes
}

/// Number and detail of the refusal of a field, which is the same whatever the buffer is.
fn refused(fields: &Fields) -> (u32, usize) {
    let (outcome, _) = given(fields, ROOM);
    for length in [0, 1, 4, 18, 192, 193] {
        assert_eq!(given(fields, length).0, outcome);
    }
    assert!(![0, SHORT_BUFFER].contains(&outcome.number));
    (outcome.number, outcome.detail as usize)
}

/// The depot case's fields with a change.
fn changed(change: impl Fn(&mut Fields)) -> Fields {
    let mut fields = Fields::of(&depot().request);
    change(&mut fields);
    fields
}

/// A sheet of 32 bits: each number at its least.
fn shortest() -> Made {
    made(&["A f"], "v", &["A(v)"], &[none()])
}

#[test]
fn the_depot_sheet() {
    let sheet = [
        0x26, 0x66, 0x86, 0x43, 0x21, 0xa8, 0x00, 0x00, 0x00, 0x1c, 0x00, 0x00, 0x00, 0x04, 0x44,
        0x88, 0x4c, 0x00, 0x40,
    ];
    assert_eq!(bytes(&changed(|_| {})), sheet);
    let fewer = changed(|fields| fields.lookup_count = 2);
    assert_eq!(bytes(&fewer)[..2], [0x26, 0x64]);
    assert_eq!(bytes(&fewer)[2..16], sheet[2..16]);
    assert_eq!(bytes(&fewer)[16..], [0x4c]);
}

/// 13 exactly where the buffer is shorter than the sheet, with the bytes needed.
#[test]
fn each_length_of_the_buffer() {
    for (request, need) in [
        (shortest().request, 4),
        (depot().request, 19),
        (longest().request, 193),
    ] {
        let fields = Fields::of(&request);
        for length in 0..need {
            let (outcome, _) = given(&fields, length);
            assert_eq!((outcome.number, outcome.detail), (13, need as u32));
        }
        for length in need..need + 4 {
            let (outcome, bytes) = given(&fields, length);
            assert_eq!((outcome.number, outcome.detail), (0, 0));
            assert_eq!(bytes, sheet(&request));
        }
    }
}

/// Each number of the depot sheet out of its range. The places were counted by hand: 15 bits, three
/// registers of 9, 4 bits and two values, three look-ups of 12.
#[test]
fn each_field_of_the_depot_sheet() {
    let huge = [
        255,
        256,
        257,
        259,
        300,
        65_537,
        1 << 32,
        1 << 63,
        usize::MAX,
    ];
    let tried =
        |number, places: &[usize], from: usize, zero: bool, put: fn(&mut Fields, usize, usize)| {
            let near = [from, from + 1, 15, 16, 17, 18, 19, 20];
            let out = near.into_iter().chain(huge).filter(|value| *value >= from);
            for value in out.chain(zero.then_some(0)) {
                for (part, place) in (0..).zip(places) {
                    let fields = changed(|fields| put(fields, part, value));
                    assert_eq!(refused(&fields), (number, *place), "{value}");
                }
            }
        };
    tried(COUNT, &[3][..], 13, true, |f, _, value| {
        f.register_count = value
    });
    tried(COUNT, &[7], 17, true, |f, _, value| {
        f.variable_count = value
    });
    tried(COUNT, &[11], 13, true, |f, _, value| f.lookup_count = value);
    tried(COUNT, &[15, 24, 33], 7, true, |f, r, value| {
        f.registers[r].columns = value
    });
    tried(COUNT, &[18, 27, 36], 9, true, |f, r, value| {
        f.registers[r].rule_count = value
    });
    tried(NOT_IN_SHEET, &[110, 122, 134], 3, false, |f, l, value| {
        f.lookups[l].register = value
    });
    let places = [114, 118, 126, 130, 138, 142];
    tried(NOT_IN_SHEET, &places, 4, false, |f, place, value| {
        f.lookups[place / 2].variables[place % 2] = value
    });
    assert_eq!(refused(&changed(|f| f.values[0] = 0)), (GIVEN_ZERO, 46));
    assert_eq!(refused(&changed(|f| f.values[2] = 0)), (GIVEN_ZERO, 78));
    assert_eq!(refused(&changed(|f| f.values = [0; 16])), (GIVEN_ZERO, 46));
}

#[test]
fn a_variable_that_is_nowhere_is_refused() {
    assert_eq!(refused(&changed(|f| f.variable_count = 5)), (UNUSED, 4));
    assert_eq!(refused(&changed(|f| f.variable_count = 16)), (UNUSED, 4));
    assert_eq!(
        refused(&changed(|f| f.lookups[1].variables[1] = 0)),
        (UNUSED, 3)
    );
    let two = changed(|f| {
        f.lookups[1].variables[1] = 0;
        f.variable_count = 5;
    });
    assert_eq!(refused(&two), (UNUSED, 3), "the lowest");
    let given = changed(|f| {
        f.lookups[1].variables[1] = 0;
        (f.given[3], f.values[3]) = (true, 9);
    });
    assert_eq!(read(&bytes(&given)), Ok(given.request()));
    // It stands beyond the columns, in a look-up beyond the last, or among the marks beyond V.
    let beyond = changed(|f| {
        f.variable_count = 5;
        f.lookups[0].variables[2] = 4;
        f.lookups[3].variables = [4; 6];
        f.values[4] = 4;
        f.given[5] = true;
    });
    assert_eq!(refused(&beyond), (UNUSED, 4));
}

/// Number and place of a broken field, and what breaks it.
type Break = (u32, usize, fn(&mut Fields));

/// Of several broken fields the first in the order of reading is told.
#[test]
fn the_first_broken_field_is_told() {
    let mut fields = changed(|_| {});
    let breaks: [Break; 14] = [
        (UNUSED, 3, |f| f.lookups[1].variables[1] = 0),
        (NOT_IN_SHEET, 142, |f| f.lookups[2].variables[1] = 4),
        (NOT_IN_SHEET, 134, |f| f.lookups[2].register = 3),
        (NOT_IN_SHEET, 118, |f| f.lookups[0].variables[1] = 255),
        (NOT_IN_SHEET, 110, |f| f.lookups[0].register = 16),
        (GIVEN_ZERO, 78, |f| f.values[2] = 0),
        (GIVEN_ZERO, 46, |f| f.values[0] = 0),
        (COUNT, 36, |f| f.registers[2].rule_count = 9),
        (COUNT, 33, |f| f.registers[2].columns = 7),
        (COUNT, 18, |f| f.registers[0].rule_count = 0),
        (COUNT, 15, |f| f.registers[0].columns = 0),
        (COUNT, 11, |f| f.lookup_count = 0),
        (COUNT, 7, |f| f.variable_count = 17),
        (COUNT, 3, |f| f.register_count = usize::MAX),
    ];
    // From the last field to the first, each on top of those before it.
    for (number, place, broken) in breaks {
        broken(&mut fields);
        assert_eq!(refused(&fields), (number, place));
    }
}

/// What the sheet has no field for is not looked at, and reads back as nothing.
#[test]
fn what_is_beyond_the_counts_is_not_looked_at() {
    let sheet = bytes(&changed(|_| {}));
    let others: [fn(&mut Fields); 9] = [
        |f| f.registers[3].columns = 7,
        |f| f.registers[11].rule_count = usize::MAX,
        |f| f.registers[4].rules = [[true; 6]; 8],
        |f| f.registers[0].rules[1] = [true; 6],
        |f| f.registers[2].rules[0][2..].fill(true),
        |f| f.given[4..].fill(true),
        |f| f.values[1] = 5,
        |f| f.lookups[3].register = 12,
        |f| f.lookups[0].variables[2..].fill(16),
    ];
    for other in others {
        assert_eq!(bytes(&changed(other)), sheet);
    }
    let all = changed(|f| others.iter().for_each(|other| other(f)));
    assert_eq!(bytes(&all), sheet);
    assert_eq!(all.request(), depot().request);
    assert_eq!(read(&sheet), Ok(depot().request));
}

/// The same bytes as by the other writer, which tests nothing; and reading gives the request back.
#[test]
fn a_request_is_written_as_by_the_other_writer() {
    let mut requests = vec![depot().request, longest().request, shortest().request];
    requests.extend((0..300).map(|seed| small(seed).request));
    for request in requests {
        let fields = Fields::of(&request);
        assert_eq!(fields.request(), request);
        assert_eq!(bytes(&fields), sheet(&request));
        assert_eq!(read(&bytes(&fields)), Ok(request));
    }
}

/// Reading gives back each field that the sheet has, and writing what was read the same bytes.
#[test]
fn sound_fields_are_read_back() {
    let mut sound = 0;
    for seed in 0..6_000 {
        let fields = case(seed).fields;
        if written(&fields).is_err() {
            continue;
        }
        let bytes = bytes(&fields);
        let request = read(&bytes).unwrap();
        assert_eq!(request, fields.request(), "seed {seed}");
        assert_eq!(self::bytes(&Fields::of(&request)), bytes, "seed {seed}");
        sound += 1;
    }
    assert!(sound >= 2_000, "{sound}");
}

/// A sheet with these fields, sound or not, and zeros behind it; `None` where some number is too large
/// for its bits. A sheet can't have a wrong number of variables.
fn as_they_come(fields: &Fields) -> Option<Vec<u8>> {
    let fits = |number: usize, most: usize| (number <= most).then_some(number);
    let mut request = Request {
        registers: Vec::new(),
        givens: Vec::new(),
        lookups: Vec::new(),
    };
    for place in 0..fits(fields.register_count, 15)? {
        let register = fields.registers.get(place).copied().unwrap_or_default();
        let columns = fits(register.columns, 7)?;
        let marks = |place: usize| {
            let rule = register.rules.get(place).copied().unwrap_or_default();
            (0..columns)
                .map(|column| rule.get(column) == Some(&true))
                .collect()
        };
        request.registers.push(Register {
            columns,
            rules: (0..fits(register.rule_count, 15)?).map(marks).collect(),
        });
    }
    for variable in 0..fits(fields.variable_count, 16).filter(|count| *count > 0)? {
        let given = fields.given[variable].then_some(fields.values[variable]);
        request.givens.push(given);
    }
    for place in 0..fits(fields.lookup_count, 15)? {
        let lookup = fields.lookups.get(place).copied().unwrap_or_default();
        let register = fits(lookup.register, 15)?;
        let columns = request.registers.get(register).map_or(0, |r| r.columns);
        let variables: Option<Vec<usize>> = (0..columns)
            .map(|column| fits(*lookup.variables.get(column).unwrap_or(&0), 15))
            .collect();
        request.lookups.push(Lookup {
            register,
            variables: variables?,
        });
    }
    Some([sheet(&request), vec![0; ROOM]].concat())
}

/// Fields whose numbers fit into the bits of a sheet break where reading that sheet breaks.
#[test]
fn writing_tells_what_reading_tells() {
    let mut times = [0; 14];
    for seed in 0..12_000 {
        let fields = case(seed).fields;
        let Some(sheet) = as_they_come(&fields) else {
            continue;
        };
        // Bytes follow the sheet, which reading tells where nothing else is wrong.
        let fault = read(&sheet).unwrap_err();
        match written(&fields) {
            Ok(sheet) => {
                let end = 8 * sheet.bytes().len() as u32;
                assert_eq!((fault.number, fault.detail), (11, end), "seed {seed}");
                times[0] += 1;
            }
            Err(broken) => {
                assert_eq!(broken, fault, "seed {seed}");
                times[fault.number as usize] += 1;
            }
        }
    }
    for number in [0, 8, 9, 10, 12] {
        assert!(times[number] >= 150, "{number}: {times:?}");
    }
}
