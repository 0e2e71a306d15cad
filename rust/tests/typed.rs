//! Typed requests: what is read, answered and checked, every refusal of the lines with its place and its
//! word, and the sentences.

use ebbcandle::linked::{self, Detail, NO_ROOM, PLACES, SHEET_PLACES};
use ebbcandle::*;

const NAMES: &str = "stock state carrier";
const LINE: &str =
    "depot=7 cond=1 : state(machine cond) carrier(machine truck) stock(depot machine)";

/// The depot case's files, the row data as bytes.
fn depot() -> (Vec<u8>, Vec<u8>) {
    let folder = std::path::Path::new(env!("CARGO_MANIFEST_DIR")).join("../examples/depot");
    let read = |name| std::fs::read(folder.join(name)).unwrap();
    (read("sheet.bin"), read("data.bin"))
}

fn refused(number: u32, detail: Detail) -> Refusal {
    Refusal { number, detail }
}

/// The depot case's sheet with the names of its variables in the line's order.
fn depot_said(sheet: &[u8]) -> Sheet {
    let mut said = read_sheet(sheet).unwrap();
    said.given = vec![Some(7), Some(1), None, None];
    let variables = [[2, 1], [2, 3], [0, 2]];
    for (lookup, variables) in said.lookups.iter_mut().zip(variables) {
        lookup.variables = variables.to_vec();
    }
    said
}

#[test]
fn the_depot_case_typed() {
    let (sheet, data) = depot();
    let (typed, words) = (Typed::new(&sheet, NAMES, LINE), words_of(&data).unwrap());
    let said = typed.read().unwrap();
    assert_eq!(said, depot_said(&sheet));
    let answer = typed.answer(&words).unwrap();
    assert_eq!(answer.calls, 6);
    assert_eq!(answer.rows, [[7, 1, 101, 51], [7, 1, 103, 52]]);
    assert_eq!(typed.check_route(), Ok(()));
    // the sheet that says it is read and answered alike
    let bytes = said.to_bytes().unwrap();
    assert_eq!(read_sheet(&bytes), Ok(said));
    assert_eq!(ebbcandle::answer(&bytes, &words), Ok(answer));
    // names and line as bytes, and a line that is owned
    let owned = LINE.to_string();
    assert_eq!(Typed::new(&sheet, NAMES.as_bytes(), &owned), typed);
}

#[test]
fn lent_tables() {
    let (sheet, data) = depot();
    let (typed, words) = (Typed::new(&sheet, NAMES, LINE), words_of(&data).unwrap());
    let (mut first, mut second) = (vec![9; TABLE + 2], vec![9; TABLE + 2]);
    let route = typed.answer_into(&words, &mut first, &mut second).unwrap();
    assert_eq!((route.steps.len(), route.calls, route.rows), (3, 6, 2));
    assert_eq!(first[..4], [7, 1, 101, 51]);
    assert_eq!(first[16..20], [7, 1, 103, 52]);
    assert!(first[20..TABLE].iter().all(|word| *word == 0));
    assert!(second[..TABLE].iter().all(|word| *word == 0));
    assert_eq!(
        (&first[TABLE..], &second[TABLE..]),
        (&[9, 9][..], &[9, 9][..])
    );
    // a short table comes before all else, and a refusal of the line leaves both
    let faulty = Typed::new(&sheet, NAMES, "?");
    let (mut first, mut second) = (vec![9; TABLE], vec![9; TABLE - 1]);
    let short = faulty.answer_into(&words, &mut first, &mut second);
    assert_eq!(short, Err(refused(1, 0)));
    assert_eq!(
        explain::typed(refused(1, 0), &faulty, &data),
        "A lent table has fewer than 8,192 words."
    );
    second.push(9);
    let fault = faulty.answer_into(&words, &mut first, &mut second);
    assert_eq!(fault, Err(refused(20, 0)));
    assert!(first.iter().chain(&second).all(|word| *word == 9));
}

/// A line with its refusal, the word that is wrong, and the sentence.
const FAULTS: [(&str, u32, Detail, &str, &str); 16] = [
    (
        "depot=0 : stock(depot x)",
        12,
        6,
        "",
        "A given value, at byte 6, is 0, and 0 means not known.",
    ),
    (
        "depot=07 : stock(depot x)",
        20,
        6,
        "",
        "At byte 6 stands a byte that no token has, or a leading zero.",
    ),
    (
        ": stock(depot X)",
        20,
        14,
        "",
        "At byte 14 stands a byte that no token has, or a leading zero.",
    ),
    (
        ": stock(depot x)\n",
        20,
        16,
        "",
        "At byte 16 stands a byte that no token has, or a leading zero.",
    ),
    ("", 21, 0, "", "The line ends out of place."),
    (": stock(depot x", 21, 15, "", "The line ends out of place."),
    (
        "depot=7  : stock(depot x)",
        21,
        8,
        "",
        "What begins at byte 8 is out of place.",
    ),
    (
        "depot=seven : stock(depot x)",
        21,
        6,
        "seven",
        "The name `seven`, at byte 6, is out of place.",
    ),
    (
        ": stick(depot x)",
        22,
        2,
        "stick",
        "`stick`, at byte 2, is the name of no register.",
    ),
    (
        ": stock(depot)",
        23,
        13,
        "",
        "The look-up that closes at byte 13 has not one variable for each column.",
    ),
    (
        ": stock(a b c)",
        23,
        13,
        "",
        "The look-up that closes at byte 13 has not one variable for each column.",
    ),
    (
        "depot=4294967296 : stock(depot x)",
        24,
        6,
        "",
        "The number at byte 6 is over 4,294,967,295.",
    ),
    (
        ": stock(abcdefghijklm x)",
        24,
        8,
        "abcdefghijklm",
        "The name at byte 8 has 13 letters, over 12.",
    ),
    (
        "depot=7 depot=7 : stock(depot x)",
        25,
        8,
        "depot",
        "`depot` is given twice, again at byte 8.",
    ),
    // at one place the lowest number, and the first place in the line
    (
        "depot=7 depotsnamedtwice=00",
        24,
        8,
        "depotsnamedtwice",
        "The name at byte 8 has 16 letters, over 12.",
    ),
    (
        "depot=00 : ?",
        12,
        6,
        "",
        "A given value, at byte 6, is 0, and 0 means not known.",
    ),
];

#[test]
fn faults_of_the_line() {
    let (sheet, data) = depot();
    let words = words_of(&data).unwrap();
    for (line, number, detail, part, sentence) in FAULTS {
        let (typed, refusal) = (Typed::new(&sheet, NAMES, line), refused(number, detail));
        assert_eq!(typed.read(), Err(refusal), "{line}");
        assert_eq!(typed.answer(&words), Err(refusal), "{line}");
        assert_eq!(typed.check_route(), Err(refusal), "{line}");
        assert_eq!(typed.part(refusal), part, "{line}");
        let place = if number == 12 { 0 } else { detail };
        assert_eq!(typed.place(refusal), place..place + part.len(), "{line}");
        assert_eq!(explain::typed(refusal, &typed, &data), sentence);
    }
}

/// A line of 12 look-ups in `stock` with 16 variables, then one more of either.
#[test]
fn one_too_many() {
    let (sheet, data) = depot();
    let lookups = |pairs: &[(char, char)]| -> String {
        let each = pairs.iter().map(|(a, b)| format!(" stock({a} {b})"));
        each.fold(":".to_string(), |line, lookup| line + &lookup)
    };
    let letters: Vec<char> = ('a'..='q').collect();
    let mut pairs: Vec<(char, char)> = (0..8).map(|i| (letters[i], letters[i + 8])).collect();
    let line = lookups(&pairs);
    assert!(Typed::new(&sheet, NAMES, &line).read().is_ok());
    pairs.push(('q', 'a'));
    for (line, name) in [
        (lookups(&pairs), "q"),
        (lookups(&[('a', 'b'); 13]), "stock"),
    ] {
        let typed = Typed::new(&sheet, NAMES, &line);
        let refusal = typed.read().unwrap_err();
        assert_eq!((refusal.number, typed.part(refusal)), (24, name));
        let sentence = format!(
            "`{name}`, at byte {}, is the 17th variable or begins the 13th look-up.",
            refusal.detail
        );
        assert_eq!(explain::typed(refusal, &typed, &data), sentence);
    }
    let line = lookups(&[('a', 'b'); 12]);
    assert_eq!(
        Typed::new(&sheet, NAMES, &line)
            .read()
            .unwrap()
            .lookups
            .len(),
        12
    );
}

#[test]
fn faults_before_the_line() {
    let (sheet, data) = depot();
    let second_line = refused(31, 0);
    let others = [
        "",
        "stock",
        "stock state",
        "stock state carrier ",
        " stock state carrier",
        "stock  state carrier",
        "stock state stock",
        "stock state carrier more",
        "Stock state carrier",
        "abcdefghijklm b c",
        "a b 1",
    ];
    for names in others {
        let typed = Typed::new(&sheet, names, "?");
        assert_eq!(typed.read(), Err(second_line), "{names}");
        assert_eq!(
            (typed.place(second_line), typed.part(second_line)),
            (0..0, "")
        );
        let sentence = "The second line is not one name for each register.";
        assert_eq!(explain::typed(second_line, &typed, &data), sentence);
    }
    // the sheet's own come first, with the sentences that they have there
    let cut = refused(2, 142);
    let typed = Typed::new(&sheet[..18], "", "?");
    assert_eq!((typed.read(), typed.check_route()), (Err(cut), Err(cut)));
    assert_eq!(
        explain::typed(cut, &typed, &data),
        explain::refusal(cut, &sheet[..18], &data)
    );
}

#[test]
fn refusals_behind_the_line() {
    let (sheet, data) = depot();
    let no_route = Typed::new(&sheet, NAMES, ": state(machine cond) stock(depot machine)");
    let refusal = refused(4, 3);
    assert_eq!(no_route.check_route(), Err(refusal));
    assert_eq!(no_route.answer(&[0, 0, 0]), Err(refusal));
    assert!(explain::typed(refusal, &no_route, &data)
        .starts_with("No order of the look-ups is a route: "));
    let typed = Typed::new(&sheet, NAMES, LINE);
    assert_eq!(typed.answer(&[0, 0]), Err(refused(3, 0)));
    let sentence = "The row data ends early: register 2 has no row count.";
    assert_eq!(explain::typed(refused(3, 0), &typed, &[0; 8]), sentence);
    // a refusal that it does not have
    let none = "The lines are not those that were refused.";
    assert_eq!(
        explain::typed(refused(22, 2), &Typed::new(&sheet, NAMES, ""), &data),
        none
    );
}

#[test]
fn parts_of_any_numbers() {
    let line = LINE.as_bytes();
    for number in 20..=25 {
        assert_eq!(faulty_name(line, number, 37), 37..44);
        assert_eq!(
            faulty_name(line, number, 38),
            38..44,
            "from within a name on"
        );
        assert_eq!(faulty_name(line, number, 5), 5..5);
        assert_eq!(
            faulty_name(line, number, line.len()),
            line.len()..line.len()
        );
        assert_eq!(faulty_name(line, number, line.len() + 1), 0..0);
        assert_eq!(faulty_name(line, number, Detail::MAX), 0..0);
    }
    for number in [0, 1, 12, 19, 26, 31, 256 + 22, u32::MAX] {
        assert_eq!(faulty_name(line, number, 37), 0..0, "{number}");
    }
    assert_eq!(faulty_name(b"", 21, 0), 0..0);
}

#[test]
fn too_few_places() {
    let (sheet, _) = depot();
    let (names, line) = (NAMES.as_bytes(), LINE.as_bytes());
    let mut out = vec![7; SHEET_PLACES - 1];
    assert_eq!(linked::read_typed(&sheet, names, line, &mut out), NO_ROOM);
    let (mut first, mut second) = (vec![7; TABLE], vec![7; TABLE]);
    let short = &mut out[..PLACES - 1];
    let number = linked::answer_typed(&sheet, names, line, &[], &mut first, &mut second, short);
    assert_eq!(number, NO_ROOM);
    assert!(out.iter().all(|place| *place == 7));
    assert!(first.iter().chain(&second).all(|word| *word == 7));
}
