//! Typed requests: the line, token by token, the second line, the part that is handed back, and the
//! answer.

use second::examples::{depot, long_line, longest, made, none, typed_depot};
use second::made_up::small;
use second::sheet::{read, Fault, Request};
use second::typed::{answer_typed, by_appearance, check_typed, part, read_typed, tokens};
use second::typed::{in_words, written, written_names, Kind, Typed};
use second::{answer, check_route, tables, write};

/// The depot sheet: stock, state and carrier, two columns each.
const NAMES: &str = "stock state carrier";

/// The depot case with another line.
fn typed(line: impl AsRef<[u8]>) -> Typed {
    Typed {
        line: line.as_ref().to_vec(),
        ..typed_depot()
    }
}

/// What a typed request is read as.
fn reading(typed: &Typed) -> Result<Request, Fault> {
    read_typed(&typed.sheet, &typed.names, &typed.line)
}

/// Number and detail of a line that is refused, and the part that is handed back, as it stands in the
/// line. The answer and the route check tell the same, whatever the row data; short tables come first.
fn refused(line: impl AsRef<[u8]>) -> (u32, usize, String) {
    let typed = typed(line);
    let Fault { number, detail } = reading(&typed).expect_err("a line with a fault");
    assert_eq!(check_typed(&typed), (number, detail));
    for words in [&[][..], &[513], &[0; 3], &[0; 16_385]] {
        let got = answer_typed(&typed, words, 8_192, 8_192);
        assert_eq!((got.number, got.detail), (number, detail));
    }
    assert_eq!(answer_typed(&typed, &[], 8_191, 8_192).number, 1);
    assert_eq!(answer_typed(&typed, &[], 8_192, 8_191).number, 1);
    let detail = detail as usize;
    let (place, length) = part(&typed.line, number, detail);
    let handed_back = String::from_utf8(typed.line[place..place + length].to_vec());
    (number, detail, handed_back.expect("letters"))
}

/// Checks number, detail and part of each line.
fn each(lines: &[(&str, u32, usize, &str)]) {
    for (line, number, detail, name) in lines {
        let told = (*number, *detail, name.to_string());
        assert_eq!(refused(line), told, "{line:?}");
    }
}

/// The givens and the look-ups of a line that is read: each look-up as its register and variables.
fn said(line: &str) -> (Vec<Option<u32>>, Vec<Vec<usize>>) {
    let request = reading(&typed(line)).expect(line);
    assert_eq!(request.registers, depot().request.registers);
    let lookups = request.lookups.into_iter();
    let lookups = lookups.map(|lookup| [vec![lookup.register], lookup.variables].concat());
    (request.givens, lookups.collect())
}

#[test]
fn the_depot_case() {
    let typed = typed_depot();
    assert_eq!(typed.names, NAMES.as_bytes());
    let (givens, lookups) = said(std::str::from_utf8(&typed.line).unwrap());
    assert_eq!(givens, [Some(7), Some(1), None, None]);
    assert_eq!(lookups, [[1, 2, 1], [2, 2, 3], [0, 0, 2]]);
    let words = write::words(&depot().rows);
    let got = answer_typed(&typed, &words, 8_192, 8_192);
    let first = [&[7, 1, 101, 51][..], &[0; 12]].concat();
    let second = [&[7, 1, 103, 52][..], &[0; 12]].concat();
    assert_eq!(
        got.rows.iter().flatten().copied().collect::<Vec<_>>(),
        [first, second].concat()
    );
    assert_eq!((got.number, got.calls), (0, 6));
    assert_eq!(check_typed(&typed), (0, 0));
    let mut lent = [vec![9; 8_192], vec![9; 8_192]];
    let [one, two] = &mut lent;
    tables(&got, one, two);
    assert_eq!(one[..5], [7, 1, 101, 51, 0]);
}

/// The tokens of a line run as far as they can.
#[test]
fn tokens_are_the_longest() {
    let line = b"ab12c=007 (A)\xff:";
    let kinds: Vec<(Kind, usize, &[u8])> = tokens(line)
        .iter()
        .map(|token| (token.kind, token.at, token.text))
        .collect();
    let mark = |mark| Kind::Mark(mark);
    let expected: [(Kind, usize, &[u8]); 12] = [
        (Kind::Name, 0, b"ab"),
        (Kind::Number, 2, b"12"),
        (Kind::Name, 4, b"c"),
        (mark(b'='), 5, b"="),
        (Kind::Number, 6, b"007"),
        (mark(b' '), 9, b" "),
        (mark(b'('), 10, b"("),
        (Kind::Other, 11, b"A"),
        (mark(b')'), 12, b")"),
        (Kind::Other, 13, b"\xff"),
        (mark(b':'), 14, b":"),
        (Kind::End, 15, b""),
    ];
    assert_eq!(kinds, expected);
    assert_eq!(tokens(b"").len(), 1);
}

/// Every byte alone, and every byte behind a name: just the tokens' bytes are tokens.
#[test]
fn every_byte_has_its_token() {
    for byte in 0..=255_u8 {
        let kind = match byte {
            97..=122 => Kind::Name,
            48..=57 => Kind::Number,
            32 | 40 | 41 | 58 | 61 => Kind::Mark(byte),
            _ => Kind::Other,
        };
        assert_eq!(tokens(&[byte])[0].kind, kind, "{byte}");
        let (number, detail) = match kind {
            Kind::Other => (20, 0),
            Kind::Name => (21, 1),
            Kind::Mark(b':') => (21, 1),
            _ => (21, 0),
        };
        let told = refused([byte]);
        assert_eq!((told.0, told.1), (number, detail), "{byte}");
        let told = refused([&b": stock(a b)"[..], &[byte]].concat());
        let (number, detail) = match kind {
            Kind::Other => (20, 12),
            Kind::Mark(b' ') => (21, 13),
            _ => (21, 12),
        };
        assert_eq!((told.0, told.1), (number, detail), "{byte}");
    }
}

#[test]
fn lines_that_end_early_or_late() {
    each(&[
        ("", 21, 0, ""),
        (":", 21, 1, ""),
        (": ", 21, 2, ""),
        ("x", 21, 1, ""),
        ("x=", 21, 2, ""),
        ("x=7", 21, 3, ""),
        ("x=7 ", 21, 4, ""),
        ("x=7 :", 21, 5, ""),
        ("x=7 : ", 21, 6, ""),
        (": stock", 21, 7, ""),
        (": stock(", 21, 8, ""),
        (": stock(a", 21, 9, ""),
        (": stock(a ", 21, 10, ""),
        (": stock(a b", 21, 11, ""),
        (": stock(a b) ", 21, 13, ""),
        (": stock(a b) state", 21, 18, ""),
        (": stock(a b)x", 21, 12, "x"),
        (": stock(a b)\n", 20, 12, ""),
        ("x=1 : stock(x b) ", 21, 17, ""),
    ]);
    // Cut anywhere but behind a look-up, the depot line ends early or names no register.
    let line = typed_depot().line;
    for length in 0..line.len() {
        let cut = &line[..length];
        if cut.ends_with(b")") {
            assert!(reading(&typed(cut)).is_ok(), "{length}");
        } else {
            assert!([21, 22].contains(&refused(cut).0), "{length}");
        }
    }
}

#[test]
fn tokens_out_of_place() {
    each(&[
        (":stock(a b)", 21, 1, "stock"),
        ("x=1: stock(x b)", 21, 3, ""),
        ("x=1  : stock(x b)", 21, 4, ""),
        (" : stock(a b)", 21, 0, ""),
        (":  stock(a b)", 21, 2, ""),
        (": stock(a  b)", 21, 10, ""),
        (": stock(a b )", 21, 12, ""),
        (": stock( a b)", 21, 8, ""),
        (": stock (a b)", 21, 7, ""),
        (": stock()", 21, 8, ""),
        (": stock(a b)state(a b)", 21, 12, "state"),
        (": stock(a b)  state(a b)", 21, 13, ""),
        (": stock(a b) : ", 21, 13, ""),
        ("x=7y=8 : stock(x y)", 21, 3, "y"),
        ("x =7 : stock(x y)", 21, 1, ""),
        ("x= 7 : stock(x y)", 21, 2, ""),
        ("x=y : stock(x y)", 21, 2, "y"),
        ("7=x : stock(x y)", 21, 0, ""),
        ("x=1 y : stock(x y)", 21, 5, ""),
        ("x=7 : stock(y=8 b)", 21, 13, ""),
        (": stock(a 7)", 21, 10, ""),
        (": stock(a 0)", 21, 10, ""),
        (": stock(a 99999999999)", 21, 10, ""),
        (": stock((a b))", 21, 8, ""),
        (": stock a b", 21, 7, ""),
        ("stock(a b)", 21, 5, ""),
        ("0", 21, 0, ""),
        (":kkkkkkkkkkkkk", 21, 1, "kkkkkkkkkkkkk"),
    ]);
}

#[test]
fn other_bytes_and_leading_zeros() {
    each(&[
        ("X=1", 20, 0, ""),
        ("x=-1 : stock(x b)", 20, 2, ""),
        ("x=007 : stock(x b)", 20, 2, ""),
        ("x=04294967296 : stock(x b)", 20, 2, ""),
        (": stock(a 07)", 20, 10, ""),
        (": stock(a 00)", 20, 10, ""),
        ("00", 20, 0, ""),
        ("x=1 01", 20, 4, ""),
        (": stock(a\tb)", 20, 9, ""),
        (": stock(a,b)", 20, 9, ""),
        (": stock(a b)\0", 20, 12, ""),
        ("x=1_000 : stock(x b)", 20, 3, ""),
        ("é=1 : stock(x b)", 20, 0, ""),
    ]);
}

#[test]
fn registers_and_columns() {
    each(&[
        (": stocK(a b)", 22, 2, "stoc"),
        (": stick(a b)", 22, 2, "stick"),
        (": stockk(a b)", 22, 2, "stockk"),
        (": stoc(a b)", 22, 2, "stoc"),
        (": kkkkkkkkkkkkk(a b)", 22, 2, "kkkkkkkkkkkkk"),
        ("x=1 : stock(x b) x=2", 22, 17, "x"),
        (": depot", 22, 2, "depot"),
        (": stock(a)", 23, 9, ""),
        (": stock(a b c)", 23, 13, ""),
        (": stock(a a a a a a a a)", 23, 23, ""),
        (": stock(a b) state(a)", 23, 20, ""),
        (": stock(a b c d e f g h i j k l m n o p)", 23, 39, ""),
        (": stock(a b c d e f g h i j k l m n o p q)", 24, 40, "q"),
        (": stock(a b c", 21, 13, ""),
    ]);
}

#[test]
fn what_is_over_a_limit() {
    each(&[
        ("x=4294967296 : stock(x b)", 24, 2, ""),
        ("x=9999999999 : stock(x b)", 24, 2, ""),
        ("x=18446744073709551617 : stock(x b)", 24, 2, ""),
        (
            "x=340282366920938463463374607431768211457 : stock(x b)",
            24,
            2,
            "",
        ),
        (": stock(kkkkkkkkkkkkk b)", 24, 8, "kkkkkkkkkkkkk"),
        ("kkkkkkkkkkkkk=1 : stock(a b)", 24, 0, "kkkkkkkkkkkkk"),
        ("kkkkkkkkkkkkk", 24, 0, "kkkkkkkkkkkkk"),
    ]);
    assert_eq!(said("x=4294967295 : stock(x b)").0, [Some(u32::MAX), None]);
    assert_eq!(said(": stock(kkkkkkkkkkkk b)").0, [None, None]);
    let long = format!("x={} : stock(x b)", "9".repeat(500));
    assert_eq!(refused(long), (24, 2, String::new()));
    let sixteen: String = ('a'..='p').map(|name| format!("{name}=1 ")).collect();
    assert_eq!(said(&format!("{sixteen}: stock(a b)")).0, [Some(1); 16]);
    each(&[
        (&format!("{sixteen}q=1 : stock(a b)"), 24, 64, "q"),
        (&format!("{sixteen}q"), 24, 64, "q"),
        (&format!("{sixteen}a=1 : stock(a b)"), 25, 64, "a"),
        (&format!("{sixteen}: stock(a q)"), 24, 74, "q"),
    ]);
    let twelve = format!(":{}", " stock(a b)".repeat(12));
    assert_eq!(said(&twelve).1, vec![[0, 0, 1]; 12]);
    each(&[
        (&format!("{twelve} stock(a b)"), 24, 134, "stock"),
        (&format!("{twelve} stock"), 24, 134, "stock"),
        (&format!("{twelve} stick(a b)"), 22, 134, "stick"),
        (&format!("{twelve} kkkkkkkkkkkkk"), 22, 134, "kkkkkkkkkkkkk"),
        (&format!("{twelve} "), 21, 134, ""),
    ]);
}

#[test]
fn given_twice_and_given_0() {
    each(&[
        ("x=1 x: stock(x b)", 25, 4, "x"),
        ("x=1 x=1 : stock(x b)", 25, 4, "x"),
        ("x=1 xA=2 : stock(x b)", 25, 4, "x"),
        ("x=1 x", 25, 4, "x"),
        ("x=1 y=2 x=3 : stock(x y)", 25, 8, "x"),
        ("x=1 x=0 : stock(x b)", 25, 4, "x"),
        ("x=0 : stock(x b)", 12, 2, ""),
        ("x=00 : stock(x b)", 12, 2, ""),
        ("x=0000000000000 : stock(x b)", 12, 2, ""),
        ("x=0y : stock(x b)", 12, 2, ""),
        ("x=0", 12, 2, ""),
        ("x=0 x=1 : stock(x b)", 12, 2, ""),
    ]);
    assert_eq!(said("x=10 xx=1 : stock(x b)").0, [Some(10), Some(1), None]);
}

/// A variable may be named as a register is, and names may begin alike.
#[test]
fn names_stand_for_themselves() {
    let (givens, lookups) = said("state=3 : stock(stock state) carrier(stat stock)");
    assert_eq!(givens, [Some(3), None, None]);
    assert_eq!(lookups, [[0, 1, 0], [2, 2, 1]]);
    let (_, lookups) = said(": stock(ab a) stock(a abc)");
    assert_eq!(lookups, [[0, 0, 1], [0, 1, 2]]);
    let (givens, lookups) = said("lone=5 : carrier(a a)");
    assert_eq!(
        (givens, lookups),
        (vec![Some(5), None], vec![vec![2, 1, 1]])
    );
}

/// Second lines that are not three different names with one space between.
const WRONG_NAMES: [&str; 18] = [
    "",
    " ",
    "stock state",
    "stock state carrier ",
    " stock state carrier",
    "stock  state carrier",
    "stock state carrier more",
    "stock state state",
    "stock stock carrier",
    "stock state Carrier",
    "stock state carrier\n",
    "stock\tstate carrier",
    "stock state kkkkkkkkkkkkk",
    "stock state carrier1",
    "stock state 1",
    "stock state carrié",
    "stock,state,carrier",
    "stock state(carrier",
];

/// 31 comes before any fault of the line, with detail 0 and no part.
#[test]
fn the_second_line() {
    let told = |names: &[u8], line: &[u8]| {
        let read = read_typed(&typed_depot().sheet, names, line);
        read.map_or_else(|fault| (fault.number, fault.detail), |_| (0, 0))
    };
    let line = typed_depot().line;
    for names in WRONG_NAMES {
        for line in [&line[..], b"", b"x=0", b"X", b": stick(a b)", b"stock"] {
            assert_eq!(told(names.as_bytes(), line), (31, 0), "{names:?}");
            assert_eq!(part(line, 31, 0), (0, 0));
        }
    }
    assert_eq!(told(NAMES.as_bytes(), &line), (0, 0));
    assert_eq!(told(b"stock state kkkkkkkkkkkk", &line), (22, 37));
    assert_eq!(told(b"c b a", b": a(x y) c(y x)"), (0, 0));
}

/// The sheet's own refusals come first, with their own details.
#[test]
fn the_sheet_comes_first() {
    let sheet = typed_depot().sheet;
    let mut zero = sheet.clone();
    zero[9] = 0;
    let longer = [&sheet[..], &[0]].concat();
    let broken: [(&[u8], u32, u32); 5] = [
        (&[], 2, 0),
        (&[0x40], 7, 0),
        (&sheet[..18], 2, 142),
        (&longer, 11, 152),
        (&zero, 12, 46),
    ];
    for (sheet, number, detail) in broken {
        for names in ["", NAMES, "stock stock stock"] {
            for line in [typed_depot().line, b"X".to_vec(), vec![b'a'; 200]] {
                let fault = read_typed(sheet, names.as_bytes(), &line).unwrap_err();
                assert_eq!((fault.number, fault.detail), (number, detail));
                assert_eq!(part(&line, number, detail as usize), (0, 0));
            }
        }
    }
}

/// A part is handed back for 20 to 25 alone, where a name begins.
#[test]
fn the_part_that_is_handed_back() {
    let line = b"stock state(ab) ";
    for number in 0..40 {
        let own = (20..=25).contains(&number);
        let expected = |place, length| if own { (place, length) } else { (0, 0) };
        assert_eq!(part(line, number, 0), expected(0, 5));
        assert_eq!(part(line, number, 5), expected(5, 0));
        assert_eq!(part(line, number, 6), expected(6, 5));
        assert_eq!(part(line, number, 12), expected(12, 2));
        assert_eq!(part(line, number, 14), expected(14, 0));
        assert_eq!(part(line, number, 16), expected(16, 0));
        assert_eq!(part(line, number, 17), (0, 0));
        assert_eq!(part(line, number, usize::MAX), (0, 0));
        assert_eq!(part(b"", number, 0), (0, 0));
    }
}

/// So many names, each of which begins with the one before it or another.
fn names(first: char, count: usize) -> Vec<String> {
    let letters = "abcdefghijk";
    let name = |place: usize| match place {
        0..=11 => format!("{first}{}", &letters[..place]),
        _ => format!("{first}{}z", &letters[..place - 11]),
    };
    (0..count).map(name).collect()
}

/// What is written is read as the same request, with its variables numbered by first appearance; and
/// its answer is that of the sheet that says so.
#[test]
fn a_written_line_reads_back() {
    let mut requests = vec![depot().request, longest().request];
    requests.extend((0..400).map(|seed| small(seed).request));
    for request in requests {
        let registers = names('r', request.registers.len());
        let variables = names('v', request.givens.len());
        let typed = Typed {
            sheet: write::sheet(&request),
            names: written_names(&registers),
            line: written(&request, &registers, &variables),
        };
        let same = by_appearance(&request);
        assert_eq!(reading(&typed), Ok(same.clone()));
        assert_eq!(by_appearance(&same), same);
        assert_eq!(check_typed(&typed), check_route(&write::sheet(&same)));
    }
}

/// The answer is what the sheet of the same request gives, whatever else the lent sheet says.
#[test]
fn the_answer_is_that_of_the_same_sheet() {
    for seed in 0..300 {
        let made = small(seed);
        let words = write::words(&made.rows);
        let registers = names('r', made.request.registers.len());
        let variables = names('v', made.request.givens.len());
        let mut lent = made.request.clone();
        lent.givens = vec![Some(9); 5];
        lent.lookups.truncate(1);
        lent.lookups[0].variables.fill(4);
        let typed = Typed {
            sheet: write::sheet(&lent),
            names: written_names(&registers),
            line: written(&made.request, &registers, &variables),
        };
        let same = write::sheet(&by_appearance(&made.request));
        for (words, table) in [(&words[..], 8_192), (&words[1..], 8_192), (&words, 8_191)] {
            let theirs = answer(&same, words, table, 8_192);
            assert_eq!(answer_typed(&typed, words, table, 8_192), theirs);
        }
    }
}

/// 3, 4 and 5 come behind the line's faults, as for a sheet.
#[test]
fn what_follows_a_sound_line() {
    let apart = made(
        &["A f", "B f", "C b"],
        "a b",
        &["A(a)", "B(b)"],
        &[none(), none(), none()],
    );
    let typed = |line: &str| Typed {
        sheet: write::sheet(&apart.request),
        names: b"a b c".to_vec(),
        line: line.into(),
    };
    let twenty: Vec<u32> = (1..=23).collect();
    let words = [&[23][..], &twenty, &[23], &twenty, &[0]].concat();
    let told = |line: &str, words: &[u32]| {
        let got = answer_typed(&typed(line), words, 8_192, 8_192);
        (got.number, got.detail)
    };
    assert_eq!(told(": a(x) b(y)", &words), (5, 2));
    assert_eq!(told(": a(x) b(y) c(z)", &words), (4, 4));
    assert_eq!(told(": a(x) b(y) c(z)", &words[1..]), (3, 0));
    assert_eq!(told(": a(x) b(y) c()", &words[1..]), (21, 14));
    assert_eq!(told("z=3 : a(x) b(y) c(z)", &words), (5, 2));
    assert_eq!(check_typed(&typed(": c(z) a(x) c(x)")), (4, 1));
    assert_eq!(check_typed(&typed(": c(z) a(x) c(y)")), (4, 5));
    assert_eq!(check_typed(&typed("z=3 : c(z)")), (0, 0));
}

/// Typed requests as lines of expected results have them.
#[test]
fn a_typed_request_in_words() {
    let depot =
        "sheet=2666864321a80000001c0000000444884c0040 names=73746f636b2073746174652063617272696572";
    let words = in_words(&typed_depot());
    assert!(words.starts_with(&format!("{depot} line=6465706f743d3720636f6e643d31203a20")));
    let said = " number=0 detail=0 part=- variables=4 given=0,7;1,1 lookups=1,2,1;2,2,3;0,0,2";
    assert!(words.ends_with(said), "{words}");
    let nothing = "variables=0 given=- lookups=-";
    for (line, told) in [
        ("", "line=- number=21 detail=0 part=-"),
        (":x", "line=3a78 number=21 detail=1 part=1,1"),
        ("x=0", "line=783d30 number=12 detail=2 part=-"),
    ] {
        let words = in_words(&typed(line));
        assert_eq!(words, format!("{depot} {told} {nothing}"));
    }
}

/// The long line for timing says what its sheet says.
#[test]
fn the_long_line() {
    let typed = long_line();
    assert_eq!(typed.line.len(), 300);
    let request = read(&typed.sheet).unwrap();
    assert_eq!(request.lookups.len(), 12);
    assert_eq!((request.registers.len(), request.givens.len()), (10, 14));
    assert_eq!(reading(&typed), Ok(by_appearance(&request)));
    assert_eq!(check_typed(&typed), (0, 0));
}
