//! The examples of docs/RULES.md, by calls of the library.

use second::examples::{self, chain_of_four, depot, from, made, none, product, rows};
use second::made_up::Made;
use second::{answer, check_route, count, route_steps, tables, write, Answer, Prices, Step};

/// The depot sheet, as §8.1 has it.
const DEPOT_SHEET: [u8; 19] = [
    0x26, 0x66, 0x86, 0x43, 0x21, 0xA8, 0x00, 0x00, 0x00, 0x1C, 0x00, 0x00, 0x00, 0x04, 0x44, 0x88,
    0x4C, 0x00, 0x40,
];

/// The depot data, as §8.1 has it.
const DEPOT_WORDS: [u32; 23] = [
    4, 7, 101, 7, 102, 7, 103, 8, 104, 4, 101, 1, 102, 2, 103, 1, 104, 1, 2, 101, 51, 103, 52,
];

/// A step where calls alone are charged.
fn step(lookup: usize, rule: usize, calls: u64, rows: u64, sent: u64) -> Step {
    Step {
        lookup,
        rule,
        calls,
        rows,
        sent,
        charge: calls,
    }
}

/// A list row that begins with these values.
fn row(values: &[u32]) -> [u32; 16] {
    let mut row = [0; 16];
    row[..values.len()].copy_from_slice(values);
    row
}

/// The answer over tables of 8,192 words.
fn ask(made: &Made) -> Answer {
    answer(
        &write::sheet(&made.request),
        &write::words(&made.rows),
        8_192,
        8_192,
    )
}

fn check(made: &Made) -> (u32, u32) {
    check_route(&write::sheet(&made.request))
}

/// The number and detail of a refusal, of which all else is zero.
fn refusal(answer: &Answer) -> (u32, u32) {
    assert_ne!(answer.number, 0, "answered");
    assert_eq!(answer.steps, []);
    assert_eq!(answer.rows.len(), 0);
    assert_eq!((answer.calls, answer.charge), (0, 0));
    (answer.number, answer.detail)
}

/// Both tables after this answer, from tables of this length filled with 4,294,967,295.
fn after(answer: &Answer, length: usize) -> (Vec<u32>, Vec<u32>) {
    let mut first = vec![u32::MAX; length];
    let mut second = vec![u32::MAX; length];
    tables(answer, &mut first, &mut second);
    (first, second)
}

/// Zeros up to word 8,192 with these rows at the start, then 4,294,967,295 up to this length.
fn table(rows: &[[u32; 16]], length: usize) -> Vec<u32> {
    let mut table: Vec<u32> = rows.iter().flatten().copied().collect();
    table.resize(8_192, 0);
    table.resize(length, u32::MAX);
    table
}

fn depot_answer() -> Answer {
    Answer {
        number: 0,
        detail: 0,
        steps: vec![
            step(2, 0, 1, 3, 3),
            step(0, 0, 3, 2, 3),
            step(1, 0, 2, 2, 2),
        ],
        calls: 6,
        charge: 6,
        rows: vec![row(&[7, 101, 1, 51]), row(&[7, 103, 1, 52])],
        variables: 4,
    }
}

#[test]
fn the_depot_files_are_those_of_the_document() {
    assert_eq!(write::sheet(&depot().request), DEPOT_SHEET);
    assert_eq!(write::words(&depot().rows), DEPOT_WORDS);
    assert_eq!(write::written(&depot().request).bits.len(), 146);
    assert_eq!(
        second::sheet::read(&DEPOT_SHEET),
        Ok(depot().request),
        "the sheet reads back"
    );
}

#[test]
fn the_depot_case() {
    let got = answer(&DEPOT_SHEET, &DEPOT_WORDS, 8_192, 8_192);
    assert_eq!(got, depot_answer());
    assert_eq!(check_route(&DEPOT_SHEET), (0, 0));
}

#[test]
fn depot_prints_in_full() {
    let text = second::run_files(&DEPOT_SHEET, &write::bytes(&DEPOT_WORDS));
    assert_eq!(
        text,
        "step 1 lookup 2 rule 0 calls 1 rows 3\n\
         step 2 lookup 0 rule 0 calls 3 rows 2\n\
         step 3 lookup 1 rule 0 calls 2 rows 2\n\
         calls 6\n\
         row 7 101 1 51\n\
         row 7 103 1 52\n"
    );
}

#[test]
fn depot_with_a_row_twice() {
    let mut twice = depot();
    twice.rows[0].push(vec![7, 101]);
    let got = ask(&twice);
    assert_eq!(got, depot_answer());
    let (first, _) = after(&got, 8_192);
    assert_eq!(count(&first, got.rows.len(), 1), (0, 2));
}

#[test]
fn depot_given_9() {
    let mut nine = depot();
    nine.request.givens[0] = Some(9);
    let got = ask(&nine);
    assert_eq!((got.number, got.detail), (0, 0));
    assert_eq!(
        got.steps,
        [
            step(2, 0, 1, 0, 0),
            step(0, 0, 0, 0, 0),
            step(1, 0, 0, 0, 0)
        ]
    );
    assert_eq!(got.calls, 1);
    assert_eq!(got.rows.len(), 0);
    assert_eq!(
        after(&got, 8_192),
        (table(&[], 8_192), table(&[], 8_192)),
        "both tables are zeros"
    );
}

#[test]
fn depot_with_a_broken_end() {
    let mut sheet = DEPOT_SHEET.to_vec();
    sheet[18] = 0x41;
    let told = |sheet: &[u8]| {
        let told = refusal(&answer(sheet, &DEPOT_WORDS, 8_192, 8_192));
        assert_eq!(check_route(sheet), told);
        told
    };
    assert_eq!(told(&sheet), (11, 146));
    let mut sheet = DEPOT_SHEET.to_vec();
    sheet.push(0);
    assert_eq!(told(&sheet), (11, 152));
}

#[test]
fn table_2() {
    let request = examples::table_2();
    let got = ask(&request);
    assert_eq!(
        got.steps,
        [
            step(0, 0, 1, 100, 100),
            step(1, 0, 1, 100, 1),
            step(3, 0, 1, 1, 1),
            step(2, 0, 1, 0, 0)
        ]
    );
    assert_eq!((got.number, got.calls, got.rows.len()), (0, 4, 0));
    // The CHAIN paper counts 10,003 for R, S, T, U over 10,000 rows; here there are 100.
    let sheet = write::sheet(&request.request);
    let words = write::words(&request.rows);
    let picks = [(0, 0), (1, 0), (2, 0), (3, 0)];
    let other = route_steps(&sheet, &words, Prices::CALLS, &picks).unwrap();
    assert_eq!(
        other.iter().map(|step| step.calls).collect::<Vec<_>>(),
        [1, 1, 100, 1]
    );
}

#[test]
fn a_then_b_reaches_the_factor() {
    let request = made(
        &["A f", "B f"],
        "v",
        &["A(v)", "B(v)"],
        &[rows(&[[1]]), none()],
    );
    let got = ask(&request);
    assert_eq!(got.steps, [step(0, 0, 1, 1, 1), step(1, 0, 1, 0, 0)]);
    assert_eq!((got.number, got.calls), (0, 2));
    let sheet = write::sheet(&request.request);
    let words = write::words(&request.rows);
    let other = route_steps(&sheet, &words, Prices::CALLS, &[(1, 0), (0, 0)]).unwrap();
    assert_eq!(other, [step(1, 0, 1, 0, 0), step(0, 0, 0, 0, 0)]);
}

#[test]
fn repeated_variable() {
    let got = ask(&made(
        &["R ff"],
        "v",
        &["R(v v)"],
        &[rows(&[[1, 1], [1, 2]])],
    ));
    assert_eq!(got.rows, [row(&[1])]);
    assert_eq!(got.steps, [step(0, 0, 1, 1, 2)]);
}

#[test]
fn example_2_3() {
    let given = chain_of_four("x0=10 x1 x2 x3 x4=50");
    assert_eq!(check(&given), (0, 0));
    assert_eq!(ask(&given).number, 0);
    let nothing = chain_of_four("x0 x1 x2 x3 x4");
    assert_eq!(check(&nothing), (4, 15));
    assert_eq!(refusal(&ask(&nothing)), (4, 15));
}

#[test]
fn example_3_1() {
    let open = made(
        &["R ff", "S bf fb", "T fb bf"],
        "x y z w",
        &["R(x y)", "S(y z)", "T(z w)"],
        &[rows(&[[1, 2]]), rows(&[[2, 5]]), rows(&[[5, 9]])],
    );
    assert_eq!(check(&open), (0, 0));
    let got = ask(&open);
    assert_eq!(got.rows, [row(&[1, 2, 5, 9])]);
    assert_eq!(
        got.steps,
        [
            step(0, 0, 1, 1, 1),
            step(1, 0, 1, 1, 1),
            step(2, 1, 1, 1, 1)
        ]
    );
    let without = made(
        &["S bf fb", "T fb bf"],
        "y z w",
        &["S(y z)", "T(z w)"],
        &[rows(&[[2, 5]]), rows(&[[5, 9]])],
    );
    assert_eq!(check(&without), (4, 3));
    assert_eq!(refusal(&ask(&without)), (4, 3));
}

#[test]
fn lists_of_512_and_529_rows() {
    let got = ask(&product(16, 32));
    assert_eq!((got.number, got.rows.len()), (0, 512));
    assert_eq!(got.steps, [step(0, 0, 1, 16, 16), step(1, 0, 1, 512, 32)]);
    assert_eq!(got.rows[0], row(&[1, 1]));
    assert_eq!(got.rows[32], row(&[2, 1]));
    assert_eq!(got.rows[511], row(&[16, 32]));
    let (first, second) = after(&got, 8_192);
    assert_eq!(first, table(&got.rows, 8_192), "no zero is left to write");
    assert_eq!(second, table(&[], 8_192));
    assert_eq!(refusal(&ask(&product(23, 23))), (5, 2));
}

#[test]
fn row_counts_of_512_and_513() {
    let register = |count| made(&["A f"], "v", &["A(v)"], &[from(1, count)]);
    let got = ask(&register(512));
    assert_eq!((got.number, got.rows.len()), (0, 512));
    assert_eq!(refusal(&ask(&register(513))), (3, 0));
}

#[test]
fn tables_of_8191_8192_and_8200_words() {
    let (sheet, words) = (&DEPOT_SHEET, &DEPOT_WORDS);
    for (first, second) in [
        (8_191, 8_192),
        (8_192, 8_191),
        (8_191, 8_191),
        (0, 0),
        (0, 9_000),
    ] {
        let got = answer(sheet, words, first, second);
        assert_eq!(refusal(&got), (1, 0), "tables of {first} and {second}");
    }
    for (first, second) in [(8_192, 8_192), (8_200, 8_192), (8_192, 8_200)] {
        assert_eq!(answer(sheet, words, first, second), depot_answer());
    }
    // Refusal 1 comes before all others.
    assert_eq!(refusal(&answer(&[], &[], 8_191, 8_192)), (1, 0));
}

#[test]
fn tables_after_an_answer() {
    let got = depot_answer();
    for length in [8_192, 8_200] {
        let (first, second) = after(&got, length);
        assert_eq!(first, table(&got.rows, length));
        assert_eq!(second, table(&[], length));
    }
}

#[test]
fn tables_after_a_refusal() {
    let sheets = [
        (2, 142),
        (7, 0),
        (8, 3),
        (9, 118),
        (10, 1),
        (11, 146),
        (12, 46),
    ];
    for (number, detail) in [(1, 0), (3, 0), (4, 15)].into_iter().chain(sheets) {
        let (first, second) = after(&Answer::refused(number, detail), 8_200);
        assert_eq!(first, vec![u32::MAX; 8_200], "number {number}");
        assert_eq!(second, vec![u32::MAX; 8_200], "number {number}");
    }
    let over = ask(&product(23, 23));
    let (first, second) = after(&over, 8_200);
    assert_eq!(first, table(&[], 8_200));
    assert_eq!(second, table(&[], 8_200));
}

/// The count over a table whose row i holds i in variable 0, 7 in variable 14 and
/// i halved in variable 15.
#[test]
fn the_count_and_its_edges() {
    let mut words = Vec::new();
    for i in 0..512 {
        let mut row = [0; 16];
        (row[0], row[14], row[15]) = (i, 7, i / 2);
        words.extend(row);
    }
    assert_eq!(count(&words, 512, 0), (0, 511), "all but 0");
    assert_eq!(count(&words, 512, 1), (0, 0), "zeros alone");
    assert_eq!(count(&words, 512, 14), (0, 1));
    assert_eq!(count(&words, 512, 15), (0, 255));
    assert_eq!(count(&words, 3, 15), (0, 1), "the first rows only");
    // Rows 0: no value, whatever the table.
    assert_eq!(count(&words, 0, 0), (0, 0));
    assert_eq!(count(&[], 0, 15), (0, 0));
    // Variable 16 and beyond.
    assert_eq!(count(&words, 512, 16), (6, 0));
    assert_eq!(count(&[], 0, 16), (6, 0));
    assert_eq!(count(&words, 1, usize::MAX), (6, 0));
    // Rows 513 and beyond, with words enough.
    words.extend([1; 32]);
    assert_eq!(count(&words, 512, 0), (0, 511));
    assert_eq!(count(&words, 513, 0), (6, 0));
    assert_eq!(count(&words, usize::MAX, 0), (6, 0));
    // 16 × rows words, and one fewer.
    assert_eq!(count(&words[..160], 10, 0), (0, 9));
    assert_eq!(count(&words[..159], 10, 0), (6, 0));
    assert_eq!(count(&words[..15], 1, 0), (6, 0));
}

/// The rows of an answer, as many values as there are variables.
fn values(made: &Made) -> Vec<Vec<u32>> {
    let got = ask(made);
    assert_eq!(got.number, 0);
    let rows = got.rows.iter().map(|row| row[..got.variables].to_vec());
    rows.collect()
}

#[test]
fn a_variable_in_two_columns_of_one_look_up_is_not_0() {
    let of = |lines: &[[u32; 2]]| made(&["R ff"], "v", &["R(v v)"], &[rows(lines)]);
    assert!(values(&of(&[[0, 0]])).is_empty());
    assert_eq!(values(&of(&[[0, 0], [4, 4], [0, 4]])), [[4]]);
    // The same row where the columns have a variable each.
    let two = made(&["R ff"], "v w", &["R(v w)"], &[rows(&[[0, 0], [4, 4]])]);
    assert_eq!(values(&two), [[0, 0], [4, 4]]);
}

#[test]
fn a_variable_in_one_column_may_be_0() {
    let one = made(&["A f"], "x", &["A(x)"], &[rows(&[[0], [1]])]);
    assert_eq!(values(&one), [[0], [1]]);
    // In two columns of two look-ups it may not, though the first look-up meets it unknown.
    let two = made(
        &["A f", "B f"],
        "x",
        &["A(x)", "B(x)"],
        &[rows(&[[0], [1]]), rows(&[[0], [1]])],
    );
    assert_eq!(values(&two), [[1]]);
    assert_eq!(ask(&two).steps, [step(0, 0, 1, 1, 2), step(1, 0, 1, 1, 2)]);
}

/// A row is left out for one look-up and stays for another on the same register.
#[test]
fn a_row_is_left_out_look_up_by_look_up() {
    let shared = made(
        &["S ff", "B f"],
        "a b c d",
        &["S(a b)", "S(c d)", "B(a)"],
        &[rows(&[[0, 5], [1, 5]]), rows(&[[1]])],
    );
    assert_eq!(values(&shared), [[1, 5, 0, 5], [1, 5, 1, 5]]);
    let steps = [
        step(0, 0, 1, 1, 2),
        step(1, 0, 1, 2, 2),
        step(2, 0, 1, 2, 1),
    ];
    assert_eq!(ask(&shared).steps, steps);
}

/// No call holds a 0: the rows with 0 are gone before the must-give variables are counted.
#[test]
fn no_call_holds_a_0() {
    let made = made(
        &["A f", "B bf"],
        "x y",
        &["A(x)", "B(x y)"],
        &[rows(&[[0], [1], [2]]), rows(&[[0, 7], [1, 0], [2, 8]])],
    );
    assert_eq!(values(&made), [[1, 0], [2, 8]]);
    assert_eq!(ask(&made).steps, [step(0, 0, 1, 2, 3), step(1, 0, 2, 2, 2)]);
}

/// Routes, refusal 4 and the route check don't depend on the rows, also where all are left out.
#[test]
fn routes_do_not_depend_on_zeros() {
    let of = |value| {
        made(
            &["A f", "B bf"],
            "x y",
            &["A(x)", "B(x y)"],
            &[rows(&[[value]]), rows(&[[value, value]])],
        )
    };
    assert_eq!(
        ask(&of(0)).steps,
        [step(0, 0, 1, 0, 1), step(1, 0, 0, 0, 0)]
    );
    assert_eq!(
        ask(&of(3)).steps,
        [step(0, 0, 1, 1, 1), step(1, 0, 1, 1, 1)]
    );
    let wait = |value| {
        made(
            &["P bf", "Q bf"],
            "x y",
            &["P(x y)", "Q(y x)"],
            &[rows(&[[value, 1]]), rows(&[[1, value]])],
        )
    };
    for value in [0, 1] {
        assert_eq!(check(&wait(value)), (4, 3));
        assert_eq!(refusal(&ask(&wait(value))), (4, 3));
    }
}

/// Rows that are left out are not too many rows, and those that may have 0 are.
#[test]
fn a_list_without_its_zeros_is_short_enough() {
    let of = |again: &str| {
        made(
            &["A f", "B f", "C f"],
            "a b c",
            &["A(a)", "B(b)", &format!("C({again})")],
            &[from(0, 16), from(1, 32), from(1, 1)],
        )
    };
    let mut twice = of("a");
    twice.request.givens[2] = Some(9);
    assert_eq!(ask(&twice).number, 0, "17 lines, of which 16 match");
    assert_eq!(ask(&twice).steps[1].rows, 512);
    assert_eq!(refusal(&ask(&of("c"))), (5, 2), "17 rows times 32");
}

#[test]
fn the_count_leaves_0_out() {
    let table = |values: &[u32]| -> Vec<u32> { values.iter().flat_map(|v| [*v; 16]).collect() };
    assert_eq!(count(&table(&[0, 0, 5]), 3, 0), (0, 1));
    assert_eq!(count(&table(&[0, 0]), 2, 15), (0, 0));
    assert_eq!(count(&table(&[0, 4_294_967_295, 1, 0]), 4, 7), (0, 2));
    assert_eq!(count(&table(&[5, 0]), 1, 3), (0, 1));
    assert_eq!(count(&table(&[0]), 2, 3), (6, 0));
}
