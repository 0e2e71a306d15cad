//! Charges for calls and for rows sent, with cases on both sides of each edge.

use second::examples::{depot, from, made, none, product, rows};
use second::made_up::{case, Made};
use second::typed::{answer_typed, Typed};
use second::{answer, answer_charged, data, run_files, tables, text, write, Answer, Prices};

fn sheet(made: &Made) -> Vec<u8> {
    write::sheet(&made.request)
}

fn words(made: &Made) -> Vec<u32> {
    write::words(&made.rows)
}

/// The answer at p and q over tables of 8,192 words.
fn ask(made: &Made, p: u64, q: u64) -> Answer {
    let prices = Prices { p, q };
    answer_charged(&sheet(made), &words(made), prices, 8_192, 8_192)
}

/// Look-up, rule, calls, rows after it, rows sent and charge of each step.
fn steps(got: &Answer) -> Vec<[u64; 6]> {
    let numbers = got.steps.iter().map(|step| {
        let (lookup, rule) = (step.lookup as u64, step.rule as u64);
        [lookup, rule, step.calls, step.rows, step.sent, step.charge]
    });
    numbers.collect()
}

/// Rows sent in each step.
fn sent(got: &Answer) -> Vec<u64> {
    got.steps.iter().map(|step| step.sent).collect()
}

/// Look-up and rule of each step.
fn order(got: &Answer) -> Vec<(usize, usize)> {
    let picks = got.steps.iter().map(|step| (step.lookup, step.rule));
    picks.collect()
}

/// R(x, y) with two rules and lines that repeat and have 0, and S(x).
fn two_look_ups() -> Made {
    made(
        &["R bf ff", "S f"],
        "x y",
        &["R(x y)", "S(x)"],
        &[
            rows(&[[1, 0], [1, 2], [2, 3], [2, 3], [0, 9]]),
            rows(&[[1]]),
        ],
    )
}

#[test]
fn a_row_sent_is_charged_and_the_order_changes() {
    let request = two_look_ups();
    let by_calls = ask(&request, 1, 0);
    assert_eq!(steps(&by_calls), [[0, 1, 1, 3, 4, 1], [1, 0, 1, 2, 1, 1]]);
    assert_eq!((by_calls.calls, by_calls.charge), (2, 2));
    let by_both = ask(&request, 1, 1);
    assert_eq!(steps(&by_both), [[1, 0, 1, 1, 1, 2], [0, 0, 1, 2, 2, 3]]);
    assert_eq!((by_both.calls, by_both.charge), (2, 5));
    assert_eq!(by_calls.rows, by_both.rows);
}

/// Of three machines two are on a truck and all have a state, so that carrier is asked before state.
#[test]
fn the_depot_case_charged() {
    let got = ask(&depot(), 10, 1);
    let wanted = [
        [2, 0, 1, 3, 3, 13],
        [1, 0, 3, 2, 2, 32],
        [0, 0, 2, 2, 2, 22],
    ];
    assert_eq!(steps(&got), wanted);
    assert_eq!((got.calls, got.charge), (6, 67));
    assert_eq!(got.rows, ask(&depot(), 1, 0).rows);
}

/// Number and detail at p and q, with this sheet, these words and tables of these lengths.
fn told(sheet: &[u8], words: &[u32], prices: (u64, u64), lengths: (usize, usize)) -> (u32, u32) {
    let (p, q) = prices;
    let got = answer_charged(sheet, words, Prices { p, q }, lengths.0, lengths.1);
    if got.number != 0 {
        assert_eq!(got, Answer::refused(got.number, got.detail));
    }
    (got.number, got.detail)
}

#[test]
fn p_and_q_are_at_most_1000() {
    let (sheet, words) = (sheet(&depot()), words(&depot()));
    let at = |prices| told(&sheet, &words, prices, (8_192, 8_192));
    for prices in [(0, 0), (1, 0), (0, 1), (999, 999), (1_000, 0), (0, 1_000)] {
        assert_eq!(at(prices), (0, 0), "{prices:?}");
    }
    assert_eq!(at((1_000, 1_000)), (0, 0));
    for over in [1_001, 1_002, 1 << 31, u64::from(u32::MAX), u64::MAX] {
        for prices in [
            (over, 0),
            (0, over),
            (over, 1_000),
            (1_000, over),
            (over, over),
        ] {
            assert_eq!(at(prices), (17, 0), "{prices:?}");
        }
    }
}

/// 17 comes behind 1, and before all that is wrong with the sheet, the row data and the route.
#[test]
fn where_17_stands() {
    let (good, rows) = (sheet(&depot()), words(&depot()));
    let (over, fine) = ((1_001, 0), (1_000, 0));
    for lengths in [(8_191, 8_192), (8_192, 8_191), (0, 0)] {
        assert_eq!(told(&good, &rows, over, lengths), (1, 0));
        assert_eq!(told(&good, &rows, fine, lengths), (1, 0));
        assert_eq!(told(&[], &[], over, lengths), (1, 0));
    }
    let long = (8_192, 8_192);
    let mut bad = good.clone();
    bad[18] = 0x41;
    assert_eq!(told(&bad, &rows, over, long), (17, 0));
    assert_eq!(told(&bad, &rows, fine, long), (11, 146));
    assert_eq!(told(&[], &rows, over, long), (17, 0));
    assert_eq!(told(&[], &rows, fine, long), (2, 0));
    assert_eq!(told(&good, &rows[1..], over, long), (17, 0));
    assert_eq!(told(&good, &rows[1..], fine, long), (3, 0));
    let no_route = made(&["A b"], "x", &["A(x)"], &[from(1, 2)]);
    let (good, rows) = (sheet(&no_route), words(&no_route));
    assert_eq!(told(&good, &rows, over, long), (17, 0));
    assert_eq!(told(&good, &rows, fine, long), (4, 1));
    let (good, rows) = (sheet(&product(23, 23)), words(&product(23, 23)));
    assert_eq!(told(&good, &rows, over, long), (17, 0));
    assert_eq!(told(&good, &rows, fine, long), (5, 2));
}

/// Under 17 both tables stay as they came.
#[test]
fn under_17_the_tables_stay() {
    let (mut first, mut second) = (vec![7; 8_200], vec![9; 8_192]);
    tables(&ask(&depot(), 0, 1_001), &mut first, &mut second);
    assert_eq!(first, [7; 8_200]);
    assert_eq!(second, [9; 8_192]);
}

/// With nothing to give, all different rows of the register are sent where the list has a row, and
/// none where it has none.
#[test]
fn nothing_to_give() {
    let request = made(
        &["A f", "B ff"],
        "x y z",
        &["A(x)", "B(y z)"],
        &[from(5, 6), rows(&[[1, 1], [1, 1], [2, 1], [0, 0]])],
    );
    assert_eq!(sent(&ask(&request, 1, 0)), [2, 3]);
    assert_eq!(sent(&ask(&request, 0, 1)), [2, 3]);
    // A has no row: nothing is sent for B, which costs nothing.
    let mut empty = request.clone();
    empty.rows[0] = none();
    assert_eq!(
        steps(&ask(&empty, 1, 1)),
        [[0, 0, 1, 0, 0, 1], [1, 0, 0, 0, 0, 0]]
    );
    // An empty register sends nothing, and its call is charged.
    let mut none_sent = request;
    none_sent.rows[1] = none();
    let got = ask(&none_sent, 2, 5);
    assert_eq!(steps(&got), [[1, 0, 1, 0, 0, 2], [0, 0, 0, 0, 0, 0]]);
}

/// An empty list sends nothing, whatever must be given.
#[test]
fn an_empty_list_sends_nothing() {
    let mut request = depot();
    request.request.givens[0] = Some(9);
    let got = ask(&request, 3, 4);
    let wanted = [[2, 0, 1, 0, 0, 3], [0, 0, 0, 0, 0, 0], [1, 0, 0, 0, 0, 0]];
    assert_eq!(steps(&got), wanted);
    assert_eq!((got.calls, got.charge), (1, 3));
}

/// Lines that repeat are sent once, for one call or for several.
#[test]
fn a_row_that_repeats_is_sent_once() {
    let request = |times| {
        made(
            &["A ff", "B fb"],
            "x y",
            &["A(x y)", "B(y x)"],
            &[
                rows(&[[1, 7], [2, 7]].repeat(times)),
                rows(&[[7, 1], [7, 2]].repeat(times)),
            ],
        )
    };
    assert_eq!(
        steps(&ask(&request(1), 1, 1)),
        [[0, 0, 1, 2, 2, 3], [1, 0, 2, 2, 2, 4]]
    );
    assert_eq!(ask(&request(1), 1, 1), ask(&request(4), 1, 1));
    assert_eq!(ask(&request(1), 1, 1), ask(&request(200), 1, 1));
}

/// Rows that are left out for a 0 are sent where they agree with a call, and are not joined.
#[test]
fn rows_left_out_for_a_0_are_sent() {
    let request = made(
        &["A f", "B bf", "C f"],
        "x y",
        &["A(x)", "B(x y)", "C(y)"],
        &[
            rows(&[[0], [1]]),
            rows(&[[0, 4], [1, 0], [1, 4], [2, 0]]),
            rows(&[[0], [4], [5]]),
        ],
    );
    // x and y are never 0: A's 0, B's (1, 0) and C's 0 are sent and left out; B's others agree with no call.
    let got = ask(&request, 1, 1);
    assert_eq!(
        steps(&got),
        [[0, 0, 1, 1, 2, 3], [1, 0, 1, 1, 2, 3], [2, 0, 1, 1, 3, 4]]
    );
    assert_eq!(got.rows.len(), 1);
}

/// A row agrees with a call on the must-give columns alone: free columns, and a variable that repeats
/// in them, leave no row unsent.
#[test]
fn free_columns_leave_no_row_unsent() {
    let asked = |rules: &str| {
        made(
            &[&format!("R {rules}")],
            "x=1 y=2",
            &["R(x y x)"],
            &[rows(&[
                [1, 2, 1],
                [1, 2, 3],
                [1, 5, 1],
                [1, 0, 0],
                [4, 2, 1],
                [0, 2, 1],
            ])],
        )
    };
    for (rule, rows_sent) in [
        ("fff", 6),
        ("bff", 4),
        ("fbf", 4),
        ("ffb", 4),
        ("bbf", 2),
        ("bfb", 2),
        ("fbb", 3),
        ("bbb", 1),
    ] {
        let got = ask(&asked(rule), 1, 1);
        assert_eq!(
            steps(&got),
            [[0, 0, 1, 1, rows_sent, 1 + rows_sent]],
            "{rule}"
        );
    }
    // Of all eight rules the last has the lowest charge, and at q = 0 the first is taken.
    let all = "fff bff fbf ffb bbf bfb fbb bbb";
    assert_eq!(order(&ask(&asked(all), 1, 1)), [(0, 7)]);
    assert_eq!(order(&ask(&asked(all), 1, 0)), [(0, 0)]);
}

/// Combinations that no row of the list has are not asked for, though each of their values is there.
#[test]
fn a_row_agrees_with_one_call_in_all_columns() {
    let request = made(
        &["A ff", "B bbf"],
        "x y z",
        &["A(x y)", "B(x y z)"],
        &[
            rows(&[[1, 1], [2, 2]]),
            rows(&[[1, 1, 5], [1, 2, 5], [2, 1, 5], [2, 2, 0]]),
        ],
    );
    assert_eq!(
        steps(&ask(&request, 1, 1)),
        [[0, 0, 1, 2, 2, 3], [1, 0, 2, 2, 2, 4]]
    );
}

/// A tie on charge takes the lowest look-up, then the lowest rule, whatever the calls and the rows.
#[test]
fn ties_on_charge() {
    // A gives x = 1, 2. Then B by x: 2 calls and no row sent; C, with nothing to give: 1 call and 1 row.
    let request = |lookups: [&str; 3]| {
        made(
            &["A f", "B bf", "C f"],
            "x y z",
            &lookups,
            &[from(1, 2), rows(&[[9, 9]]), from(1, 1)],
        )
    };
    let first = |lookups, p, q| {
        let got = ask(&request(lookups), p, q);
        (got.steps[0].lookup, got.steps[1].lookup)
    };
    // At 1, 1 C costs 2 and comes before A, which costs 3.
    assert_eq!(first(["A(x)", "B(x y)", "C(z)"], 1, 1), (2, 0));
    // At 1, 0 all tie at 1 call until x is known.
    assert_eq!(first(["A(x)", "B(x y)", "C(z)"], 1, 0), (0, 2));
    // At 0, 0 each costs 0: the lowest that can be asked.
    assert_eq!(first(["A(x)", "B(x y)", "C(z)"], 0, 0), (0, 1));
    assert_eq!(first(["B(x y)", "C(z)", "A(x)"], 0, 0), (1, 2));
}

/// Two rules with the same charge and different calls: the lower rule, with more calls or fewer.
#[test]
fn a_tie_looks_at_nothing_else() {
    let request = |rules: &str| {
        made(
            &["A f", &format!("B {rules}")],
            "x y",
            &["A(x)", "B(x y)"],
            &[from(1, 2), rows(&[[1, 1], [2, 2], [9, 9]])],
        )
    };
    // By x: 2 calls, 2 rows sent. With nothing to give: 1 call, 3 rows sent.
    let step = |rules, p, q| steps(&ask(&request(rules), p, q))[1];
    assert_eq!(step("bf ff", 1, 1), [1, 0, 2, 2, 2, 4]);
    assert_eq!(step("ff bf", 1, 1), [1, 0, 1, 2, 3, 4]);
    assert_eq!(step("ff bf", 1, 2), [1, 1, 2, 2, 2, 6]);
    assert_eq!(step("bf ff", 2, 1), [1, 1, 1, 2, 3, 5]);
}

/// At p = q = 0 each charge is 0; calls and rows sent are told all the same.
#[test]
fn nothing_is_charged() {
    let got = ask(&two_look_ups(), 0, 0);
    assert_eq!(steps(&got), [[0, 1, 1, 3, 4, 0], [1, 0, 1, 2, 1, 0]]);
    assert_eq!((got.calls, got.charge), (2, 0));
    let got = ask(&depot(), 0, 0);
    assert_eq!(order(&got), [(2, 0), (0, 0), (1, 0)]);
    assert_eq!((got.calls, got.charge), (6, 0));
}

/// The dearest step: 512 calls, 512 rows sent, 1,000 for each.
#[test]
fn the_dearest_step() {
    let request = made(
        &["A f", "B bf"],
        "x y",
        &["A(x)", "B(x y)"],
        &[from(1, 512), (1..=512).map(|x| vec![x, x]).collect()],
    );
    let got = ask(&request, 1_000, 1_000);
    let wanted = [
        [0, 0, 1, 512, 512, 513_000],
        [1, 0, 512, 512, 512, 1_024_000],
    ];
    assert_eq!(steps(&got), wanted);
    assert_eq!((got.calls, got.charge), (513, 1_537_000));
}

/// Another order may yield too many rows at another step, or at none.
#[test]
fn the_order_decides_where_a_list_is_too_long() {
    let request = made(
        &["A f", "B f", "C f"],
        "x y",
        &["A(x)", "B(y)", "C(x)"],
        &[from(1, 30), from(1, 20), from(1, 1)],
    );
    assert_eq!(ask(&request, 1, 0), Answer::refused(5, 2));
    let got = ask(&request, 1, 1);
    assert_eq!(order(&got), [(2, 0), (1, 0), (0, 0)]);
    assert_eq!((got.number, got.rows.len()), (0, 20));
}

/// At p = 1, q = 0 all is what it is without prices, of sheets and of typed lines, and the charge is
/// the calls.
#[test]
fn calls_alone() {
    for seed in 0..2_000 {
        let case = case(seed);
        let (words, _) = data::words(&case.data);
        for lengths in [(8_192, 8_192), (8_191, 8_192)] {
            let got = answer_charged(&case.sheet, &words, Prices::CALLS, lengths.0, lengths.1);
            assert_eq!(got, answer(&case.sheet, &words, lengths.0, lengths.1));
            assert_eq!(got.charge, got.calls);
            assert!(got.steps.iter().all(|step| step.charge == step.calls));
        }
    }
    let typed = Typed {
        sheet: sheet(&two_look_ups()),
        names: b"r s".to_vec(),
        line: b": r(x y) s(x)".to_vec(),
    };
    let got = answer_typed(&typed, &words(&two_look_ups()), 8_192, 8_192);
    assert_eq!(got, ask(&two_look_ups(), 1, 0));
}

/// What is printed has neither rows sent nor charges.
#[test]
fn printed_as_before() {
    let printed = text(&ask(&two_look_ups(), 1, 0));
    let bytes = write::bytes(&words(&two_look_ups()));
    assert_eq!(printed, run_files(&sheet(&two_look_ups()), &bytes));
    assert_eq!(
        printed,
        "step 1 lookup 0 rule 1 calls 1 rows 3\n\
         step 2 lookup 1 rule 0 calls 1 rows 2\n\
         calls 2\n\
         row 1 0\n\
         row 1 2\n"
    );
}
