//! The places where the rules are easily misread, each with cases on both sides.

use second::examples::{chain_of_four, depot, from, full_data, longest, made, none, product, rows};
use second::made_up::Made;
use second::{answer, check_route, count, route_steps, run_files, tables, text, write};
use second::{Answer, Prices, Step};

fn sheet(made: &Made) -> Vec<u8> {
    write::sheet(&made.request)
}

fn words(made: &Made) -> Vec<u32> {
    write::words(&made.rows)
}

fn ask(made: &Made) -> Answer {
    answer(&sheet(made), &words(made), 8_192, 8_192)
}

/// The number and detail.
fn verdict(made: &Made) -> (u32, u32) {
    let got = ask(made);
    (got.number, got.detail)
}

/// Look-up and rule of each step.
fn order(got: &Answer) -> Vec<(usize, usize)> {
    got.steps
        .iter()
        .map(|step| (step.lookup, step.rule))
        .collect()
}

fn calls(steps: &[Step]) -> Vec<u64> {
    steps.iter().map(|step| step.calls).collect()
}

/// 1. The first refusal that fits is given.
#[test]
fn edge_01_the_order_of_refusals() {
    let both = made(
        &["A f", "B f", "C b"],
        "a b c",
        &["A(a)", "B(b)", "C(c)"],
        &[from(1, 23), from(1, 23), from(1, 1)],
    );
    assert_eq!(verdict(&both), (4, 4));
    let (good, rows) = (sheet(&both), words(&both));
    let mut bad = good.clone();
    bad.push(0);
    let mut more = rows.clone();
    more.push(0);
    let number = |sheet: &[u8], rows: &[u32], table| answer(sheet, rows, table, 8_192).number;
    assert_eq!(number(&bad, &more, 8_191), 1);
    assert_eq!(number(&bad, &more, 8_192), 11);
    assert_eq!(number(&good, &more, 8_192), 3);
    assert_eq!(number(&good, &rows, 8_192), 4);
    assert_eq!(check_route(&bad), (11, 8 * good.len() as u32));
    assert_eq!(check_route(&good), (4, 4));
    // Without C, only 5 is left, and the route check knows no rows.
    assert_eq!(verdict(&product(23, 23)), (5, 2));
    assert_eq!(check_route(&sheet(&product(23, 23))), (0, 0));
}

/// 2. Left-over bytes are one word too many and never complete the data.
#[test]
fn edge_02_left_over_bytes() {
    let good = sheet(&depot());
    let whole = write::bytes(&words(&depot()));
    let short = &whole[..whole.len() - 4];
    let mut bad = good.clone();
    bad[18] = 0x41;
    for bytes in 1..=3 {
        let after = |data: &[u8]| [data, &[0; 4][..bytes]].concat();
        assert_eq!(run_files(&good, &after(&whole)), "refused 3 0\n");
        assert_eq!(run_files(&good, &after(short)), "refused 3 0\n");
        assert_eq!(run_files(&good, &after(&[])), "refused 3 0\n");
        assert_eq!(run_files(&bad, &after(&whole)), "refused 11 146\n");
        assert_eq!(run_files(&good[..18], &after(short)), "refused 2 142\n");
        // No route would be 4, and the left-over comes before it.
        let none_given = chain_of_four("x0 x1 x2 x3 x4");
        let data = write::bytes(&words(&none_given));
        assert_eq!(run_files(&sheet(&none_given), &data), "refused 4 15\n");
        let left_over = after(&data);
        assert_eq!(run_files(&sheet(&none_given), &left_over), "refused 3 0\n");
    }
    assert_eq!(run_files(&good, short), "refused 3 0\n");
    assert!(run_files(&good, &whole).starts_with("step 1 "));
}

/// The answer, and both tables of 8,200 words after it; they came filled with 4,294,967,295.
fn with_tables(made: &Made) -> (Answer, [Vec<u32>; 2]) {
    let got = answer(&sheet(made), &words(made), 8_200, 8_200);
    let mut tables = [vec![4_294_967_295; 8_200], vec![4_294_967_295; 8_200]];
    let [first, second] = &mut tables;
    second::tables(&got, first, second);
    for table in &tables {
        assert_eq!(table[8_192..], [4_294_967_295; 8]);
    }
    (got, tables)
}

/// 3. The rows stand in the first table after any number of steps.
#[test]
fn edge_03_both_tables_after_one_two_and_three_steps() {
    let cases: [(&str, &[&str], [[u32; 4]; 2]); 3] = [
        ("a b", &["A(a b)"], [[1, 2, 0, 0], [3, 4, 0, 0]]),
        ("a b c", &["A(a b)", "B(b c)"], [[1, 2, 5, 0], [3, 4, 6, 0]]),
        (
            "a b c d",
            &["A(a b)", "B(b c)", "C(c d)"],
            [[1, 2, 5, 7], [3, 4, 6, 8]],
        ),
    ];
    let registers = ["A ff", "B bf", "C bf"];
    let lines = [
        rows(&[[1, 2], [3, 4]]),
        rows(&[[2, 5], [4, 6]]),
        rows(&[[5, 7], [6, 8]]),
    ];
    for (variables, lookups, values) in cases {
        let (got, [first, second]) = with_tables(&made(&registers, variables, lookups, &lines));
        assert_eq!(got.steps.len(), lookups.len());
        assert_eq!(first[..4], values[0]);
        assert_eq!(first[4..16], [0; 12]);
        assert_eq!(first[16..20], values[1]);
        assert!(first[20..8_192].iter().all(|word| *word == 0));
        assert!(second[..8_192].iter().all(|word| *word == 0));
    }
}

/// 3. The same under 5, here at step 2 and at step 3.
#[test]
fn edge_03_both_tables_under_5() {
    let three = made(
        &["A f", "B f", "C f"],
        "a b c",
        &["A(a)", "B(b)", "C(c)"],
        &[from(1, 8), from(1, 8), from(1, 9)],
    );
    for (made, detail) in [(product(23, 23), 2), (three, 3)] {
        let (got, tables) = with_tables(&made);
        assert_eq!((got.number, got.detail), (5, detail));
        for table in tables {
            assert!(table[..8_192].iter().all(|word| *word == 0));
        }
    }
}

/// 4. On an empty list every rule costs 0, and ties go by look-up, then by usable rule.
#[test]
fn edge_04_ties_and_the_empty_list() {
    let empty = made(
        &["A f", "B fb ff bf", "C bf"],
        "x y z",
        &["A(x)", "B(x y)", "C(x z)"],
        &[none(), rows(&[[1, 2]]), rows(&[[1, 3]])],
    );
    let got = ask(&empty);
    assert_eq!(order(&got), [(0, 0), (1, 1), (2, 0)]);
    assert_eq!(calls(&got.steps), [1, 0, 0]);
    // The same tie at one call each.
    let full = made(
        &["A bf ff", "B f"],
        "x y z",
        &["A(x y)", "B(z)"],
        &[rows(&[[1, 2]]), rows(&[[3]])],
    );
    let got = ask(&full);
    assert_eq!(order(&got), [(0, 1), (1, 0)]);
    assert_eq!(calls(&got.steps), [1, 1]);
    // Of equal rules the lowest.
    let same = made(&["A b b f f"], "x=1", &["A(x)"], &[rows(&[[1]])]);
    assert_eq!(order(&ask(&same)), [(0, 0)]);
}

/// 5. Where a variable repeats, neither column wins.
#[test]
fn edge_05_a_variable_that_repeats() {
    let of = |lines: &[[u32; 2]]| ask(&made(&["R ff"], "v", &["R(v v)"], &[rows(lines)]));
    for lines in [[[1, 1], [1, 2]], [[1, 1], [2, 1]]] {
        let got = of(&lines);
        assert_eq!(got.rows.len(), 1);
        assert_eq!(got.rows[0][0], 1);
    }
    assert_eq!(of(&[[1, 2], [2, 1]]).rows.len(), 0);
}

/// 6. Equal lines are one row, in the registers and in the list.
#[test]
fn edge_06_equal_lines() {
    let of = |a: Vec<Vec<u32>>, b: Vec<Vec<u32>>| {
        ask(&made(&["A f", "B f"], "a b", &["A(a)", "B(b)"], &[a, b]))
    };
    let got = of(vec![vec![1]; 512], vec![vec![2]; 512]);
    assert_eq!((got.number, got.rows.len()), (0, 1));
    // 511 different rows: one of them twice makes 512 lines, which are taken; three times 513.
    let mut lines = from(1, 511);
    lines.push(vec![1]);
    let got = of(lines.clone(), vec![vec![2]; 2]);
    assert_eq!((got.number, got.rows.len()), (0, 511));
    lines.push(vec![1]);
    assert_eq!(of(lines, vec![vec![2]]).number, 3);
}

/// 7. The detail of 4 is what is never answerable, not what is not answerable at the start.
#[test]
fn edge_07_never_answerable() {
    let of = |variables| {
        made(
            &["R ff", "S b", "T b"],
            variables,
            &["R(x y)", "S(y)", "T(z)"],
            &[rows(&[[1, 2]]), rows(&[[2]]), rows(&[[3]])],
        )
    };
    assert_eq!(verdict(&of("x y z")), (4, 4));
    assert_eq!(check_route(&sheet(&of("x y z"))), (4, 4));
    assert_eq!(verdict(&of("x y z=3")), (0, 0));
    // Two look-ups that wait for one another, and one that waits for them.
    let wait = made(
        &["P bf", "Q bf", "W b", "F f"],
        "x y z w",
        &["P(x y)", "Q(y x)", "W(x)", "F(w)"],
        &[none(), none(), none(), none()],
    );
    assert_eq!(check_route(&sheet(&wait)), (10, 2), "z is unused");
    let mut wait = wait;
    wait.request.givens[2] = Some(8);
    assert_eq!(check_route(&sheet(&wait)), (4, 0b0111));
}

/// 8. Example 3.1 without R is sound only without x.
#[test]
fn edge_08_an_unused_variable() {
    let of = |variables| {
        made(
            &["S bf fb", "T fb bf"],
            variables,
            &["S(y z)", "T(z w)"],
            &[none(), none()],
        )
    };
    assert_eq!(check_route(&sheet(&of("y z w"))), (4, 3));
    assert_eq!(check_route(&sheet(&of("x y z w"))), (10, 0));
    assert_eq!(check_route(&sheet(&of("y z w x"))), (10, 3));
    assert_eq!(check_route(&sheet(&of("x=9 y z w"))), (4, 3));
}

/// 9. Other routes have no row limit.
#[test]
fn edge_09_other_routes_have_no_limit() {
    let request = made(
        &["A f", "B f", "C bb", "D f"],
        "a b d",
        &["D(d)", "A(a)", "B(b)", "C(a b)"],
        &[
            from(1, 23),
            from(1, 23),
            rows(&[[1, 1], [1, 2]]),
            from(1, 2),
        ],
    );
    let over = route_steps(
        &sheet(&request),
        &words(&request),
        Prices::CALLS,
        &[(0, 0), (1, 0), (2, 0), (3, 0)],
    )
    .unwrap();
    assert_eq!(calls(&over), [1, 1, 1, 529]);
    assert_eq!(
        over.iter().map(|s| s.rows).collect::<Vec<_>>(),
        [2, 46, 1058, 4]
    );
    assert_eq!(verdict(&request), (5, 3));
}

/// The picks of a route are checked at their place; a beginning of a route is taken.
#[test]
fn routes_and_what_is_none() {
    let made = depot();
    let at =
        |prices, picks: &[(usize, usize)]| route_steps(&sheet(&made), &words(&made), prices, picks);
    let of = |picks: &[(usize, usize)]| at(Prices::CALLS, picks);
    assert_eq!(of(&[]), Some(Vec::new()));
    assert_eq!(of(&[(2, 0)]).unwrap().len(), 1);
    assert_eq!(calls(&of(&[(2, 0), (1, 0), (0, 0)]).unwrap()), [1, 3, 2]);
    assert_eq!(of(&[(0, 0)]), None, "machine is not known");
    assert_eq!(of(&[(2, 0), (2, 0)]), None, "answered already");
    assert_eq!(of(&[(2, 1)]), None, "no such rule");
    assert_eq!(of(&[(3, 0)]), None, "no such look-up");
    let calls = Prices::CALLS;
    assert_eq!(route_steps(&[], &words(&made), calls, &[]), None);
    assert_eq!(route_steps(&sheet(&made), &[], calls, &[]), None);
    assert_eq!(at(Prices { p: 1_000, q: 1_000 }, &[]), Some(Vec::new()));
    assert_eq!(at(Prices { p: 1_001, q: 0 }, &[]), None, "p over its limit");
    assert_eq!(at(Prices { p: 0, q: u64::MAX }, &[]), None, "and q");
}

/// 10. A register without a look-up owns its words, and its count is checked.
#[test]
fn edge_10_a_register_without_a_look_up() {
    let of = |lines: Vec<Vec<u32>>| {
        made(
            &["spare ff", "A f", "last f"],
            "v",
            &["A(v)"],
            &[lines, rows(&[[9]]), none()],
        )
    };
    let got = ask(&of(rows(&[[1, 1], [1, 2]])));
    assert_eq!(got.rows.len(), 1);
    assert_eq!(got.rows[0][0], 9);
    assert_eq!(verdict(&of(vec![vec![1, 1]; 512])), (0, 0));
    assert_eq!(verdict(&of(vec![vec![1, 1]; 513])), (3, 0));
    // Without the words of the last register the data ends early.
    let made = of(none());
    let mut short = words(&made);
    assert_eq!(answer(&sheet(&made), &short, 8_192, 8_192).number, 0);
    short.pop();
    assert_eq!(answer(&sheet(&made), &short, 8_192, 8_192).number, 3);
}

/// 11. Huge counts do not wrap.
#[test]
fn edge_11_counts() {
    for columns in 1..=6 {
        let rule = "f".repeat(columns);
        let variables = vec!["v"; columns].join(" ");
        let made = made(
            &[&format!("A {rule}")],
            "v",
            &[&format!("A({variables})")],
            &[none()],
        );
        assert_eq!(verdict(&made), (0, 0));
        let mut counts = vec![u32::MAX, 1 << 31, 1 << 30, 1 << 16, 513];
        // The first count whose words pass 2 to the 32.
        counts.push((u64::from(u32::MAX) / columns as u64 + 1) as u32);
        for count in counts {
            if count == 0 {
                continue;
            }
            for rest in 0..7 {
                let mut words = vec![count];
                words.resize(1 + rest, 1);
                let got = answer(&sheet(&made), &words, 8_192, 8_192);
                assert_eq!((got.number, got.detail), (3, 0), "count {count}");
            }
        }
    }
}

/// 11. 16,384 words pass and 16,385 don't.
#[test]
fn edge_11_words() {
    let made = full_data();
    let mut words = words(&made);
    assert_eq!(words.len(), 16_384);
    assert_eq!(answer(&sheet(&made), &words, 8_192, 8_192).number, 0);
    words.push(0);
    assert_eq!(answer(&sheet(&made), &words, 8_192, 8_192).number, 3);
    // One register more without a row: sound but for the number of words.
    let mut more = made;
    more.request.registers.push(second::sheet::Register {
        columns: 1,
        rules: vec![vec![false]],
    });
    assert_eq!(answer(&sheet(&more), &words, 8_192, 8_192).number, 3);
    // The same register in place of two words of data is answered.
    more.rows[5].pop();
    more.rows.push(rows(&[[1]]));
    let words = write::words(&more.rows);
    assert_eq!(words.len(), 16_384);
    assert_eq!(answer(&sheet(&more), &words, 8_192, 8_192).number, 0);
}

/// 12. Ascending is by unsigned value.
#[test]
fn edge_12_ascending() {
    let values = [0, 1, 9, 10, 2_147_483_647, 2_147_483_648, 4_294_967_295];
    let mut lines: Vec<Vec<u32>> = values.iter().map(|value| vec![*value, 5]).collect();
    lines.push(vec![9, 4_294_967_295]);
    lines.push(vec![9, 2]);
    lines.reverse();
    let got = ask(&made(&["A ff"], "x y", &["A(x y)"], &[lines]));
    let pairs: Vec<[u32; 2]> = got.rows.iter().map(|row| [row[0], row[1]]).collect();
    assert_eq!(
        pairs,
        [
            [0, 5],
            [1, 5],
            [9, 2],
            [9, 5],
            [9, 4_294_967_295],
            [10, 5],
            [2_147_483_647, 5],
            [2_147_483_648, 5],
            [4_294_967_295, 5]
        ]
    );
}

/// 13. The count takes any table: rows 0 answer 0, and variable 15 is allowed whatever V.
#[test]
fn edge_13_the_count() {
    assert_eq!(count(&[], 0, 0), (0, 0));
    assert_eq!(count(&[5; 16], 1, 15), (0, 1));
    assert_eq!(count(&[5; 16], 0, 16), (6, 0));
    let got = ask(&depot());
    let mut first = vec![3; 8_192];
    tables(&got, &mut first, &mut [0; 8_192]);
    assert_eq!(count(&first, 2, 15), (0, 0));
    assert_eq!(count(&first, 512, 1), (0, 2), "zeros are left out");
    // Contents that no answer could have: unsorted, with equal rows.
    let table: Vec<u32> = [4, 2, 4, 9].iter().flat_map(|value| [*value; 16]).collect();
    assert_eq!(count(&table, 4, 8), (0, 3));
    assert_eq!(count(&table, 3, 8), (0, 2));
}

/// 14. A refused answer is zero but for its number and detail.
#[test]
fn edge_14_refused_answers() {
    let chain = chain_of_four("x0 x1 x2 x3 x4");
    let over = made(
        &["A f", "B f", "C f"],
        "a b c",
        &["A(a)", "B(b)", "C(c)"],
        &[from(1, 2), from(1, 23), from(1, 23)],
    );
    let good = depot();
    let refusals = [
        (answer(&sheet(&good), &words(&good), 0, 8_192), 1, 0),
        (answer(&[0x26], &words(&good), 8_192, 8_192), 2, 7),
        (answer(&[0x46], &words(&good), 8_192, 8_192), 7, 0),
        (answer(&sheet(&good), &[4], 8_192, 8_192), 3, 0),
        (ask(&chain), 4, 15),
        (ask(&over), 5, 3),
    ];
    for (got, number, detail) in refusals {
        assert_eq!((got.number, got.detail), (number, detail));
        assert!(got.steps.is_empty() && got.rows.is_empty() && got.calls == 0);
        assert_eq!(text(&got), format!("refused {number} {detail}\n"));
    }
}

/// 15. V values a row, sheets of 193 and 194 bytes, and long output written whole.
#[test]
fn edge_15_the_program() {
    let print = |made: &Made| run_files(&sheet(made), &write::bytes(&words(made)));
    let given = made(&["A f"], "x=5 y z=6", &["A(y)"], &[rows(&[[0]])]);
    assert!(print(&given).ends_with("\nrow 5 0 6\n"));
    let longest = longest();
    assert_eq!(sheet(&longest).len(), 193);
    assert_eq!(write::written(&longest.request).bits.len(), 1_539);
    assert!(print(&longest).starts_with("step 1 lookup 0 rule 0 calls 1 rows 1\n"));
    for byte in [0, 1, 255] {
        let mut longer = sheet(&longest);
        longer.push(byte);
        let data = write::bytes(&words(&longest));
        assert_eq!(run_files(&longer, &data), "refused 11 1544\n");
    }
    let all = second::examples::all();
    let ten = all.iter().find(|e| e.name == "ten-digit-rows").unwrap();
    let text = run_files(&ten.sheet, &ten.data);
    assert_eq!(
        text.lines().filter(|line| line.starts_with("row ")).count(),
        512
    );
    assert!(text.lines().skip(4).all(|line| line.len() == 3 + 16 * 11));
    assert!(text.ends_with(" 4000015511\n"));
}

/// 16. A given value other than 0 keeps the rows that have it, at either end of example 2.3; 0 is
/// refused.
#[test]
fn edge_16_givens_other_than_0() {
    let rows_of = |variables| {
        let got = ask(&chain_of_four(variables));
        assert_eq!(got.number, 0);
        let rows = got.rows.iter().map(|row| row[..5].to_vec());
        rows.collect::<Vec<_>>()
    };
    assert_eq!(
        rows_of("x0=10 x1 x2 x3 x4=50"),
        [
            [10, 21, 31, 41, 50],
            [10, 21, 31, 44, 50],
            [10, 22, 32, 42, 50]
        ]
    );
    assert_eq!(rows_of("x0=10 x1 x2 x3 x4=51"), [[10, 22, 33, 43, 51]]);
    // 23 leads to 34, which leads nowhere.
    assert!(rows_of("x0=11 x1 x2 x3 x4=50").is_empty());
    // 0 is no value to give. The values begin behind 15 bits, four registers of 11 and five marks.
    assert_eq!(verdict(&chain_of_four("x0=0 x1 x2 x3 x4=50")), (12, 64));
    assert_eq!(verdict(&chain_of_four("x0=10 x1 x2 x3 x4=0")), (12, 96));
    assert_eq!(verdict(&chain_of_four("x0=0 x1 x2 x3 x4=0")), (12, 64));
}

/// 17. Operations that take a struct with public fields take every value of it.
#[test]
fn edge_17_any_answer_is_taken() {
    let step = Step {
        lookup: 99,
        rule: 99,
        calls: u64::MAX,
        rows: u64::MAX,
        sent: u64::MAX,
        charge: u64::MAX,
    };
    let odd = |number| Answer {
        number,
        detail: 77,
        steps: vec![step.clone(); 40],
        calls: u64::MAX,
        charge: u64::MAX,
        rows: vec![[7; 16]; 600],
        variables: 90,
    };
    let mut first = vec![1; 8_200];
    let mut second = vec![2; 8_195];
    tables(&odd(0), &mut first, &mut second);
    assert_eq!(first[..8_192], [7; 8_192]);
    assert_eq!(first[8_192..], [1; 8]);
    assert_eq!(second[..8_192], [0; 8_192]);
    assert_eq!(second[8_192..], [2; 3]);
    // Short tables and unknown numbers.
    for (number, left) in [(0, 7), (5, 0), (99, 3)] {
        let mut short = [3; 20];
        tables(&odd(number), &mut short, &mut []);
        assert_eq!(short, [left; 20]);
    }
    let printed = text(&odd(0));
    assert_eq!(printed.lines().count(), 40 + 1 + 600);
    assert!(printed.ends_with(&format!("row{}\n", " 7".repeat(16))));
    assert_eq!(text(&odd(99)), "refused 99 77\n");
}

/// 17. A request of any kind can be written; the sheet is refused or read.
#[test]
fn edge_17_any_request_is_written() {
    let mut made = depot();
    made.request.givens.clear();
    made.request.lookups[0].variables = vec![usize::MAX; 9];
    made.request.lookups[0].register = usize::MAX;
    made.request.registers[0].columns = usize::MAX;
    // The columns of register 0 are written as 7.
    assert_eq!(check_route(&sheet(&made)), (8, 15));
    // Row data is refused for a request with columns without end.
    assert_eq!(second::data::read(&made.request, &[1, 1]), None);
}
