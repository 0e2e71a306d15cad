//! The examples in readable form, those of docs/RULES.md and others. Each expected text was worked
//! out by hand from the rules; lists of hundreds of rows are written by a loop that counts, and no
//! join made them.

use crate::made_up::Made;
use crate::sheet::{Lookup, Register, Request};
use crate::typed::Typed;
use crate::write;

/// One example: its two files, what the program prints for them, what the example shows and
/// the number of the rule that it comes from.
#[derive(Debug, Clone, PartialEq, Eq)]
pub struct Example {
    pub name: &'static str,
    pub shows: &'static str,
    pub from: &'static str,
    pub sheet: Vec<u8>,
    pub data: Vec<u8>,
    pub expected: String,
}

impl Example {
    /// The same files with another sheet.
    fn sheet(mut self, sheet: Vec<u8>) -> Example {
        self.sheet = sheet;
        self
    }

    /// The same files with other bytes of row data.
    fn data(mut self, data: Vec<u8>) -> Example {
        self.data = data;
        self
    }
}

/// An example from a request and its lines.
fn example(
    name: &'static str,
    made: Made,
    expected: impl Into<String>,
    shows: &'static str,
    from: &'static str,
) -> Example {
    Example {
        name,
        shows,
        from,
        sheet: write::sheet(&made.request),
        data: write::bytes(&write::words(&made.rows)),
        expected: expected.into(),
    }
}

/// A register's name and its rules, from "stock bf".
fn register(text: &str) -> (&str, Register) {
    let (name, rules) = text.split_once(' ').unwrap_or((text, ""));
    let rule = |rule: &str| rule.chars().map(|mark| mark == 'b').collect();
    let rules: Vec<Vec<bool>> = rules.split(' ').map(rule).collect();
    let columns = rules[0].len();
    (name, Register { columns, rules })
}

/// A variable's name and its value, if it is given one, from "depot=7".
fn variable(text: &str) -> (&str, Option<u32>) {
    let (name, value) = text.split_once('=').unwrap_or((text, ""));
    (name, value.parse().ok())
}

/// A request in readable form, and the lines of each register in order.
/// Registers: a name, then the rules, such as "stock bf". Variables: names, and "=" with the
/// value where one is given. Look-ups: a register and its variables, as "stock(depot machine)".
pub fn made(registers: &[&str], variables: &str, lookups: &[&str], rows: &[Vec<Vec<u32>>]) -> Made {
    let place = |names: &[&str], name: &str| {
        let found = names.iter().position(|other| *other == name);
        found.unwrap_or_else(|| panic!("no {name} in {names:?}"))
    };
    let (register_names, read) = registers
        .iter()
        .map(|text| register(text))
        .unzip::<_, _, Vec<_>, Vec<_>>();
    let (names, givens) = variables
        .split(' ')
        .map(variable)
        .unzip::<_, _, Vec<_>, Vec<_>>();
    let mut looked_up = Vec::new();
    for lookup in lookups {
        let (register, variables) = lookup
            .trim_end_matches(')')
            .split_once('(')
            .unwrap_or((lookup, ""));
        looked_up.push(Lookup {
            register: place(&register_names, register),
            variables: variables.split(' ').map(|v| place(&names, v)).collect(),
        });
    }
    Made {
        request: Request {
            registers: read,
            givens,
            lookups: looked_up,
        },
        rows: rows.to_vec(),
    }
}

/// Lines of a register.
pub fn rows<const COLUMNS: usize>(rows: &[[u32; COLUMNS]]) -> Vec<Vec<u32>> {
    rows.iter().map(|row| row.to_vec()).collect()
}

/// The one-column lines from `low` to `high`.
pub fn from(low: u32, high: u32) -> Vec<Vec<u32>> {
    (low..=high).map(|value| vec![value]).collect()
}

/// A register without a row.
pub fn none() -> Vec<Vec<u32>> {
    Vec::new()
}

/// The depot case.
pub fn depot() -> Made {
    made(
        &["stock bf", "state bf", "carrier bf"],
        "depot=7 machine condition=1 truck",
        &[
            "state(machine condition)",
            "carrier(machine truck)",
            "stock(depot machine)",
        ],
        &[
            rows(&[[7, 101], [7, 102], [7, 103], [8, 104]]),
            rows(&[[101, 1], [102, 2], [103, 1], [104, 1]]),
            rows(&[[101, 51], [103, 52]]),
        ],
    )
}

const DEPOT_PRINTS: &str = "\
step 1 lookup 2 rule 0 calls 1 rows 3
step 2 lookup 0 rule 0 calls 3 rows 2
step 3 lookup 1 rule 0 calls 2 rows 2
calls 6
row 7 101 1 51
row 7 103 1 52
";

/// The CHAIN paper's Table 2 with 100 rows (§8.5).
pub fn table_2() -> Made {
    made(
        &["R ff", "S bf", "T bf", "U bf"],
        "A B D E",
        &["R(A B)", "S(A D)", "T(B E)", "U(D B)"],
        &[
            (1..=100).map(|b| vec![1, b]).collect(),
            rows(&[[1, 1]]),
            rows(&[[1, 1]]),
            rows(&[[1, 2]]),
        ],
    )
}

/// The access paper's example 2.3 (§8.8), with these variables.
pub fn chain_of_four(variables: &str) -> Made {
    made(
        &["R1 bf fb", "R2 bf fb", "R3 bf fb", "R4 bf fb"],
        variables,
        &["R1(x0 x1)", "R2(x1 x2)", "R3(x2 x3)", "R4(x3 x4)"],
        &[
            rows(&[[10, 21], [10, 22], [11, 23]]),
            rows(&[[21, 31], [22, 32], [22, 33], [23, 34]]),
            rows(&[[31, 41], [31, 44], [32, 42], [33, 43]]),
            rows(&[[41, 50], [42, 50], [43, 51], [44, 50]]),
        ],
    )
}

/// The rows of S and T in the access paper's example 3.1 (§8.9).
fn open_s() -> Vec<Vec<u32>> {
    rows(&[[2, 5], [3, 5], [3, 6], [7, 8]])
}

fn open_t() -> Vec<Vec<u32>> {
    rows(&[[5, 9], [6, 9], [8, 1]])
}

/// Two registers of one column with so many different rows each, different variables.
pub fn product(first: u32, second: u32) -> Made {
    made(
        &["A f", "B f"],
        "a b",
        &["A(a)", "B(b)"],
        &[from(1, first), from(1, second)],
    )
}

/// One register of one column and these lines.
fn one(lines: Vec<Vec<u32>>) -> Made {
    made(&["A f"], "v", &["A(v)"], &[lines])
}

/// Row data of 16,384 words.
pub fn full_data() -> Made {
    let six: Vec<Vec<u32>> = (1..=512).map(|i| vec![i; 6]).collect();
    let two = (1..=509).map(|i| vec![i, i + 1000]).collect();
    made(
        &[
            "R0 bfffff",
            "R1 ffffff",
            "R2 ffffff",
            "R3 ffffff",
            "R4 ffffff",
            "R5 bf",
        ],
        "key=300 same other",
        &["R0(key same same same same same)", "R5(same other)"],
        &[six.clone(), six.clone(), six.clone(), six.clone(), six, two],
    )
}

/// A sheet of 193 bytes: each number at its most. Each register has the one row that fits.
pub fn longest() -> Made {
    let first = 4_294_967_280;
    let rules = [
        "bbbbbb", "ffffff", "bfffff", "fbffff", "ffbfff", "fffbff", "ffffbf", "fffffb",
    ];
    let variables: Vec<String> = (0..16).map(|i| format!("v{i}={}", first + i)).collect();
    let registers: Vec<String> = (0..12)
        .map(|i| format!("R{i} {}", rules.join(" ")))
        .collect();
    let mut lookups = Vec::new();
    let mut lines = Vec::new();
    for i in 0..12 {
        let around: Vec<u32> = (i..i + 6).map(|v| v % 16).collect();
        let names: Vec<String> = around.iter().map(|v| format!("v{v}")).collect();
        lookups.push(format!("R{i}({})", names.join(" ")));
        lines.push(vec![around.iter().map(|v| first + v).collect()]);
    }
    made(
        &registers.iter().map(String::as_str).collect::<Vec<_>>(),
        &variables.join(" "),
        &lookups.iter().map(String::as_str).collect::<Vec<_>>(),
        &lines,
    )
}

/// The depot case as a typed request. Its variables are depot, cond, machine and truck, in this order.
pub fn typed_depot() -> Typed {
    let line = "depot=7 cond=1 : state(machine cond) carrier(machine truck) stock(depot machine)";
    Typed {
        sheet: write::sheet(&depot().request),
        names: b"stock state carrier".to_vec(),
        line: line.into(),
    }
}

/// A typed line of 300 bytes: 12 look-ups in 10 registers, 14 variables, 4 of them given.
const LONG_LINE: &str = "\
depot=7 cond=1 partner=4294967295 year=2026 : stock(depot machine slot) state(machine cond) \
carrier(machine truck driver) owner(machine partner) card(driver area year) tank(truck fuel) \
road(depot area km) pass(partner area) spare(machine part) stock(depot part bin) state(part cond) \
crew(driver mate)";

/// The request of a typed line of 300 bytes, for timing. The sheet says the same as the line.
pub fn long_line() -> Typed {
    let registers = [
        "stock bff",
        "state bf",
        "carrier bff",
        "owner bf",
        "card bff",
        "tank bf",
        "road bff",
        "pass bf",
        "spare bf",
        "crew bf",
    ];
    let (givens, lookups) = LONG_LINE.split_once(" : ").expect("a colon");
    let others = "machine slot truck driver area fuel km part bin mate";
    let lookups: Vec<&str> = lookups.split_inclusive(')').map(str::trim_start).collect();
    let rows = vec![none(); registers.len()];
    let made = made(&registers, &format!("{givens} {others}"), &lookups, &rows);
    let names: Vec<&str> = registers.iter().map(|text| register(text).0).collect();
    Typed {
        sheet: write::sheet(&made.request),
        names: names.join(" ").into_bytes(),
        line: LONG_LINE.into(),
    }
}

/// 512 rows of 16 ten-digit numbers: variable j of row i is 4,000,000,000 + 1,000 j + i.
fn ten_digits() -> (Made, String) {
    let value = |variable: u32, row: u32| 4_000_000_000 + 1000 * variable + row;
    let lines = |variables: [u32; 6]| {
        (0..512)
            .map(|row| variables.map(|variable| value(variable, row)).to_vec())
            .collect()
    };
    let made = made(
        &["A ffffff", "B bfffff", "C bfffff"],
        "a b c d e f g h i j k l m n o p",
        &["A(a b c d e f)", "B(a g h i j k)", "C(a l m n o p)"],
        &[
            lines([0, 1, 2, 3, 4, 5]),
            lines([0, 6, 7, 8, 9, 10]),
            lines([0, 11, 12, 13, 14, 15]),
        ],
    );
    let mut text = "\
step 1 lookup 0 rule 0 calls 1 rows 512
step 2 lookup 1 rule 0 calls 512 rows 512
step 3 lookup 2 rule 0 calls 512 rows 512
calls 1025
"
    .to_string();
    for row in 0..512 {
        text += "row";
        for variable in 0..16 {
            text += &format!(" {}", value(variable, row));
        }
        text += "\n";
    }
    (made, text)
}

/// All examples.
pub fn all() -> Vec<Example> {
    let mut all = document();
    all.extend(errors_that_look_right());
    all.extend(steps_and_lists());
    all.extend(zeros());
    all.extend(sheets());
    all.extend(row_data());
    all
}

/// The examples of docs/RULES.md, section 8.
fn document() -> Vec<Example> {
    let mut twice = depot();
    twice.rows[0].push(vec![7, 101]);
    let mut nine = depot();
    nine.request.givens[0] = Some(9);
    let mut byte_41 = write::sheet(&depot().request);
    byte_41[18] = 0x41;
    let mut byte_more = write::sheet(&depot().request);
    byte_more.push(0);
    let mut all_512 = "step 1 lookup 0 rule 0 calls 1 rows 16\n\
                       step 2 lookup 1 rule 0 calls 1 rows 512\n\
                       calls 2\n"
        .to_string();
    for a in 1..=16 {
        for b in 1..=32 {
            all_512 += &format!("row {a} {b}\n");
        }
    }
    let mut one_512 = "step 1 lookup 0 rule 0 calls 1 rows 512\ncalls 1\n".to_string();
    for v in 1..=512 {
        one_512 += &format!("row {v}\n");
    }
    vec![
        example(
            "depot",
            depot(),
            DEPOT_PRINTS,
            "The depot case, in full.",
            "§8.1",
        ),
        example(
            "depot-row-twice",
            twice,
            DEPOT_PRINTS,
            "A row that appears twice is one row.",
            "§8.2",
        ),
        example(
            "depot-given-9",
            nine,
            "\
step 1 lookup 2 rule 0 calls 1 rows 0
step 2 lookup 0 rule 0 calls 0 rows 0
step 3 lookup 1 rule 0 calls 0 rows 0
calls 1
",
            "An empty list doesn't end the route, and its further steps cost 0.",
            "§8.3",
        ),
        example(
            "depot-byte-41",
            depot(),
            "refused 11 146\n",
            "A padding bit of 1 breaks the sheet.",
            "§8.4",
        )
        .sheet(byte_41),
        example(
            "depot-byte-more",
            depot(),
            "refused 11 152\n",
            "A byte after the padding breaks the sheet.",
            "§8.4",
        )
        .sheet(byte_more),
        example(
            "table-2",
            table_2(),
            "\
step 1 lookup 0 rule 0 calls 1 rows 100
step 2 lookup 1 rule 0 calls 1 rows 100
step 3 lookup 3 rule 0 calls 1 rows 1
step 4 lookup 2 rule 0 calls 1 rows 0
calls 4
",
            "The fewest calls go first, worked out anew at each step.",
            "§8.5",
        ),
        example(
            "a-then-b",
            made(
                &["A f", "B f"],
                "v",
                &["A(v)", "B(v)"],
                &[rows(&[[1]]), none()],
            ),
            "\
step 1 lookup 0 rule 0 calls 1 rows 1
step 2 lookup 1 rule 0 calls 1 rows 0
calls 2
",
            "CHAIN's route costs n times the cheapest one.",
            "§8.6",
        ),
        example(
            "repeated-variable",
            made(&["R ff"], "v", &["R(v v)"], &[rows(&[[1, 1], [1, 2]])]),
            "step 1 lookup 0 rule 0 calls 1 rows 1\ncalls 1\nrow 1\n",
            "A register row must agree with itself where a variable repeats.",
            "§8.7",
        ),
        example(
            "chain-ends-given",
            chain_of_four("x0=10 x1 x2 x3 x4=50"),
            "\
step 1 lookup 0 rule 0 calls 1 rows 2
step 2 lookup 3 rule 1 calls 1 rows 6
step 3 lookup 1 rule 0 calls 2 rows 9
step 4 lookup 2 rule 0 calls 3 rows 3
calls 7
row 10 21 31 41 50
row 10 21 31 44 50
row 10 22 32 42 50
",
            "A route from both ends; the last step is a tie of two rules.",
            "§8.8",
        ),
        example(
            "chain-nothing-given",
            chain_of_four("x0 x1 x2 x3 x4"),
            "refused 4 15\n",
            "No look-up is ever answerable.",
            "§8.8",
        ),
        example(
            "open-r",
            made(
                &["R ff", "S bf fb", "T fb bf"],
                "x y z w",
                &["R(x y)", "S(y z)", "T(z w)"],
                &[rows(&[[1, 2], [1, 3], [4, 3]]), open_s(), open_t()],
            ),
            "\
step 1 lookup 0 rule 0 calls 1 rows 3
step 2 lookup 1 rule 0 calls 2 rows 5
step 3 lookup 2 rule 1 calls 2 rows 5
calls 5
row 1 2 5 9
row 1 3 5 9
row 1 3 6 9
row 4 3 5 9
row 4 3 6 9
",
            "R needs nothing and opens the route.",
            "§8.9",
        ),
        example(
            "open-without-r",
            made(
                &["S bf fb", "T fb bf"],
                "y z w",
                &["S(y z)", "T(z w)"],
                &[open_s(), open_t()],
            ),
            "refused 4 3\n",
            "Without R, neither S nor T is ever answerable. The variable x goes too.",
            "§8.9",
        ),
        example(
            "rows-16-32",
            product(16, 32),
            all_512,
            "A list of 512 rows is answered.",
            "§8.10",
        ),
        example(
            "rows-23-23",
            product(23, 23),
            "refused 5 2\n",
            "A list of 529 rows is refused at its step.",
            "§8.10",
        ),
        example(
            "count-512",
            one(from(1, 512)),
            one_512,
            "A register of 512 rows is taken.",
            "§8.11",
        ),
        example(
            "count-513",
            one(from(1, 513)),
            "refused 3 0\n",
            "A register of 513 rows is refused before its list is measured.",
            "§8.11",
        ),
    ]
}

/// The section "Errors that look right", each error with a case that it gets wrong.
fn errors_that_look_right() -> Vec<Example> {
    vec![
        example(
            "calls-by-combination",
            made(
                &["R fff", "S bbf"],
                "x y w z",
                &["R(x y w)", "S(x y z)"],
                &[
                    rows(&[[1, 1, 1], [1, 1, 2], [1, 2, 1], [2, 1, 1]]),
                    rows(&[[1, 1, 5], [1, 2, 6]]),
                ],
            ),
            "\
step 1 lookup 0 rule 0 calls 1 rows 4
step 2 lookup 1 rule 0 calls 3 rows 3
calls 4
row 1 1 1 5
row 1 1 2 5
row 1 2 1 6
",
            "Four list rows show three different combinations of x and y.",
            "§9.1",
        ),
        example(
            "calls-worked-out-again",
            made(
                &["R ff", "S bf", "T bf"],
                "x y z w",
                &["R(x y)", "S(y z)", "T(x w)"],
                &[
                    rows(&[[1, 10], [1, 20], [1, 30]]),
                    rows(&[[10, 5], [20, 6], [30, 7]]),
                    rows(&[[1, 8]]),
                ],
            ),
            "\
step 1 lookup 0 rule 0 calls 1 rows 3
step 2 lookup 2 rule 0 calls 1 rows 3
step 3 lookup 1 rule 0 calls 3 rows 3
calls 5
row 1 10 5 8
row 1 20 6 8
row 1 30 7 8
",
            "After R, S takes 3 calls and T one, so T goes first.",
            "§9.2",
        ),
        example(
            "b-then-a",
            made(
                &["B f", "A f"],
                "v",
                &["B(v)", "A(v)"],
                &[none(), rows(&[[1]])],
            ),
            "\
step 1 lookup 0 rule 0 calls 1 rows 0
step 2 lookup 1 rule 0 calls 0 rows 0
calls 1
",
            "A rule with nothing to give costs 1 at first and 0 once the list is empty.",
            "§8.6",
        ),
        example(
            "known-in-a-free-column",
            made(
                &["R bf"],
                "x=1 y=20",
                &["R(x y)"],
                &[rows(&[[1, 10], [1, 20], [1, 30], [2, 20]])],
            ),
            "step 1 lookup 0 rule 0 calls 1 rows 1\ncalls 1\nrow 1 20\n",
            "The free column y is known, so its value must agree.",
            "§9.3",
        ),
        example(
            "empty-list-goes-on",
            made(
                &["A f", "B bf", "C bf"],
                "x y z",
                &["C(y z)", "B(x y)", "A(x)"],
                &[rows(&[[1]]), rows(&[[2, 3]]), rows(&[[3, 4]])],
            ),
            "\
step 1 lookup 2 rule 0 calls 1 rows 1
step 2 lookup 1 rule 0 calls 1 rows 0
step 3 lookup 0 rule 0 calls 0 rows 0
calls 2
",
            "The list is empty after step 2, and step 3 is still reported.",
            "§9.4",
        ),
        example(
            "free-variables-become-known",
            made(
                &["S bf", "R bf"],
                "x=7 y z",
                &["S(y z)", "R(x y)"],
                &[
                    rows(&[[1, 4], [2, 4], [3, 5]]),
                    rows(&[[7, 1], [7, 2], [8, 3]]),
                ],
            ),
            "\
step 1 lookup 1 rule 0 calls 1 rows 2
step 2 lookup 0 rule 0 calls 2 rows 2
calls 3
row 7 1 4
row 7 2 4
",
            "The free column y of R becomes known, else S would never be answerable.",
            "§9.5",
        ),
    ]
}

/// The sections "How a route grows" and "What comes back".
fn steps_and_lists() -> Vec<Example> {
    let (ten_digits, ten_digits_print) = ten_digits();
    let mut byte_41 = write::sheet(&depot().request);
    byte_41[18] = 0x41;
    let without_last_word = |made: &Made| {
        let mut words = write::words(&made.rows);
        words.pop();
        write::bytes(&words)
    };
    let short = without_last_word(&depot());
    let chain_short = without_last_word(&chain_of_four("x0 x1 x2 x3 x4"));
    vec![
        example(
            "repeated-variable-swapped",
            made(&["R ff"], "v", &["R(v v)"], &[rows(&[[1, 1], [2, 1]])]),
            "step 1 lookup 0 rule 0 calls 1 rows 1\ncalls 1\nrow 1\n",
            "The first column doesn't win over the second.",
            "§4.8",
        ),
        example(
            "repeated-variable-must-give",
            made(
                &["A f", "R bb"],
                "v",
                &["A(v)", "R(v v)"],
                &[rows(&[[3], [4]]), rows(&[[3, 3], [3, 4], [4, 3]])],
            ),
            "\
step 1 lookup 0 rule 0 calls 1 rows 2
step 2 lookup 1 rule 0 calls 2 rows 1
calls 3
row 3
",
            "One variable in two must-give columns: two values, two calls.",
            "§1.8",
        ),
        example(
            "shared-register",
            made(
                &["edge bf"],
                "a=1 b c",
                &["edge(a b)", "edge(b c)"],
                &[rows(&[[1, 2], [1, 3], [2, 3], [3, 1], [2, 1]])],
            ),
            "\
step 1 lookup 0 rule 0 calls 1 rows 2
step 2 lookup 1 rule 0 calls 2 rows 3
calls 3
row 1 2 1
row 1 2 3
row 1 3 1
",
            "Two look-ups read the same register.",
            "§1.9",
        ),
        example(
            "given-without-lookup",
            made(&["A f"], "x=5 y", &["A(y)"], &[rows(&[[9]])]),
            "step 1 lookup 0 rule 0 calls 1 rows 1\ncalls 1\nrow 5 9\n",
            "A given variable need not stand in a look-up.",
            "§2.11",
        ),
        example(
            "must-give-each",
            made(
                &["R bb", "S f"],
                "x=1 y",
                &["R(x y)", "S(y)"],
                &[rows(&[[1, 2], [1, 3], [4, 2]]), rows(&[[2], [5]])],
            ),
            "\
step 1 lookup 1 rule 0 calls 1 rows 2
step 2 lookup 0 rule 0 calls 2 rows 1
calls 3
row 1 2
",
            "x is known and y is not, so R waits for S.",
            "§4.4",
        ),
        example(
            "cheaper-later-rule",
            made(
                &["A ff", "B bf fb"],
                "x y",
                &["A(x y)", "B(x y)"],
                &[rows(&[[1, 9], [2, 9], [3, 9]]), rows(&[[1, 9], [3, 9], [3, 8]])],
            ),
            "\
step 1 lookup 0 rule 0 calls 1 rows 3
step 2 lookup 1 rule 1 calls 1 rows 2
calls 2
row 1 9
row 3 9
",
            "Rule 0 of B takes 3 calls and rule 1 takes one.",
            "§4.7",
        ),
        example(
            "tie-lookup-before-rule",
            made(
                &["A bf ff", "B f"],
                "x y z",
                &["A(x y)", "B(z)"],
                &[rows(&[[1, 2]]), rows(&[[3]])],
            ),
            "\
step 1 lookup 0 rule 1 calls 1 rows 1
step 2 lookup 1 rule 0 calls 1 rows 1
calls 2
row 1 2 3
",
            "Look-up 0 by rule 1 goes before look-up 1 by rule 0.",
            "§4.7",
        ),
        example(
            "tie-lowest-rule",
            made(&["A bf fb ff"], "x=1 y=2", &["A(x y)"], &[rows(&[[1, 2]])]),
            "step 1 lookup 0 rule 0 calls 1 rows 1\ncalls 1\nrow 1 2\n",
            "Three rules of one call each: rule 0 is taken.",
            "§4.7",
        ),
        example(
            "empty-list-ties",
            made(
                &["A f", "B fb ff bf", "C bf"],
                "x y z",
                &["A(x)", "B(x y)", "C(x z)"],
                &[none(), rows(&[[1, 2]]), rows(&[[1, 3]])],
            ),
            "\
step 1 lookup 0 rule 0 calls 1 rows 0
step 2 lookup 1 rule 1 calls 0 rows 0
step 3 lookup 2 rule 0 calls 0 rows 0
calls 1
",
            "On an empty list every rule costs 0; the lowest look-up goes first, by its lowest usable rule.",
            "§4.6",
        ),
        example(
            "equal-lines",
            made(
                &["A f", "B f"],
                "a b",
                &["A(a)", "B(b)"],
                &[vec![vec![1]; 512], vec![vec![2]; 512]],
            ),
            "\
step 1 lookup 0 rule 0 calls 1 rows 1
step 2 lookup 1 rule 0 calls 1 rows 1
calls 2
row 1 2
",
            "512 equal lines joined with 512 equal lines are one row.",
            "§1.3",
        ),
        example(
            "ascending-unsigned",
            one(rows(&[[4_294_967_295], [2_147_483_648], [1], [2_147_483_647], [0], [10], [9]])),
            "\
step 1 lookup 0 rule 0 calls 1 rows 7
calls 1
row 0
row 1
row 9
row 10
row 2147483647
row 2147483648
row 4294967295
",
            "Rows stand by unsigned value, not as signed numbers or as text.",
            "§4.11",
        ),
        example(
            "ascending-by-variable",
            made(
                &["A ff"],
                "x y",
                &["A(y x)"],
                &[rows(&[[1, 9], [2, 3], [7, 3], [4, 8]])],
            ),
            "\
step 1 lookup 0 rule 0 calls 1 rows 4
calls 1
row 3 2
row 3 7
row 8 4
row 9 1
",
            "Rows stand by the variables' numbers, not by the columns of the register.",
            "§4.11",
        ),
        example(
            "ten-digit-rows",
            ten_digits,
            ten_digits_print,
            "512 rows of 16 ten-digit numbers are printed whole.",
            "§6.2",
        ),
        example(
            "both-11-and-3",
            depot(),
            "refused 11 146\n",
            "A bad sheet, and row data without its last word.",
            "§5.1",
        )
        .sheet(byte_41)
        .data(short),
        example(
            "both-3-and-4",
            chain_of_four("x0 x1 x2 x3 x4"),
            "refused 3 0\n",
            "No route, and row data without its last word.",
            "§5.1",
        )
        .data(chain_short),
        example(
            "both-4-and-5",
            made(
                &["A f", "B f", "C b"],
                "a b c",
                &["A(a)", "B(b)", "C(c)"],
                &[from(1, 23), from(1, 23), from(1, 1)],
            ),
            "refused 4 4\n",
            "529 rows at step 2, and a look-up that is never answerable.",
            "§5.2",
        ),
        example(
            "never-answerable",
            made(
                &["R ff", "S b", "T b"],
                "x y z",
                &["R(x y)", "S(y)", "T(z)"],
                &[rows(&[[1, 2]]), rows(&[[2]]), rows(&[[3]])],
            ),
            "refused 4 4\n",
            "S is not answerable at the start, T is never answerable: bit 2 alone.",
            "§5.1",
        ),
        example(
            "rows-8-8-9",
            made(
                &["A f", "B f", "C f"],
                "a b c",
                &["A(a)", "B(b)", "C(c)"],
                &[from(1, 8), from(1, 8), from(1, 9)],
            ),
            "refused 5 3\n",
            "64 rows times 9 are too many at step 3.",
            "§5.1",
        ),
        example(
            "rows-27-19-filtered",
            made(
                &["A f", "B f", "C bb"],
                "a b",
                &["A(a)", "B(b)", "C(a b)"],
                &[from(1, 27), from(1, 19), rows(&[[1, 1]])],
            ),
            "refused 5 2\n",
            "513 rows are too many, though a later look-up would leave one.",
            "§4.15",
        ),
    ]
}

/// 0 means "not known": where a row with it is left out, where it stays, and that it can't be given.
fn zeros() -> Vec<Example> {
    let mut all = zero_rows();
    all.extend(zeros_given());
    all
}

/// Register rows with 0, on both sides of the rule.
fn zero_rows() -> Vec<Example> {
    vec![
        example(
            "zero-not-joined",
            made(
                &["A bf", "B b"],
                "x=1 y",
                &["A(x y)", "B(y)"],
                &[rows(&[[1, 0], [1, 5], [2, 6]]), rows(&[[0], [5]])],
            ),
            "\
step 1 lookup 0 rule 0 calls 1 rows 1
step 2 lookup 1 rule 0 calls 1 rows 1
calls 2
row 1 5
",
            "y stands in two columns, so a row with 0 there matches neither look-up, and no call holds a 0.",
            "§1.12",
        ),
        example(
            "zero-in-one-column",
            one(rows(&[[0], [1]])),
            "step 1 lookup 0 rule 0 calls 1 rows 2\ncalls 1\nrow 0\nrow 1\n",
            "A variable that is not given and stands in one column may be 0.",
            "§1.12",
        ),
        example(
            "zero-in-two-lookups",
            made(
                &["A f", "B f"],
                "x",
                &["A(x)", "B(x)"],
                &[rows(&[[0], [1], [2]]), rows(&[[0], [1]])],
            ),
            "\
step 1 lookup 0 rule 0 calls 1 rows 2
step 2 lookup 1 rule 0 calls 1 rows 1
calls 2
row 1
",
            "A row with 0 is left out at the first step already, when its variable is not yet known.",
            "§1.11",
        ),
        example(
            "zero-in-a-repeated-variable",
            made(&["R ff"], "v", &["R(v v)"], &[rows(&[[0, 0]])]),
            "step 1 lookup 0 rule 0 calls 1 rows 0\ncalls 1\n",
            "A variable in two columns of one look-up is not 0: the row (0,0) does not match.",
            "§1.11",
        ),
        example(
            "zero-for-one-lookup",
            made(
                &["S ff", "B f"],
                "a b c d",
                &["S(a b)", "S(c d)", "B(a)"],
                &[rows(&[[0, 5], [1, 5]]), rows(&[[1]])],
            ),
            "\
step 1 lookup 0 rule 0 calls 1 rows 1
step 2 lookup 1 rule 0 calls 1 rows 2
step 3 lookup 2 rule 0 calls 1 rows 2
calls 3
row 1 5 0 5
row 1 5 1 5
",
            "The row (0,5) is left out for look-up 0, where a stands in B too, and stays for look-up 1.",
            "§1.12",
        ),
        example(
            "zero-shared-register",
            made(
                &["edge bf"],
                "a=1 b c",
                &["edge(a b)", "edge(b c)"],
                &[rows(&[[1, 0], [1, 2], [0, 3], [2, 0], [2, 3]])],
            ),
            "\
step 1 lookup 0 rule 0 calls 1 rows 1
step 2 lookup 1 rule 0 calls 1 rows 2
calls 2
row 1 2 0
row 1 2 3
",
            "One register under two look-ups: b stands in two columns and is not 0, and c may be.",
            "§1.11",
        ),
    ]
}

/// Sheets with a given value of 0.
fn zeros_given() -> Vec<Example> {
    let giving = |depot_number, condition| {
        let mut made = depot();
        made.request.givens[0] = Some(depot_number);
        made.request.givens[2] = Some(condition);
        made
    };
    let whole = write::sheet(&giving(0, 1).request);
    let mut byte_41 = whole.clone();
    byte_41[18] = 0x41;
    let refused = |name, made, expected: &str, shows| example(name, made, expected, shows, "§2.8");
    vec![
        refused(
            "zero-given",
            giving(0, 1),
            "refused 12 46\n",
            "The depot sheet with 0 for the depot, the first value that is given.",
        ),
        refused(
            "zero-given-later",
            giving(7, 0),
            "refused 12 78\n",
            "The depot sheet with 0 for the condition, the second value that is given.",
        ),
        refused(
            "zero-given-twice",
            giving(0, 0),
            "refused 12 46\n",
            "Both values of the depot sheet are 0: the first is told.",
        ),
        refused(
            "zero-given-not-whole",
            giving(0, 1),
            "refused 2 46\n",
            "The sheet ends with 26 zero bits of the first value, which is not whole.",
        )
        .sheet(whole[..9].to_vec()),
        refused(
            "zero-given-ends-early",
            giving(0, 1),
            "refused 12 46\n",
            "The sheet ends early behind a given 0: the 0 comes first, though 2 is the lower number.",
        )
        .sheet(whole[..10].to_vec()),
        refused(
            "zero-given-and-padding",
            giving(0, 1),
            "refused 12 46\n",
            "A given 0, and a padding bit of 1.",
        )
        .sheet(byte_41),
    ]
}

/// The section "The sheet, bit by bit".
fn sheets() -> Vec<Example> {
    let depot_sheet = || write::sheet(&depot().request);
    let refused = |name, sheet, expected: &str, shows, rule| {
        example(name, depot(), expected, shows, rule).sheet(sheet)
    };
    let with_first = |byte| {
        let mut sheet = depot_sheet();
        sheet[0] = byte;
        sheet
    };
    let mut byte_fewer = depot_sheet();
    byte_fewer.pop();
    let mut byte_41_and_more = depot_sheet();
    byte_41_and_more[18] = 0x41;
    byte_41_and_more.push(0xff);

    let mut full_byte_and_one = write::sheet(&one(none()).request);
    full_byte_and_one.push(0);

    let spare = |columns: usize, rules: usize| Register {
        columns,
        rules: vec![vec![false; columns]; rules],
    };
    let with_register = |register: Register, lines: Vec<Vec<u32>>| {
        let mut made = depot();
        made.request.registers.push(register);
        made.rows.push(lines);
        made
    };
    let mut registers_13 = depot();
    while registers_13.request.registers.len() < 13 {
        registers_13.request.registers.push(spare(1, 1));
        registers_13.rows.push(none());
    }
    let mut lookups_13 = depot();
    while lookups_13.request.lookups.len() < 13 {
        let again = lookups_13.request.lookups[2].clone();
        lookups_13.request.lookups.push(again);
    }
    let mut lookups_0 = made(&["A f"], "x=5", &["A(x)"], &[none()]);
    lookups_0.request.lookups.clear();
    let mut register_3 = depot();
    register_3.request.lookups[1].register = 3;
    let mut variable_4 = depot();
    variable_4.request.lookups[0].variables[1] = 4;

    let mut longest_prints = String::new();
    for lookup in 0..12 {
        let step = lookup + 1;
        longest_prints += &format!("step {step} lookup {lookup} rule 0 calls 1 rows 1\n");
    }
    longest_prints += "\
calls 12
row 4294967280 4294967281 4294967282 4294967283 4294967284 4294967285 4294967286 4294967287 \
4294967288 4294967289 4294967290 4294967291 4294967292 4294967293 4294967294 4294967295
";
    let mut longest_and_one = write::sheet(&longest().request);
    longest_and_one.push(0);

    vec![
        refused(
            "version-0",
            with_first(0x06),
            "refused 7 0\n",
            "The depot sheet with version 0.",
            "§2.2",
        ),
        refused(
            "version-2",
            with_first(0x46),
            "refused 7 0\n",
            "The depot sheet with version 2.",
            "§2.2",
        ),
        refused(
            "registers-0",
            with_first(0x20),
            "refused 8 3\n",
            "The depot sheet with no register.",
            "§2.3",
        ),
        example(
            "registers-13",
            registers_13,
            "refused 8 3\n",
            "13 registers, all written out.",
            "§2.3",
        ),
        example(
            "lookups-0",
            lookups_0,
            "refused 8 11\n",
            "No look-up, the one variable given.",
            "§2.5",
        ),
        example(
            "lookups-13",
            lookups_13,
            "refused 8 11\n",
            "13 look-ups, all written out.",
            "§2.5",
        ),
        example(
            "columns-0",
            with_register(spare(0, 1), none()),
            "refused 8 42\n",
            "A register without a column, which serves no look-up.",
            "§2.6",
        ),
        example(
            "columns-7",
            with_register(spare(7, 1), none()),
            "refused 8 42\n",
            "A register of 7 columns, which serves no look-up.",
            "§2.6",
        ),
        example(
            "rules-0",
            with_register(spare(1, 0), none()),
            "refused 8 45\n",
            "A register without a rule, which serves no look-up.",
            "§2.6",
        ),
        example(
            "rules-9",
            with_register(spare(1, 9), none()),
            "refused 8 45\n",
            "A register of 9 rules, which serves no look-up.",
            "§2.6",
        ),
        example(
            "register-not-there",
            register_3,
            "refused 9 122\n",
            "A look-up names register 3 of three.",
            "§2.9",
        ),
        example(
            "variable-not-there",
            variable_4,
            "refused 9 118\n",
            "A look-up names variable 4 of four.",
            "§2.9",
        ),
        example(
            "open-without-r-x-left",
            made(
                &["S bf fb", "T fb bf"],
                "x y z w",
                &["S(y z)", "T(z w)"],
                &[open_s(), open_t()],
            ),
            "refused 10 0\n",
            "Example 3.1 without R, but x is still a variable.",
            "§2.11",
        ),
        refused(
            "byte-fewer",
            byte_fewer,
            "refused 2 142\n",
            "The depot sheet without its last byte.",
            "§2.10",
        ),
        example(
            "full-byte-sheet",
            one(rows(&[[1]])),
            "step 1 lookup 0 rule 0 calls 1 rows 1\ncalls 1\nrow 1\n",
            "A sheet of 32 bits needs no padding.",
            "§2.10",
        ),
        example(
            "full-byte-sheet-byte-more",
            one(rows(&[[1]])),
            "refused 11 32\n",
            "A zero byte after a full byte is no padding.",
            "§2.10",
        )
        .sheet(full_byte_and_one),
        refused(
            "one-byte",
            vec![0x26],
            "refused 2 7\n",
            "A sheet of one byte ends in the number of variables.",
            "§2.13",
        ),
        refused(
            "one-byte-version-2",
            vec![0x46],
            "refused 7 0\n",
            "A sheet of one byte, of version 2: the version comes first, though 2 is the lower number.",
            "§2.14",
        ),
        refused(
            "unused-and-padding",
            vec![0x22, 0x22, 0x44, 0x00, 0x01],
            "refused 10 1\n",
            "An unused variable, and a padding bit of 1.",
            "§2.14",
        ),
        refused(
            "padding-and-byte-more",
            byte_41_and_more,
            "refused 11 146\n",
            "The depot sheet with the last byte 41 and a byte more.",
            "§2.13",
        ),
        refused(
            "empty-sheet",
            Vec::new(),
            "refused 2 0\n",
            "A sheet of no bytes.",
            "§6.4",
        ),
        example(
            "longest-sheet",
            longest(),
            longest_prints,
            "A sheet of 193 bytes: each number at its most, all variables given.",
            "§2.12",
        ),
        example(
            "longest-sheet-byte-more",
            longest(),
            "refused 11 1544\n",
            "Byte 194 is noticed.",
            "§6.6",
        )
        .sheet(longest_and_one),
    ]
}

/// The row data.
fn row_data() -> Vec<Example> {
    let depot_data = || write::bytes(&write::words(&depot().rows));
    let refused =
        |name, data, shows, rule| example(name, depot(), "refused 3 0\n", shows, rule).data(data);
    let left_over = |mut data: Vec<u8>, bytes: usize| {
        data.resize(data.len() + bytes, 0);
        data
    };
    let short = || {
        let mut data = depot_data();
        data.truncate(data.len() - 4);
        data
    };
    let mut byte_41 = write::sheet(&depot().request);
    byte_41[18] = 0x41;

    let mut words_16385 = full_data();
    words_16385.request.registers.push(Register {
        columns: 1,
        rules: vec![vec![false]],
    });
    words_16385.rows.push(none());

    let spare = |spare: &str, lines| made(&[spare, "A f"], "v", &["A(v)"], &[lines, rows(&[[9]])]);
    vec![
        refused(
            "word-missing",
            short(),
            "The depot data without its last word.",
            "§5.1",
        ),
        refused(
            "word-left-over",
            left_over(depot_data(), 4),
            "The depot data and one word more.",
            "§3.4",
        ),
        refused("empty-data", Vec::new(), "Row data of no bytes.", "§6.4"),
        refused(
            "left-over-bytes",
            left_over(depot_data(), 1),
            "The depot data and one byte more.",
            "§6.5",
        ),
        refused(
            "left-over-bytes-short",
            left_over(short(), 3),
            "The depot data without its last word, and three bytes: they complete nothing.",
            "§6.5",
        ),
        example(
            "left-over-bytes-bad-sheet",
            depot(),
            "refused 11 146\n",
            "A left-over byte and a bad sheet: the sheet's refusal.",
            "§6.5",
        )
        .sheet(byte_41)
        .data(left_over(depot_data(), 1)),
        example(
            "register-without-lookup",
            spare("spare fff", rows(&[[1, 2, 3], [4, 5, 6]])),
            "step 1 lookup 0 rule 0 calls 1 rows 1\ncalls 1\nrow 9\n",
            "A register without a look-up owns its words.",
            "§3.3",
        ),
        example(
            "register-without-lookup-513",
            spare("spare f", from(1, 513)),
            "refused 3 0\n",
            "The count of a register without a look-up is checked.",
            "§3.2",
        ),
        example(
            "count-4294967295",
            made(&["A ffffff"], "a b c d e f", &["A(a b c d e f)"], &[none()]),
            "refused 3 0\n",
            "A count of 4,294,967,295 with six columns, and one row.",
            "§3.2",
        )
        .data(write::bytes(&[4_294_967_295, 1, 2, 3, 4, 5, 6])),
        example(
            "count-wraps",
            made(&["A ffff"], "a b c d", &["A(a b c d)"], &[none()]),
            "refused 3 0\n",
            "A count of 1,073,741,824 with four columns: 2 to the 32 words, and none is there.",
            "§3.2",
        )
        .data(write::bytes(&[1_073_741_824])),
        example(
            "words-16384",
            full_data(),
            "\
step 1 lookup 0 rule 0 calls 1 rows 1
step 2 lookup 1 rule 0 calls 1 rows 1
calls 2
row 300 300 1300
",
            "16,384 words of row data are taken.",
            "§3.5",
        ),
        example(
            "words-16385",
            words_16385,
            "refused 3 0\n",
            "One register more, without a row: 16,385 words, sound but for their number.",
            "§3.5",
        ),
        example(
            "words-16385-left-over",
            full_data(),
            "refused 3 0\n",
            "16,384 sound words and one word more.",
            "§3.5",
        )
        .data(left_over(write::bytes(&write::words(&full_data().rows)), 4)),
    ]
}

/// The page that lists the examples.
pub fn readme() -> String {
    let mut text = "\
# Examples

Each folder holds `sheet.bin`, `data.bin` and `expected`: what the program prints, byte for byte,
when it runs in that folder. Each `expected` was worked out by hand from the rules; lists of
hundreds of rows are written by a loop that counts, and no join made them. The readable form of
every example stands in `tests/second/src/examples.rs`, and `write_examples` of that package writes
the files and this page.

Each line says what the example shows, then the rule of docs/RULES.md that it comes from.

"
    .to_string();
    for example in all() {
        text += &format!(
            "- `{}`: {} From {}.\n",
            example.name, example.shows, example.from
        );
    }
    text
}
