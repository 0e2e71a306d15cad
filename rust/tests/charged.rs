//! Answers with p and q: steps with rows sent and charges, the tables, and refusal 17.

use ebbcandle::*;

const SHEET: [u8; 19] = [
    0x26, 0x66, 0x86, 0x43, 0x21, 0xA8, 0x00, 0x00, 0x00, 0x1C, 0x00, 0x00, 0x00, 0x04, 0x44, 0x88,
    0x4C, 0x00, 0x40,
];
const WORDS: [u32; 23] = [
    4, 7, 101, 7, 102, 7, 103, 8, 104, 4, 101, 1, 102, 2, 103, 1, 104, 1, 2, 101, 51, 103, 52,
];

/// R(x, y) with the rules bf and ff, rows that repeat and rows with 0, and S(x).
fn two_look_ups() -> (Vec<u8>, Vec<u32>) {
    let sheet = SheetBuilder::new()
        .register(&["bf", "ff"])
        .and_then(|builder| builder.register(&["f"]))
        .unwrap()
        .look_up(0, &[0, 1])
        .look_up(1, &[0]);
    let words = vec![5, 1, 0, 1, 2, 2, 3, 2, 3, 0, 9, 1, 1];
    (sheet.to_bytes().unwrap(), words)
}

/// Tables of 8,200 words, all 4,294,967,295.
fn tables() -> (Vec<u32>, Vec<u32>) {
    (vec![u32::MAX; 8_200], vec![u32::MAX; 8_200])
}

/// The route at p and q.
fn charged(sheet: &[u8], words: &[u32], p: usize, q: usize) -> Result<Route, Refusal> {
    let (mut first, mut second) = tables();
    answer_charged(sheet, words, p, q, &mut first, &mut second)
}

/// Look-up, rule, calls, rows after it, rows sent and charge of each step.
fn steps(route: &Route) -> Vec<[usize; 6]> {
    let numbers = |s: &Step| [s.lookup, s.rule, s.calls, s.rows, s.sent, s.charge];
    route.steps.iter().map(numbers).collect()
}

const REFUSED: Refusal = Refusal {
    number: 17,
    detail: 0,
};

#[test]
fn rows_sent_are_charged() {
    let (sheet, words) = two_look_ups();
    let route = charged(&sheet, &words, 1, 0).unwrap();
    assert_eq!(steps(&route), [[0, 1, 1, 3, 4, 1], [1, 0, 1, 2, 1, 1]]);
    assert_eq!((route.calls, route.charge, route.rows), (2, 2, 2));
    let route = charged(&sheet, &words, 1, 1).unwrap();
    assert_eq!(steps(&route), [[1, 0, 1, 1, 1, 2], [0, 0, 1, 2, 2, 3]]);
    assert_eq!((route.calls, route.charge, route.rows), (2, 5, 2));
    let route = charged(&sheet, &words, 0, 0).unwrap();
    assert_eq!(steps(&route), [[0, 1, 1, 3, 4, 0], [1, 0, 1, 2, 1, 0]]);
    assert_eq!((route.calls, route.charge, route.rows), (2, 0, 2));
}

#[test]
fn the_depot_case_charged() {
    let (mut first, mut second) = tables();
    let route = answer_charged(&SHEET, &WORDS, 10, 1, &mut first, &mut second).unwrap();
    let expected = [
        [2, 0, 1, 3, 3, 13],
        [1, 0, 3, 2, 2, 32],
        [0, 0, 2, 2, 2, 22],
    ];
    assert_eq!(steps(&route), expected);
    assert_eq!((route.calls, route.charge, route.rows), (6, 67, 2));
    assert_eq!(first[..4], [7, 101, 1, 51]);
    assert_eq!(first[16..20], [7, 103, 1, 52]);
    assert!(first[20..TABLE].iter().all(|word| *word == 0));
    assert!(second[..TABLE].iter().all(|word| *word == 0));
    assert_eq!(first[TABLE..], [u32::MAX; 8]);
    assert_eq!(second[TABLE..], [u32::MAX; 8]);
}

/// 17 on both sides of its edge, by p and by q, with both tables as they came.
#[test]
fn refusal_17() {
    assert!(charged(&SHEET, &WORDS, 1_000, 1_000).is_ok());
    for (p, q) in [
        (1_001, 0),
        (0, 1_001),
        (1_001, 1_001),
        ((1 << 32) + 1, 0),
        (1, 1 << 32),
        (usize::MAX, 0),
        (0, usize::MAX),
    ] {
        let (mut first, mut second) = tables();
        let route = answer_charged(&SHEET, &WORDS, p, q, &mut first, &mut second);
        assert_eq!(route, Err(REFUSED), "{p} {q}");
        assert!(first.iter().chain(&second).all(|word| *word == u32::MAX));
        // before the sheet and the row data are read
        assert_eq!(charged(&[], &[], p, q), Err(REFUSED));
        // behind a short table
        let short = answer_charged(&[], &[], p, q, &mut first, &mut second[..TABLE - 1]);
        assert_eq!(short.unwrap_err().number, 1);
    }
    assert_eq!(REFUSED.to_string(), "refused 17 0\n");
    let sentence = explain::refusal(REFUSED, &SHEET, &[]);
    assert_eq!(
        sentence,
        "What a call or a row sent is charged is above 1,000."
    );
}

/// At 1 and 0 every example is answered, or refused, as without p and q, and both tables are left alike.
#[test]
fn each_example_by_calls_alone() {
    let top = std::path::Path::new(env!("CARGO_MANIFEST_DIR")).join("../examples");
    let mut answered = 0;
    for folder in std::fs::read_dir(top).unwrap() {
        let folder = folder.unwrap().path();
        if !folder.is_dir() {
            continue;
        }
        let read = |name| std::fs::read(folder.join(name)).unwrap();
        let (sheet, words) = (read("sheet.bin"), words_of(&read("data.bin")));
        let Ok(words) = words else { continue };
        let (mut plain, mut priced) = (tables(), tables());
        let wanted = answer_into(&sheet, &words, &mut plain.0, &mut plain.1);
        let route = answer_charged(&sheet, &words, 1, 0, &mut priced.0, &mut priced.1);
        assert!(route == wanted && plain == priced, "{folder:?}");
        if let Ok(route) = route {
            assert!(route.steps.iter().all(|step| step.charge == step.calls));
            assert_eq!(route.charge, route.calls);
            answered += 1;
        }
    }
    assert!(answered > 20, "{answered}");
}
