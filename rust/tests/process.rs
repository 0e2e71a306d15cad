//! The process that has the library where it can't be linked: the same results, and an error for a
//! message that is cut off or garbled.

#[cfg(direct)]
use ebbcandle::linked::direct;
#[cfg(not(direct))]
use ebbcandle::linked::piped as direct;
use ebbcandle::linked::process::{start, Item, Request};
use ebbcandle::linked::{
    piped, Detail, CALL_WORDS, PLACES, SHEET_BYTES, SHEET_PLACES, STATE_BYTES, TURN_PLACES,
};
use std::io::{Read, Write};
use std::path::Path;
use std::time::{Duration, Instant};

/// A process that does nothing is given up after so long.
const PATIENCE: Duration = Duration::from_secs(20);

/// The sheet and the row data of each folder of examples/.
fn examples() -> Vec<(Vec<u8>, Vec<u32>)> {
    let top = Path::new(env!("CARGO_MANIFEST_DIR")).join("../examples");
    let folders = std::fs::read_dir(top).unwrap();
    let files = folders.map(|folder| folder.unwrap().path());
    files
        .filter(|folder| folder.is_dir())
        .map(|folder| {
            let read = |name| std::fs::read(folder.join(name)).unwrap();
            // of each file's left-over bytes there is no word
            let mut data = read("data.bin");
            data.truncate(data.len() / 4 * 4);
            (read("sheet.bin"), ebbcandle::words_of(&data).unwrap())
        })
        .collect()
}

/// Both lent tables and the places, filled with their own numbers.
fn lent(lengths: [usize; 3]) -> (Vec<u32>, Vec<u32>, Vec<usize>) {
    let [first, second, out] = lengths;
    (
        (0..first as u32).collect(),
        (7..second as u32 + 7).collect(),
        (9..out + 9).collect(),
    )
}

#[test]
#[cfg_attr(not(direct), ignore = "the library can't be linked here")]
fn a_process_gives_what_the_library_gives() {
    let lengths = [
        [8_192, 8_192, PLACES],
        [8_200, 8_193, PLACES + 2],
        [8_192, 8_191, PLACES],
        [0, 0, PLACES],
        [8_192, 8_192, PLACES - 1],
        [8_192, 8_192, 0],
    ];
    let examples = examples();
    assert!(examples.len() > 50, "{}", examples.len());
    for (sheet, words) in &examples {
        for lengths in lengths {
            let (mut ours, mut theirs) = (lent(lengths), lent(lengths));
            let a = direct::answer(sheet, words, &mut ours.0, &mut ours.1, &mut ours.2);
            let b = piped::answer(sheet, words, &mut theirs.0, &mut theirs.1, &mut theirs.2);
            assert!((a, &ours) == (b, &theirs), "answer of {sheet:02X?}");
            for (rows, variable) in [
                (0, 0),
                (2, 1),
                (512, 15),
                (513, 0),
                (usize::MAX, 1),
                (1, 16),
            ] {
                let a = direct::count(&ours.0, rows, variable);
                assert_eq!(a, piped::count(&ours.0, rows, variable));
            }
        }
        assert_eq!(direct::check_route(sheet), piped::check_route(sheet));
        for length in [SHEET_PLACES, SHEET_PLACES + 1, SHEET_PLACES - 1, 0] {
            let (mut ours, mut theirs) = (vec![7; length], vec![7; length]);
            let a = direct::read_sheet(sheet, &mut ours);
            let b = piped::read_sheet(sheet, &mut theirs);
            assert_eq!((a, ours), (b, theirs), "reading of {sheet:02X?}");
        }
        charges_alike(sheet, words);
        writes_alike(sheet);
        types_alike(sheet, words);
        plays_alike(sheet, words);
    }
}

/// The answer with p and q is alike, also where they are too high.
fn charges_alike(sheet: &[u8], words: &[u32]) {
    for (p, q) in [(1, 0), (1, 1), (0, 1_000), (1_001, 0), (1, usize::MAX)] {
        let (mut ours, mut theirs) = (
            lent([8_192, 8_193, PLACES + 1]),
            lent([8_192, 8_193, PLACES + 1]),
        );
        let (first, second, out) = (&mut ours.0, &mut ours.1, &mut ours.2);
        let a = direct::answer_charged(sheet, words, p, q, first, second, out);
        let (first, second, out) = (&mut theirs.0, &mut theirs.1, &mut theirs.2);
        let b = piped::answer_charged(sheet, words, p, q, first, second, out);
        assert!((a, &ours) == (b, &theirs), "charges of {sheet:02X?}");
    }
}

/// A request is started alike, and its steps are chosen and taken alike, with no rows and with words as they
/// come.
fn plays_alike(sheet: &[u8], words: &[u32]) {
    for (bytes, places) in [
        (STATE_BYTES, TURN_PLACES),
        (STATE_BYTES + 1, TURN_PLACES + 1),
        (STATE_BYTES - 1, TURN_PLACES),
        (STATE_BYTES, TURN_PLACES - 1),
    ] {
        let lengths = [8_192, 8_193, places];
        let (mut ours, mut theirs) = (lent(lengths), lent(lengths));
        let (mut our_calls, mut their_calls) = (vec![7; CALL_WORDS + 1], vec![7; CALL_WORDS + 1]);
        let (mut our_state, mut their_state) = (vec![7; bytes], vec![7; bytes]);
        let a = direct::start(sheet, &mut our_state);
        let b = piped::start(sheet, &mut their_state);
        assert_eq!((a, &our_state), (b, &their_state));
        for (step, sent) in [(1, &words[..0]), (1, words), (2, words), (3, &words[..0])] {
            let (first, second, out) = (&mut ours.0, &mut ours.1, &mut ours.2);
            let a = [
                direct::choose(&mut our_state, first, second, &mut our_calls, out),
                direct::take(sent, step, &mut our_state, first, second, out),
            ];
            let (first, second, out) = (&mut theirs.0, &mut theirs.1, &mut theirs.2);
            let b = [
                piped::choose(&mut their_state, first, second, &mut their_calls, out),
                piped::take(sent, step, &mut their_state, first, second, out),
            ];
            assert!((a, &ours) == (b, &theirs), "steps of {sheet:02X?}");
            assert_eq!((&our_state, &our_calls), (&their_state, &their_calls));
        }
    }
}

/// Lines typed to the sheet's registers are read, answered and checked alike, and have their faulty names
/// alike.
fn types_alike(sheet: &[u8], words: &[u32]) {
    let names = b"stock state carrier";
    let lines = [
        "depot=7 cond=1 : state(machine cond) carrier(machine truck) stock(depot machine)",
        ": stock(depot) ",
        "depot=0",
        "",
    ];
    for line in lines.map(str::as_bytes) {
        let (mut ours, mut theirs) = (lent([8_192; 3]), lent([8_192; 3]));
        let a = direct::read_typed(sheet, names, line, &mut ours.2);
        let b = piped::read_typed(sheet, names, line, &mut theirs.2);
        assert!((a, &ours) == (b, &theirs), "reading of {line:02X?}");
        let a = direct::answer_typed(
            sheet,
            names,
            line,
            words,
            &mut ours.0,
            &mut ours.1,
            &mut ours.2,
        );
        let b = piped::answer_typed(
            sheet,
            names,
            line,
            words,
            &mut theirs.0,
            &mut theirs.1,
            &mut theirs.2,
        );
        assert!((a, &ours) == (b, &theirs), "answer of {line:02X?}");
        let a = direct::check_typed(sheet, names, line);
        assert_eq!(a, piped::check_typed(sheet, names, line));
        for (number, detail) in [
            a,
            (21, 0),
            (22, 2),
            (23, usize::MAX),
            (19, 0),
            (u32::MAX, 0),
        ] {
            let a = direct::faulty_name(line, number, detail);
            assert_eq!(a, piped::faulty_name(line, number, detail));
        }
    }
}

/// The places that were read of a sheet, zeros where it is refused, are written alike into buffers of
/// each kind, and too few of them alike not.
fn writes_alike(sheet: &[u8]) {
    let mut fields = vec![0; SHEET_PLACES];
    direct::read_sheet(sheet, &mut fields);
    for length in [SHEET_PLACES, SHEET_PLACES - 1, 0] {
        for room in [SHEET_BYTES, sheet.len(), sheet.len().max(1) - 1, 0] {
            let (mut ours, mut theirs) = (vec![7; room], vec![7; room]);
            let a = direct::write_sheet(&fields[..length], &mut ours);
            let b = piped::write_sheet(&fields[..length], &mut theirs);
            assert_eq!((a, ours), (b, theirs), "writing of {sheet:02X?}");
        }
    }
}

/// What a process does with this input: whether it ended well, and what it wrote. The input is
/// closed or left open; either way it must end.
fn fed(input: &[u8], closed: bool) -> (bool, Vec<u8>) {
    let mut process = start().unwrap();
    let mut open = process.stdin.take();
    // a process that ended early takes no more
    let _ = open.as_mut().unwrap().write_all(input);
    if closed {
        open = None;
    }
    let begun = Instant::now();
    let status = loop {
        if let Some(status) = process.try_wait().unwrap() {
            break status;
        }
        if begun.elapsed() > PATIENCE {
            process.kill().unwrap();
            panic!("the process hangs at {input:02X?}");
        }
        std::thread::sleep(Duration::from_millis(1));
    };
    drop(open);
    let mut written = Vec::new();
    let output = process.stdout.as_mut().unwrap();
    output.read_to_end(&mut written).unwrap();
    assert!(status.code().is_some(), "{status} at {input:02X?}");
    (status.success(), written)
}

/// A request for each operation, in their order, with the slices that it takes.
fn requests() -> Vec<Request> {
    let [answer, check_route, count, read_sheet, write_sheet] = requests_of_sheets();
    let [read_typed, answer_typed, check_typed, faulty_name] = requests_of_lines();
    let mut answer_charged = Request::new(9);
    answer_charged.lend::<u8>(&[0x26, 0x66]);
    answer_charged.lend::<u32>(&[4, 7, 101]);
    answer_charged.lend::<usize>(&[1]);
    answer_charged.lend::<usize>(&[0]);
    answer_charged.lend_back::<u32>(&[1, 2]);
    answer_charged.lend_back::<u32>(&[3]);
    answer_charged.lend_back::<usize>(&[4, 5]);
    let [start, choose, take] = requests_of_steps();
    vec![
        answer,
        check_route,
        count,
        read_sheet,
        write_sheet,
        read_typed,
        answer_typed,
        check_typed,
        faulty_name,
        answer_charged,
        start,
        choose,
        take,
    ]
}

/// Those that take a sheet, a table or fields.
fn requests_of_sheets() -> [Request; 5] {
    let (sheet, words) = ([0x26, 0x66], [4, 7, 101]);
    let mut requests = [0, 1, 2, 3, 4].map(Request::new);
    let [answer, check_route, count, read_sheet, write_sheet] = &mut requests;
    answer.lend::<u8>(&sheet);
    answer.lend::<u32>(&words);
    answer.lend_back::<u32>(&[1, 2]);
    answer.lend_back::<u32>(&[3]);
    answer.lend_back::<usize>(&[4, 5]);
    check_route.lend::<u8>(&sheet);
    check_route.lend_back::<Detail>(&[9]);
    count.lend::<u32>(&words);
    count.lend::<usize>(&[1]);
    count.lend::<usize>(&[0]);
    count.lend_back::<usize>(&[9]);
    read_sheet.lend::<u8>(&sheet);
    read_sheet.lend_back::<usize>(&[4, 5]);
    write_sheet.lend::<usize>(&[4, 5]);
    write_sheet.lend_back::<u8>(&[1, 2, 3]);
    write_sheet.lend_back::<Detail>(&[9]);
    write_sheet.lend_back::<usize>(&[9]);
    requests
}

/// Those that take a typed line.
fn requests_of_lines() -> [Request; 4] {
    let mut requests = [5, 6, 7, 8].map(Request::new);
    for request in &mut requests[..3] {
        request.lend::<u8>(&[0x26, 0x66]);
        request.lend::<u8>(b"stock");
        request.lend::<u8>(b": stock(depot)");
    }
    let [read_typed, answer_typed, check_typed, faulty_name] = &mut requests;
    read_typed.lend_back::<usize>(&[4, 5]);
    answer_typed.lend::<u32>(&[4, 7, 101]);
    answer_typed.lend_back::<u32>(&[1, 2]);
    answer_typed.lend_back::<u32>(&[3]);
    answer_typed.lend_back::<usize>(&[4, 5]);
    check_typed.lend_back::<Detail>(&[9]);
    faulty_name.lend::<u8>(b": stock");
    faulty_name.lend::<usize>(&[22]);
    faulty_name.lend::<usize>(&[2]);
    faulty_name.lend_back::<usize>(&[9]);
    faulty_name.lend_back::<usize>(&[9]);
    requests
}

/// Those of a request that is answered step by step.
fn requests_of_steps() -> [Request; 3] {
    let mut requests = [10, 11, 12].map(Request::new);
    let [start, choose, take] = &mut requests;
    start.lend::<u8>(&[0x26, 0x66]);
    start.lend_back::<u8>(&[1, 2, 3]);
    start.lend_back::<Detail>(&[9]);
    choose.lend_back::<u8>(&[1, 2, 3]);
    choose.lend_back::<u32>(&[1, 2]);
    choose.lend_back::<u32>(&[3]);
    choose.lend_back::<u32>(&[6, 7]);
    choose.lend_back::<usize>(&[4, 5]);
    take.lend::<u32>(&[7, 101]);
    take.lend::<usize>(&[1]);
    take.lend_back::<u8>(&[1, 2, 3]);
    take.lend_back::<u32>(&[1, 2]);
    take.lend_back::<u32>(&[3]);
    take.lend_back::<usize>(&[4, 5]);
    requests
}

#[test]
fn a_request_that_is_cut_off_ends_the_process() {
    for request in requests() {
        let message = request.message();
        for length in (1..message.len()).step_by(9) {
            assert_eq!(fed(&message[..length], true), (false, Vec::new()));
        }
        let (good, written) = fed(&message, true);
        assert!(good && request.answer(&mut &written[..]).is_ok());
        // The same behind another request, which is answered.
        let behind = [&message[..], &message[..20]].concat();
        assert_eq!(fed(&behind, true), (false, written));
    }
    assert_eq!(fed(&[], true), (true, Vec::new()));
}

/// A message with another value in one of its numbers.
fn garbled(message: &[u8], place: usize, value: usize) -> Vec<u8> {
    let mut number = Vec::new();
    usize::put(&[value], &mut number);
    [&message[..8 * place], &number, &message[8 * place + 8..]].concat()
}

/// The process ends at the first number that is not the operation's, though its input stays open.
#[test]
fn a_garbled_request_ends_the_process() {
    let ends = |message: &[u8], place: usize, value: usize| {
        let input = garbled(message, place, value);
        assert_eq!(fed(&input, false), (false, Vec::new()), "{place} {value}");
    };
    let requests = requests();
    let message = requests[1].message();
    for operation in [requests.len(), 1 << 32, usize::MAX] {
        ends(&message, 0, operation);
    }
    for slices in [0, 1, 3, 1 << 61, usize::MAX] {
        ends(&message, 1, slices);
    }
    // Sizes that are no whole items, not one number, or too many bytes.
    let letters = [
        "bwwwp", "bn", "wnnn", "bp", "pbnn", "bbbp", "bbbwwwp", "bbbn", "bnnnn", "bwnnwwp", "bbn",
        "bwwwp", "wnbwwp",
    ];
    assert_eq!(requests.len(), letters.len());
    for (request, letters) in requests.iter().zip(letters) {
        let message = request.message();
        for (place, letter) in (2..).zip(letters.chars()) {
            let size = usize::got(&message[8 * place..][..8]);
            let wrong = match letter {
                'b' => [1 << 63, (1 << 30) + 1],
                'n' => [0, 2 * size],
                _ => [size + 1, (1 << 30) + 8],
            };
            for size in wrong {
                ends(&message, place, size);
            }
        }
    }
}

#[test]
fn an_answer_that_is_cut_off_or_garbled_is_an_error() {
    for request in requests() {
        let (_, written) = fed(&request.message(), true);
        let read = |bytes: &[u8]| request.answer(&mut &bytes[..]);
        assert!(read(&written).is_ok());
        for length in 0..written.len() {
            assert!(read(&written[..length]).is_err(), "{length} bytes");
        }
        let sizes = usize::got(&written[8..16]);
        assert!(read(&garbled(&written, 0, 1 << 32)).is_err());
        for place in 1..2 + sizes {
            let value = usize::got(&written[8 * place..][..8]);
            for wrong in [value + 1, value - 1, usize::MAX] {
                assert!(read(&garbled(&written, place, wrong)).is_err());
            }
        }
    }
}
