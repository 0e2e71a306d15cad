//! Requests step by step: the steps and tables of the whole answer, every case and refusal, and states kept in
//! bytes and taken up by another process.

mod examples;

use ebbcandle::linked::{self, Detail, NO_ROOM, TURN_PLACES};
use ebbcandle::steps::{Next, State, Took, CALL_WORDS, STATE_BYTES};
use ebbcandle::*;
use examples::examples;
use std::process::Command;

const SHEET: [u8; 19] = [
    0x26, 0x66, 0x86, 0x43, 0x21, 0xA8, 0x00, 0x00, 0x00, 0x1C, 0x00, 0x00, 0x00, 0x04, 0x44, 0x88,
    0x4C, 0x00, 0x40,
];
const WORDS: [u32; 23] = [
    4, 7, 101, 7, 102, 7, 103, 8, 104, 4, 101, 1, 102, 2, 103, 1, 104, 1, 2, 101, 51, 103, 52,
];

/// What no operation writes.
const OLD: u32 = u32::MAX;

/// A request with what is lent for it: tables and a list of calls with 8 words more than they need.
#[derive(Debug, Clone, PartialEq, Eq)]
struct Play {
    state: State,
    first: Vec<u32>,
    second: Vec<u32>,
    calls: Vec<u32>,
}

impl Play {
    fn of(state: State) -> Play {
        Play {
            state,
            first: vec![OLD; TABLE + 8],
            second: vec![OLD; TABLE + 8],
            calls: vec![OLD; CALL_WORDS + 8],
        }
    }

    fn start(sheet: &[u8]) -> Play {
        Play::of(State::start(sheet).unwrap())
    }

    fn choose(&mut self) -> Result<Next, Refusal> {
        let (first, second) = (&mut self.first, &mut self.second);
        self.state.choose(first, second, &mut self.calls)
    }

    fn take(&mut self, step: usize, sent: &[u32]) -> Result<Took, Refusal> {
        let (first, second) = (&mut self.first, &mut self.second);
        self.state.take(step, sent, first, second)
    }

    /// Both tables are these, and zeros up to word 8,192; words beyond stay.
    fn holds(&self, rows: &[[u32; ROW]]) {
        let list = rows.concat();
        assert_eq!(self.first[..list.len()], list);
        for zeros in [&self.first[list.len()..], &self.second] {
            let (zeros, beyond) = zeros.split_at(zeros.len() - 8);
            assert!(zeros.iter().all(|word| *word == 0));
            assert_eq!(beyond, [OLD; 8]);
        }
    }
}

fn refused(number: u32, detail: Detail) -> Refusal {
    Refusal { number, detail }
}

/// The first values of a row, and zeros.
fn row(values: &[u32]) -> [u32; ROW] {
    let mut row = [0; ROW];
    row[..values.len()].copy_from_slice(values);
    row
}

/// A step taken, as look-up, calls, rows after it and rows sent, by rule 0.
fn taken(lookup: usize, calls: usize, rows: usize, sent: usize) -> Result<Took, Refusal> {
    Ok(Took::Taken(Step {
        lookup,
        rule: 0,
        calls,
        rows,
        sent,
        charge: calls,
    }))
}

/// The next step, by rule 0.
fn next(lookup: usize, calls: usize) -> Result<Next, Refusal> {
    Ok(Next::Calls {
        lookup,
        rule: 0,
        calls,
    })
}

/// The depot case with two steps taken, and the third chosen.
fn depot_at_step_3() -> Play {
    let mut play = Play::start(&SHEET);
    play.choose().unwrap();
    play.take(1, &[7, 101, 7, 102, 7, 103]).unwrap();
    play.choose().unwrap();
    play.take(2, &[101, 1, 102, 2, 103, 1]).unwrap();
    assert_eq!(play.choose(), next(1, 2));
    play
}

#[test]
fn the_depot_case_step_by_step() {
    let mut play = Play::start(&SHEET);
    assert_eq!((play.state.steps_taken(), play.state.rows()), (0, 1));
    assert_eq!(play.choose(), next(2, 1));
    assert_eq!(play.calls[..2], [7, 0]);
    // no table is written before a step is taken
    assert!(play.first.iter().chain(&play.second).all(|w| *w == OLD));
    // out of order, and a row twice
    let sent = [7, 103, 7, 101, 7, 102, 7, 101];
    assert_eq!(play.take(1, &sent), taken(2, 1, 3, 3));
    play.holds(&[101, 102, 103].map(|machine| row(&[7, machine, 1])));
    assert_eq!((play.state.steps_taken(), play.state.rows()), (1, 3));
    assert_eq!(play.choose(), next(0, 3));
    assert_eq!(play.calls[..4], [101, 102, 103, 0]);
    assert_eq!(play.take(2, &[101, 1, 102, 2, 103, 1]), taken(0, 3, 2, 3));
    assert_eq!(play.choose(), next(1, 2));
    assert_eq!(play.calls[..4], [101, 103, 0, 0]);
    assert!(play.calls[2..CALL_WORDS].iter().all(|word| *word == 0));
    assert_eq!(play.calls[CALL_WORDS..], [OLD; 8]);
    assert_eq!(play.take(3, &[101, 51, 103, 52]), taken(1, 2, 2, 2));
    play.holds(&[row(&[7, 101, 1, 51]), row(&[7, 103, 1, 52])]);
    assert_eq!((play.state.steps_taken(), play.state.rows()), (3, 2));
    let before = play.clone();
    assert_eq!(play.choose(), Ok(Next::AllTaken));
    assert_eq!(play, before);
    let (mut first, mut second) = (vec![OLD; TABLE + 8], vec![OLD; TABLE + 8]);
    answer_into(&SHEET, &WORDS, &mut first, &mut second).unwrap();
    assert_eq!((play.first, play.second), (first, second));
}

/// The rows of each register.
fn rows_of(sheet: &Sheet, words: &[u32]) -> Vec<Vec<Vec<u32>>> {
    let mut at = 0;
    let mut rows = |register: &Register| {
        let count = words[at] as usize;
        let own = &words[at + 1..][..count * register.columns];
        at += 1 + own.len();
        own.chunks(register.columns).map(<[u32]>::to_vec).collect()
    };
    sheet.registers.iter().map(&mut rows).collect()
}

/// The register's rows that have the values of some call, last row first, and twice as far as there is room.
fn delivery(rows: &[Vec<u32>], marks: &[bool], calls: &[Vec<u32>]) -> Vec<u32> {
    let shown = |row: &Vec<u32>| -> Vec<u32> {
        let given = row.iter().zip(marks).filter(|(_, must)| **must);
        given.map(|(value, _)| *value).collect()
    };
    let asked = rows.iter().filter(|row| calls.contains(&shown(row)));
    let mut sent: Vec<Vec<u32>> = asked.rev().cloned().collect();
    let room = 512 - sent.len();
    sent.extend_from_within(..room.min(sent.len()));
    sent.concat()
}

/// The steps of a request that is played against registers with these rows, or the refusal that ends it.
fn played(play: &mut Play, sheet: &Sheet, words: &[u32]) -> Result<Vec<Step>, Refusal> {
    let rows = rows_of(sheet, words);
    let mut steps = Vec::new();
    while let Next::Calls {
        lookup,
        rule,
        calls,
    } = play.choose()?
    {
        // asked again, it is the same
        let again = play.clone();
        assert!(play.choose().is_ok() && *play == again);
        let register = sheet.lookups[lookup].register;
        let marks = &sheet.registers[register].rules[rule];
        let width = marks.iter().filter(|must| **must).count();
        let call = |i: usize| play.calls[i * width..][..width].to_vec();
        let asked: Vec<Vec<u32>> = (0..calls).map(call).collect();
        assert!(asked.windows(2).all(|two| two[0] < two[1]));
        let sent = delivery(&rows[register], marks, &asked);
        // taken up from bytes, as by another process
        play.state = State::from_bytes(play.state.to_bytes());
        let Took::Taken(step) = play.take(steps.len() + 1, &sent)? else {
            panic!("step {} was taken before", steps.len() + 1)
        };
        assert_eq!((step.lookup, step.rule, step.calls), (lookup, rule, calls));
        steps.push(step);
        assert_eq!(play.state.steps_taken(), steps.len());
        assert_eq!(play.state.rows(), step.rows);
    }
    Ok(steps)
}

/// Every example comes to the steps, the refusal and the tables of the whole answer.
#[test]
fn each_example_step_by_step() {
    let (mut taken, mut over, mut refused) = (0, 0, 0);
    for (bytes, data) in examples() {
        let started = State::start(&bytes);
        assert_eq!(started.as_ref().err(), check_route(&bytes).err().as_ref());
        let (Ok(state), Ok(words)) = (started, words_of(&data)) else {
            refused += 1;
            continue;
        };
        let mut whole = (vec![OLD; TABLE + 8], vec![OLD; TABLE + 8]);
        let route = answer_into(&bytes, &words, &mut whole.0, &mut whole.1);
        if route.as_ref().is_err_and(|refusal| refusal.number == 3) {
            continue;
        }
        let mut play = Play::of(state);
        let steps = played(&mut play, &read_sheet(&bytes).unwrap(), &words);
        assert_eq!(steps, route.map(|route| route.steps), "{bytes:02X?}");
        assert!(
            (&play.first, &play.second) == (&whole.0, &whole.1),
            "{bytes:02X?}"
        );
        if let Err(refusal) = steps {
            told_again(play, refusal);
            over += 1;
        }
        taken += 1;
    }
    assert!(
        taken > 20 && over > 1 && refused > 20,
        "{taken} {over} {refused}"
    );
}

/// A 5 is told again by each later call, right behind 1, and zeroes both tables again; the list of calls stays.
fn told_again(mut play: Play, refusal: Refusal) {
    assert_eq!(refusal.number, 5);
    let (state, calls) = (play.state.clone(), play.calls.clone());
    for step in [0, 1, refusal.detail, 13] {
        for again in [true, false] {
            play.first[..TABLE].fill(9);
            play.second[..TABLE].fill(9);
            let told = match again {
                true => play.choose().map(|_| ()),
                false => play.take(step, &[1]).map(|_| ()),
            };
            assert_eq!(told, Err(refusal));
            play.holds(&[]);
            assert_eq!((&play.state, &play.calls), (&state, &calls));
        }
    }
    let second = &mut play.second[..TABLE - 1];
    let short = play.state.take(1, &[], &mut play.first, second);
    assert_eq!(short, Err(refused(1, 0)));
}

/// A step that is taken already is told as such, whatever is sent for it, and nothing changes.
#[test]
fn taken_already() {
    let play = depot_at_step_3();
    for step in [1, 2] {
        for sent in [&[][..], &[7, 101], &[7], &[9; 2_000]] {
            let mut late = play.clone();
            assert_eq!(late.take(step, sent), Ok(Took::Already));
            assert_eq!(late, play);
        }
    }
    let mut last = play;
    last.take(3, &[]).unwrap();
    let before = last.clone();
    assert_eq!(last.take(3, &[101, 51]), Ok(Took::Already));
    assert_eq!(last, before);
    assert_eq!(last.take(4, &[]), Err(refused(15, 0)));
}

/// 15, 32 and 16 change nothing, and the right delivery is taken after them as before.
#[test]
fn refused_deliveries() {
    let many: Vec<u32> = [101, 51].repeat(513);
    let play = depot_at_step_3();
    for (step, sent, number) in [
        (0, &[][..], 15),
        (4, &[], 15),
        (usize::MAX, &[1], 15),
        (3, &[101], 32),
        (3, &[101, 51, 103], 32),
        (3, &many, 32),
        (3, &[102, 51], 16),
        (3, &[101, 51, 0, 52], 16),
    ] {
        let mut wrong = play.clone();
        assert_eq!(wrong.take(step, sent), Err(refused(number, 0)));
        assert_eq!(wrong, play);
        assert_eq!(wrong.take(3, &[101, 51, 103, 52]), taken(1, 2, 2, 2));
    }
    // a step that is not yet chosen
    let mut early = Play::start(&SHEET);
    assert_eq!(early.take(1, &[7, 101]), Err(refused(15, 0)));
    // 512 rows with repeats are taken; a free column that differs is no fault
    assert_eq!(play.clone().take(3, &many[..1_024]), taken(1, 2, 1, 1));
    let mut early = Play::start(&SHEET);
    early.choose().unwrap();
    early.take(1, &[7, 101]).unwrap();
    early.choose().unwrap();
    assert_eq!(early.take(2, &[101, 2]), taken(0, 1, 0, 1));
    early.holds(&[]);
    // no rows are left, so no call is
    assert_eq!(early.choose(), next(1, 0));
    assert_eq!(early.take(3, &[]), taken(1, 0, 0, 0));
    assert_eq!(early.choose(), Ok(Next::AllTaken));
}

#[test]
fn refusal_1() {
    let short = [
        [TABLE - 1, TABLE, CALL_WORDS],
        [TABLE, TABLE - 1, CALL_WORDS],
        [TABLE, TABLE, CALL_WORDS - 1],
        [0, 0, 0],
    ];
    let play = depot_at_step_3();
    for [one, two, three] in short {
        let mut lent = play.clone();
        let Play {
            state,
            first,
            second,
            calls,
        } = &mut lent;
        let (first, second) = (&mut first[..one], &mut second[..two]);
        let next = state.choose(first, second, &mut calls[..three]);
        assert_eq!(next, Err(refused(1, 0)));
        if (one, two) != (TABLE, TABLE) {
            // before all else
            for step in [0, 1, 3] {
                let took = state.take(step, &[1], first, second);
                assert_eq!(took, Err(refused(1, 0)));
            }
        }
        assert_eq!(lent, play);
    }
}

#[test]
fn the_bytes_of_a_state() {
    let play = depot_at_step_3();
    let bytes = play.state.to_bytes();
    assert_eq!(bytes[..19], SHEET);
    assert!(bytes[19..193].iter().all(|byte| *byte == 0));
    // 19 bytes, look-ups 0 and 2 answered, 2 rows, look-up 1 chosen by rule 0, and no 5
    assert_eq!(bytes[193..], [19, 0, 5, 0, 2, 1, 1, 0, 0]);
    assert_eq!(State::from_bytes(bytes), play.state);
    let start = State::start(&SHEET).unwrap().to_bytes();
    assert_eq!(start[193..], [19, 0, 0, 0, 1, 0, 0, 0, 0]);
    // look-ups that the sheet does not have are none that are answered
    let mut more = bytes;
    more[194] = 0xFF;
    assert_eq!(State::from_bytes(more).steps_taken(), 2);
}

/// Any bytes are a state, and any words may stand in the tables.
#[test]
fn states_that_do_not_hold_together() {
    for bytes in [[0; STATE_BYTES], [0xFF; STATE_BYTES]] {
        let mut play = Play::of(State::from_bytes(bytes));
        assert_eq!(play.state.steps_taken(), 0);
        let next = match bytes[201] {
            0 => Ok(Next::AllTaken),
            over => Err(refused(5, over.into())),
        };
        assert_eq!(play.choose(), next);
    }
    let depot = depot_at_step_3();
    let with = |place: usize, byte: u8| {
        let mut bytes = depot.state.to_bytes();
        bytes[place] = byte;
        Play {
            state: State::from_bytes(bytes),
            ..depot.clone()
        }
    };
    // a sheet of another length is not sound
    for length in [0, 18, 20, 193, 255] {
        let mut play = with(193, length);
        assert_eq!(play.choose(), Ok(Next::AllTaken));
        assert_eq!(play.take(1, &[]), Err(refused(15, 0)));
    }
    // a step that is answered, has no such rule, or is none of the sheet's counts as not chosen
    for (place, byte) in [(198, 0), (199, 0), (199, 3), (200, 1)] {
        let mut play = with(place, byte);
        assert_eq!(play.take(3, &[101, 51]), Err(refused(15, 0)));
        assert_eq!(play.choose(), next(1, 2));
    }
    // any but 0 is chosen
    let mut play = with(198, 9);
    assert_eq!(play.choose(), next(1, 2));
    assert_eq!(play.state, depot.state);
    // rows that are too many, or do not ascend, are no list
    for (place, byte) in [(196, 3), (197, 3)] {
        assert_eq!(with(place, byte).choose(), next(1, 0));
    }
    let mut play = depot.clone();
    play.first[3] = 1;
    assert_eq!(play.choose(), next(1, 0));
}

/// The file for another process, by the name of this variable.
const KEPT: &str = "EBBCANDLE_KEPT";

/// A state and the words of its list, in a file's bytes.
fn kept(play: &Play) -> Vec<u8> {
    let list = &play.first[..ROW * play.state.rows()];
    let words = list.iter().flat_map(|word| word.to_be_bytes());
    play.state.to_bytes().into_iter().chain(words).collect()
}

/// What these bytes keep. Nothing but the list's rows is read of the tables.
fn taken_up(bytes: &[u8]) -> Play {
    let (state, list) = bytes.split_at(STATE_BYTES);
    let mut play = Play::of(State::from_bytes(state.try_into().unwrap()));
    let list = words_of(list).unwrap();
    play.first[..list.len()].copy_from_slice(&list);
    play
}

/// A second process takes the request up from a file, plays it to its end, and leaves it there.
#[test]
fn another_process_takes_it_up() {
    let said = read_sheet(&SHEET).unwrap();
    if let Some(file) = std::env::var_os(KEPT) {
        // this is that process
        let mut play = taken_up(&std::fs::read(&file).unwrap());
        let step = play.state.steps_taken() + 1;
        assert_eq!(play.take(step, &[101, 51, 103, 52]), taken(1, 2, 2, 2));
        return std::fs::write(file, kept(&play)).unwrap();
    }
    let file = std::env::temp_dir().join(format!("ebbcandle-kept-{}", std::process::id()));
    std::fs::write(&file, kept(&depot_at_step_3())).unwrap();
    let ended = Command::new(std::env::current_exe().unwrap())
        .args(["--exact", "another_process_takes_it_up"])
        .env(KEPT, &file)
        .output();
    let bytes = std::fs::read(&file).unwrap();
    std::fs::remove_file(&file).unwrap();
    assert!(ended.unwrap().status.success());
    let mut play = Play::start(&SHEET);
    played(&mut play, &said, &WORDS).unwrap();
    assert_eq!(bytes, kept(&play));
    assert_eq!(taken_up(&bytes).choose(), Ok(Next::AllTaken));
}

#[test]
fn a_state_without_room() {
    let mut short = [7; STATE_BYTES - 1];
    assert_eq!(linked::start(&SHEET, &mut short).0, NO_ROOM);
    assert_eq!(linked::start(&[], &mut short).0, NO_ROOM);
    assert_eq!(short, [7; STATE_BYTES - 1]);
    let mut state = [7; STATE_BYTES + 3];
    assert_eq!(linked::start(&SHEET[..1], &mut state), (2, 7));
    assert_eq!(state[..STATE_BYTES], [0; STATE_BYTES]);
    assert_eq!(linked::start(&SHEET, &mut state), (0, 0));
    assert_eq!(state[STATE_BYTES..], [7; 3]);
    let (mut first, mut second) = (vec![OLD; TABLE], vec![OLD; TABLE]);
    let mut calls = vec![OLD; CALL_WORDS];
    let started = state;
    for (bytes, places) in [
        (STATE_BYTES - 1, TURN_PLACES),
        (STATE_BYTES, TURN_PLACES - 1),
    ] {
        let (state, mut out) = (&mut state[..bytes], vec![7; places]);
        let chosen = linked::choose(state, &mut first, &mut second, &mut calls, &mut out);
        let taken = linked::take(&[], 1, state, &mut first, &mut second, &mut out);
        assert_eq!((chosen, taken), (NO_ROOM, NO_ROOM));
        assert!(out.iter().all(|place| *place == 7));
    }
    assert!(first.iter().chain(&second).chain(&calls).all(|w| *w == OLD));
    assert_eq!(state, started);
    let mut out = [7; TURN_PLACES + 2];
    let chosen = linked::choose(&mut state, &mut first, &mut second, &mut calls, &mut out);
    assert_eq!((chosen, out), (0, [0, 0, 1, 2, 0, 1, 0, 0, 0, 7, 7]));
    let taken = linked::take(&[7, 101], 1, &mut state, &mut first, &mut second, &mut out);
    assert_eq!((taken, out), (0, [0, 0, 3, 2, 0, 1, 1, 1, 1, 7, 7]));
    let again = linked::take(&[7], 1, &mut state, &mut first, &mut second, &mut out);
    assert_eq!((again, out), (0, [0, 0, 4, 0, 0, 0, 0, 0, 0, 7, 7]));
    let early = linked::take(&[7], 2, &mut state, &mut first, &mut second, &mut out);
    assert_eq!((early, out), (15, [15, 0, 0, 0, 0, 0, 0, 0, 0, 7, 7]));
    assert_eq!(state[STATE_BYTES..], [7; 3]);
}

#[test]
fn the_sentences() {
    for (number, detail, words) in [
        (1, 0, "the list of calls fewer than 3,072"),
        (5, 2, "Step 2 yields over 512 rows"),
        (15, 0, "not yet chosen"),
        (16, 0, "no call asked for"),
        (32, 0, "not whole rows"),
        (17, 0, "No step is refused so."),
    ] {
        let sentence = explain::step(refused(number, detail));
        assert!(
            sentence.contains(words) && sentence.ends_with('.'),
            "{sentence}"
        );
    }
    assert_eq!(refused(15, 0).to_string(), "refused 15 0\n");
}
