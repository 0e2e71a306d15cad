//! Choosing and taking, apart, with cases on both sides of each edge.

use second::examples::{depot, from, longest, made, none, product, rows};
use second::made_up::{case as any_case, Made};
use second::steps::{start, Act, Call, Case, Lent, State, STATE_BYTES};
use second::{answer, check_route, tables, write, Step};

/// What is lent is filled with this.
const FILL: u32 = 4_294_967_295;

/// A request that is answered step by step. What is lent has words and bytes beyond what is needed.
struct Desk(Lent);

impl Desk {
    fn new(made: &Made) -> Desk {
        let mut lent = Lent {
            state: vec![255; STATE_BYTES + 2],
            first: vec![FILL; 8_194],
            second: vec![FILL; 8_195],
            calls: vec![FILL; 3_076],
        };
        assert_eq!(lent.start(&write::sheet(&made.request)), (0, 0));
        Desk(lent)
    }

    fn call(&mut self, act: Act, sizes: [usize; 3]) -> Case {
        let case = self.0.call(&Call { act, sizes });
        // what is beyond stays
        let Lent {
            state,
            first,
            second,
            calls,
        } = &self.0;
        assert_eq!(state[STATE_BYTES..], [255; 2]);
        assert_eq!(
            (&first[8_192..], &second[8_192..]),
            (&[FILL; 2][..], &[FILL; 3][..])
        );
        assert_eq!(calls[3_072..], [FILL; 4]);
        case
    }

    fn choose(&mut self) -> Case {
        self.call(Act::Choose, [8_194, 8_195, 3_076])
    }

    fn take(&mut self, step: u64, sent: &[u32]) -> Case {
        let sent = sent.to_vec();
        self.call(Act::Take { step, sent }, [8_194, 8_195, 0])
    }

    /// Chooses and takes, and gives the step.
    fn taken(&mut self, step: u64, sent: &[u32]) -> Step {
        assert_eq!(self.choose().name(), "calls");
        match self.take(step, sent) {
            Case::Taken(step) => step,
            other => panic!("{other:?}"),
        }
    }

    /// The rows of the list, with the first so many variables; all else is 0.
    fn list<const N: usize>(&self) -> Vec<[u32; N]> {
        let rows = usize::from(self.0.read().rows);
        let (list, behind) = self.0.first[..8_192].split_at(16 * rows);
        assert!(behind.iter().all(|word| *word == 0));
        assert!(self.0.second[..8_192].iter().all(|word| *word == 0));
        let row = |row: &[u32]| {
            assert!(row[N..].iter().all(|word| *word == 0));
            row[..N].try_into().unwrap()
        };
        list.chunks(16).map(row).collect()
    }

    /// The list of calls begins with these words, and then has zeros.
    fn has_calls(&self, words: &[u32]) {
        let (calls, behind) = self.0.calls[..3_072].split_at(words.len());
        assert_eq!(calls, words);
        assert!(behind.iter().all(|word| *word == 0));
    }

    /// Changes the state.
    fn change(&mut self, change: impl Fn(&mut State)) {
        let mut state = self.0.read();
        change(&mut state);
        self.0.state[..STATE_BYTES].copy_from_slice(&state.to_bytes());
    }
}

fn calls(lookup: usize, rule: usize, calls: usize) -> Case {
    Case::Calls {
        lookup,
        rule,
        calls,
    }
}

fn refused(number: u32) -> Case {
    refused_at(number, 0)
}

fn refused_at(number: u32, detail: u32) -> Case {
    Case::Refused { number, detail }
}

/// Look-up, rule, calls, rows after it, rows sent and charge.
fn numbers(step: &Step) -> [u64; 6] {
    let (lookup, rule) = (step.lookup as u64, step.rule as u64);
    [lookup, rule, step.calls, step.rows, step.sent, step.charge]
}

#[test]
fn the_depot_case_step_by_step() {
    let mut desk = Desk::new(&depot());
    assert_eq!(desk.choose(), calls(2, 0, 1));
    desk.has_calls(&[7]);
    let stock = desk.take(1, &[7, 103, 7, 101, 7, 102, 7, 101]);
    assert_eq!(stock.values(), [2, 0, 1, 3, 3, 1]);
    assert_eq!(desk.list(), [[7, 101, 1], [7, 102, 1], [7, 103, 1]]);
    assert_eq!(desk.choose(), calls(0, 0, 3));
    desk.has_calls(&[101, 102, 103]);
    let state = desk.take(2, &[101, 1, 102, 2, 103, 1]);
    assert_eq!(state.values(), [0, 0, 3, 2, 3, 3]);
    assert_eq!(desk.choose(), calls(1, 0, 2));
    desk.has_calls(&[101, 103]);
    let carrier = desk.take(3, &[103, 52, 101, 51]);
    assert_eq!(carrier.values(), [1, 0, 2, 2, 2, 2]);
    assert_eq!(desk.list(), [[7, 101, 1, 51], [7, 103, 1, 52]]);
    let before = desk.0.clone();
    assert_eq!(desk.choose(), Case::AllTaken);
    assert_eq!(desk.0, before);
}

/// A reply is lost and sent again, and then the first one comes too; the state is kept in bytes, and
/// another takes it up.
#[test]
fn a_reply_that_is_lost() {
    let mut desk = Desk::new(&depot());
    desk.taken(1, &[7, 101, 7, 102, 7, 103]);
    assert_eq!(desk.choose(), calls(0, 0, 3));
    // nothing came: the same calls are listed again
    let kept = desk.0.read().to_bytes();
    let mut other = Desk::new(&depot());
    other.0.first = desk.0.first.clone();
    other.0.second = desk.0.second.clone();
    other.0.state[..STATE_BYTES].copy_from_slice(&kept);
    assert_eq!(other.choose(), calls(0, 0, 3));
    other.has_calls(&[101, 102, 103]);
    let reply = [101, 1, 102, 2, 103, 1];
    assert_eq!(other.take(2, &reply).name(), "taken");
    let after = other.0.clone();
    assert_eq!(other.take(2, &reply), Case::Already);
    assert_eq!(other.take(1, &reply), Case::Already);
    assert_eq!(other.0, after);
    assert_eq!(
        numbers(&other.taken(3, &[101, 51, 103, 52])),
        [1, 0, 2, 2, 2, 2]
    );
}

// ---------------------------------------------------------------- starting

#[test]
fn starting_refuses_as_the_route_check() {
    let nothing = State::from_bytes([0; STATE_BYTES]);
    for seed in 0..600 {
        let sheet = any_case(seed).sheet;
        let (number, detail, state) = start(&sheet);
        assert_eq!((number, detail), check_route(&sheet));
        if number != 0 {
            assert_eq!(state, nothing);
            continue;
        }
        let mut wanted = nothing.clone();
        wanted.sheet[..sheet.len()].copy_from_slice(&sheet);
        wanted.bytes = sheet.len() as u8;
        wanted.rows = 1;
        assert_eq!(state, wanted);
    }
}

/// A state that was refused has nothing to choose.
#[test]
fn a_start_that_is_refused() {
    let mut desk = Desk::new(&depot());
    for sheet in [&[][..], &[0x26], &[0; 300]] {
        let (number, _) = desk.0.start(sheet);
        assert_ne!(number, 0);
        assert_eq!(desk.choose(), Case::AllTaken);
        for step in [0, 1, 2, 13] {
            assert_eq!(desk.take(step, &[]), refused(15));
        }
    }
}

#[test]
fn the_longest_sheet() {
    let request = longest();
    let mut desk = Desk::new(&request);
    assert_eq!(desk.0.read().bytes, 193);
    for step in 1..=12 {
        let row = request.rows[step - 1][0].clone();
        let made = desk.taken(step as u64, &row);
        assert_eq!(numbers(&made), [step as u64 - 1, 0, 1, 1, 1, 1]);
    }
    assert_eq!(desk.choose(), Case::AllTaken);
    assert_eq!(desk.0.read().answered, 0xfff);
}

// ---------------------------------------------------------------- choosing

#[test]
fn choosing_needs_its_room() {
    let mut desk = Desk::new(&depot());
    let before = desk.0.clone();
    for sizes in [
        [8_191, 8_195, 3_076],
        [8_194, 8_191, 3_076],
        [8_194, 8_195, 3_071],
        [0, 0, 0],
    ] {
        assert_eq!(desk.call(Act::Choose, sizes), refused(1));
        assert_eq!(desk.0, before);
    }
    assert_eq!(
        desk.call(Act::Choose, [8_192, 8_192, 3_072]),
        calls(2, 0, 1)
    );
}

#[test]
fn asked_twice_it_gives_the_same() {
    let mut desk = Desk::new(&depot());
    assert_eq!(desk.choose(), calls(2, 0, 1));
    let after = desk.0.clone();
    assert_eq!(desk.choose(), calls(2, 0, 1));
    assert_eq!(desk.0, after);
    // the list of calls may come back with anything
    desk.0.calls[..3_072].fill(9);
    assert_eq!(desk.choose(), calls(2, 0, 1));
    assert_eq!(desk.0, after);
    assert_eq!(desk.0.first, vec![FILL; 8_194]);
    assert_eq!(desk.0.second, vec![FILL; 8_195]);
}

/// Values stand in the order of the columns, and calls ascend by them; a variable that repeats is
/// repeated.
#[test]
fn the_order_of_the_calls() {
    let request = made(
        &["A ff", "B bbbf"],
        "x y z",
        &["A(x y)", "B(y x y z)"],
        &[none(), none()],
    );
    let mut desk = Desk::new(&request);
    desk.taken(1, &[1, 9, 2, 8, 3, 8, 3, 7]);
    assert_eq!(desk.list(), [[1, 9], [2, 8], [3, 7], [3, 8]]);
    assert_eq!(desk.choose(), calls(1, 0, 4));
    desk.has_calls(&[7, 3, 7, 8, 2, 8, 8, 3, 8, 9, 1, 9]);
}

#[test]
fn calls_of_the_same_values_are_one() {
    let request = made(
        &["A ff", "B bf"],
        "x y z",
        &["A(x y)", "B(y z)"],
        &[none(), none()],
    );
    let mut desk = Desk::new(&request);
    desk.taken(1, &[1, 9, 2, 8, 3, 8, 4, 9]);
    assert_eq!(desk.choose(), calls(1, 0, 2));
    desk.has_calls(&[8, 9]);
}

/// With nothing to give there is one call of no words, and none for an empty list.
#[test]
fn nothing_to_give() {
    let request = made(&["A f", "B f"], "x y", &["A(x)", "B(y)"], &[none(), none()]);
    let mut desk = Desk::new(&request);
    assert_eq!(desk.choose(), calls(0, 0, 1));
    desk.has_calls(&[]);
    assert_eq!(desk.take(1, &[]).values(), [0, 0, 1, 0, 0, 1]);
    assert_eq!(desk.choose(), calls(1, 0, 0));
    desk.has_calls(&[]);
    assert_eq!(desk.take(2, &[5]), refused(16));
    assert_eq!(desk.take(2, &[]).values(), [1, 0, 0, 0, 0, 0]);
    assert_eq!(desk.choose(), Case::AllTaken);
}

/// 512 calls of 6 values fill the list of calls.
#[test]
fn the_list_of_calls_is_full() {
    let request = made(
        &["A fff", "B bbbbbb"],
        "x y z",
        &["A(x y z)", "B(x y z z y x)"],
        &[none(), none()],
    );
    let mut desk = Desk::new(&request);
    let sent: Vec<u32> = (1..=512).flat_map(|i| [i, 1_000 - i, 7]).collect();
    assert_eq!(desk.taken(1, &sent).rows, 512);
    assert_eq!(desk.choose(), calls(1, 0, 512));
    let words: Vec<u32> = (1..=512)
        .flat_map(|i| [i, 1_000 - i, 7, 7, 1_000 - i, i])
        .collect();
    desk.has_calls(&words);
    assert_eq!(desk.take(2, &words).values(), [1, 0, 512, 512, 512, 512]);
}

// ---------------------------------------------------------------- taking

/// 15 for step 0, one that is not the next or not chosen, and one above n. Nothing changes.
#[test]
fn step_numbers() {
    let mut desk = Desk::new(&depot());
    let none_chosen = desk.0.clone();
    for step in [0, 1, 2, 3, 4, u64::MAX] {
        assert_eq!(desk.take(step, &[7, 101]), refused(15));
        assert_eq!(desk.0, none_chosen);
    }
    desk.choose();
    let chosen = desk.0.clone();
    for step in [0, 2, 3, 4, 257, 65_537, (1 << 32) + 1, u64::MAX] {
        assert_eq!(desk.take(step, &[7, 101]), refused(15));
        // 15 comes before 32 and 16
        assert_eq!(desk.take(step, &[7]), refused(15));
        assert_eq!(desk.take(step, &[8, 104]), refused(15));
        assert_eq!(desk.0, chosen);
    }
    assert_eq!(desk.take(1, &[7, 101]).name(), "taken");
    let taken = desk.0.clone();
    assert_eq!(desk.take(2, &[101, 1]), refused(15));
    // a step that is taken is told before 32 and 16
    for sent in [&[7, 101][..], &[], &[7], &[8, 104], &[7; 1_026]] {
        assert_eq!(desk.take(1, sent), Case::Already);
    }
    assert_eq!(desk.0, taken);
    desk.taken(2, &[101, 1]);
    desk.taken(3, &[101, 51]);
    let all = desk.0.clone();
    for step in [1, 2, 3] {
        assert_eq!(desk.take(step, &[1, 2, 3]), Case::Already);
    }
    for step in [0, 4, 5] {
        assert_eq!(desk.take(step, &[]), refused(15));
    }
    assert_eq!(desk.0, all);
}

#[test]
fn taking_needs_both_tables() {
    let mut desk = Desk::new(&depot());
    desk.choose();
    let before = desk.0.clone();
    for (first, second) in [(8_191, 8_195), (8_194, 8_191), (0, 0)] {
        for (step, sent) in [(0, vec![]), (1, vec![7, 101]), (1, vec![7]), (2, vec![])] {
            let act = Act::Take { step, sent };
            assert_eq!(desk.call(act, [first, second, 0]), refused(1));
        }
        assert_eq!(desk.0, before);
    }
    let act = Act::Take {
        step: 1,
        sent: vec![7, 101],
    };
    assert_eq!(desk.call(act, [8_192, 8_192, 0]).name(), "taken");
}

/// 512 lines are taken, and 513 are not, however many are the same.
#[test]
fn whole_rows_and_at_most_512() {
    let mut desk = Desk::new(&depot());
    desk.choose();
    let before = desk.0.clone();
    for sent in [
        &[7][..],
        &[7, 101, 7],
        &[7; 1_026],
        &[7; 1_025],
        &[7; 4_000],
    ] {
        assert_eq!(desk.take(1, sent), refused(32));
        assert_eq!(desk.0, before);
    }
    // 32 comes before 16
    assert_eq!(desk.take(1, &[8, 104, 8]), refused(32));
    assert_eq!(desk.take(1, &[8; 1_026]), refused(32));
    assert_eq!(desk.take(1, &[7; 1_024]).values(), [2, 0, 1, 1, 1, 1]);
}

/// A(x, y) is joined by B(x, y, z), where x must be given and y is known all the same.
fn known_free() -> Desk {
    let request = made(
        &["A ff", "B bff"],
        "x y z",
        &["A(x y)", "B(x y z)"],
        &[none(), none()],
    );
    let mut desk = Desk::new(&request);
    desk.taken(1, &[1, 5, 2, 6]);
    assert_eq!(desk.choose(), calls(1, 0, 2));
    desk.has_calls(&[1, 2]);
    desk
}

/// Only the must-give columns are held to the calls. A free column that is known and differs is no
/// fault: the row does not join, and it is sent all the same.
#[test]
fn a_row_that_no_call_asked_for() {
    let mut desk = known_free();
    let before = desk.0.clone();
    for sent in [
        &[3, 5, 9][..],
        &[0, 5, 9],
        &[1, 5, 9, 3, 5, 9],
        &[3, 5, 9, 1, 5, 9],
    ] {
        assert_eq!(desk.take(2, sent), refused(16));
        assert_eq!(desk.0, before);
    }
    let sent = [1, 5, 9, 1, 6, 9, 2, 5, 8, 1, 5, 7, 1, 5, 9];
    assert_eq!(desk.take(2, &sent).values(), [1, 0, 2, 2, 4, 2]);
    assert_eq!(desk.list(), [[1, 5, 7], [1, 5, 9]]);
}

/// A row must show some call's values together.
#[test]
fn values_that_are_not_asked_for_together() {
    let request = made(
        &["A ff", "B bb"],
        "x y",
        &["A(x y)", "B(y x)"],
        &[none(), none()],
    );
    let mut desk = Desk::new(&request);
    desk.taken(1, &[1, 5, 2, 6]);
    assert_eq!(desk.choose(), calls(1, 0, 2));
    desk.has_calls(&[5, 1, 6, 2]);
    assert_eq!(desk.take(2, &[5, 2]), refused(16));
    assert_eq!(desk.take(2, &[1, 5]), refused(16));
    assert_eq!(desk.take(2, &[6, 2]).values(), [1, 0, 2, 1, 1, 2]);
}

/// A variable in two look-ups never takes 0: such a row is sent and does not join. One that stands in one
/// column may be 0.
#[test]
fn rows_with_0() {
    let request = made(
        &["A ff", "B bf"],
        "x y z",
        &["A(x y)", "B(x z)"],
        &[none(), none()],
    );
    let mut desk = Desk::new(&request);
    assert_eq!(numbers(&desk.taken(1, &[0, 5, 1, 0])), [0, 0, 1, 1, 2, 1]);
    assert_eq!(desk.list(), [[1, 0]]);
    assert_eq!(desk.choose(), calls(1, 0, 1));
    assert_eq!(desk.take(2, &[0, 3]), refused(16));
    assert_eq!(desk.take(2, &[1, 0, 1, 2]).values(), [1, 0, 1, 2, 2, 1]);
    assert_eq!(desk.list(), [[1, 0, 0], [1, 0, 2]]);
}

/// A row that does not agree with itself does not join, in free columns and in must-give ones.
#[test]
fn a_variable_that_repeats() {
    let request = made(&["A ff"], "x", &["A(x x)"], &[none()]);
    let mut desk = Desk::new(&request);
    assert_eq!(numbers(&desk.taken(1, &[1, 2, 3, 3])), [0, 0, 1, 1, 2, 1]);
    assert_eq!(desk.list(), [[3]]);
    let request = made(&["A bb"], "x=6", &["A(x x)"], &[none()]);
    let mut desk = Desk::new(&request);
    assert_eq!(desk.choose(), calls(0, 0, 1));
    desk.has_calls(&[6, 6]);
    assert_eq!(desk.take(1, &[6, 7]), refused(16));
    assert_eq!(desk.take(1, &[6, 6]).values(), [0, 0, 1, 1, 1, 1]);
}

/// Fewer rows than the register has make a smaller list; others than it has are joined.
#[test]
fn other_deliveries_are_answered() {
    let mut desk = Desk::new(&depot());
    assert_eq!(numbers(&desk.taken(1, &[7, 102])), [2, 0, 1, 1, 1, 1]);
    assert_eq!(
        numbers(&desk.taken(2, &[102, 1, 102, 2])),
        [0, 0, 1, 1, 2, 1]
    );
    assert_eq!(numbers(&desk.taken(3, &[])), [1, 0, 1, 0, 0, 1]);
    assert_eq!(desk.list::<0>(), [[]; 0]);
    assert_eq!(desk.choose(), Case::AllTaken);
}

// ---------------------------------------------------------------- 5

/// The first 5, and each later one right behind 1, zeroes both tables; the list of calls stays.
#[test]
fn over_512_rows() {
    let mut desk = Desk::new(&product(23, 23));
    let rows: Vec<u32> = (1..=23).collect();
    desk.taken(1, &rows);
    assert_eq!(desk.choose(), calls(1, 0, 1));
    let mut chosen = desk.0.read();
    desk.0.calls[..3_072].fill(9);
    let zeroed = |desk: &Desk| {
        let Lent {
            first,
            second,
            calls,
            ..
        } = &desk.0;
        assert!(first[..8_192]
            .iter()
            .chain(&second[..8_192])
            .all(|word| *word == 0));
        assert!(calls[..3_072].iter().all(|word| *word == 9));
    };
    assert_eq!(desk.take(2, &rows), refused_at(5, 2));
    zeroed(&desk);
    chosen.over = 2;
    assert_eq!(desk.0.read(), chosen);
    for step in [0, 1, 2, 3] {
        desk.0.first[..8_192].fill(7);
        desk.0.second[..8_192].fill(7);
        assert_eq!(desk.take(step, &[1]), refused_at(5, 2));
        zeroed(&desk);
    }
    desk.0.first[3] = 7;
    assert_eq!(desk.choose(), refused_at(5, 2));
    zeroed(&desk);
    desk.0.first[3] = 7;
    assert_eq!(desk.call(Act::Choose, [8_194, 8_195, 3_071]), refused(1));
    assert_eq!(desk.0.first[3], 7);
    assert_eq!(desk.0.read(), chosen);
}

#[test]
fn just_512_rows() {
    let mut desk = Desk::new(&product(16, 32));
    let sixteen: Vec<u32> = (1..=16).collect();
    let more: Vec<u32> = (1..=32).collect();
    desk.taken(1, &sixteen);
    assert_eq!(desk.taken(2, &more).rows, 512);
    let mut desk = Desk::new(&product(19, 27));
    let nineteen: Vec<u32> = (1..=19).collect();
    desk.taken(1, &nineteen);
    desk.choose();
    let more: Vec<u32> = (1..=27).collect();
    assert_eq!(desk.take(2, &more), refused_at(5, 2));
    // refusals before it do not change what a delivery gives
    let mut desk = Desk::new(&product(19, 27));
    desk.taken(1, &nineteen);
    desk.choose();
    assert_eq!(desk.take(3, &more), refused(15));
    assert_eq!(desk.take(2, &[1; 513]), refused(32));
    assert_eq!(desk.take(2, &more[..26]).values(), [1, 0, 1, 494, 26, 1]);
}

// ---------------------------------------------------------------- any state

#[test]
fn a_state_in_bytes() {
    let bytes: [u8; STATE_BYTES] = std::array::from_fn(|place| (place * 7 + 1) as u8);
    let state = State::from_bytes(bytes);
    assert_eq!(state.sheet[..], bytes[..193]);
    assert_eq!(state.bytes, bytes[193]);
    assert_eq!(
        state.answered,
        u16::from(bytes[194]) * 256 + u16::from(bytes[195])
    );
    assert_eq!(
        state.rows,
        u16::from(bytes[196]) * 256 + u16::from(bytes[197])
    );
    assert_eq!(state.chosen, bytes[198] != 0);
    assert_eq!([state.lookup, state.rule, state.over], bytes[199..]);
    // any byte but 0 says that a step is chosen, and 1 is written
    let mut again = bytes;
    again[198] = 1;
    assert_eq!(state.to_bytes(), again);
    assert_eq!(State::from_bytes(again), state);
    for (byte, chosen) in [(0, false), (1, true), (2, true), (255, true)] {
        again[198] = byte;
        assert_eq!(State::from_bytes(again).chosen, chosen);
    }
}

/// A sheet that is not sound asks nothing; its bytes stay.
#[test]
fn a_state_with_a_sheet_that_is_not_sound() {
    for change in [
        |state: &mut State| state.sheet[0] = 0xff,
        |state: &mut State| state.bytes -= 1,
        |state: &mut State| state.bytes += 1,
        |state: &mut State| state.bytes = 255,
        |state: &mut State| state.bytes = 0,
    ] {
        let mut desk = Desk::new(&depot());
        desk.taken(1, &[7, 101]);
        desk.choose();
        desk.change(change);
        let before = desk.0.clone();
        assert_eq!(desk.choose(), Case::AllTaken);
        for step in 0..4 {
            assert_eq!(desk.take(step, &[101, 1]), refused(15));
        }
        assert_eq!(desk.0, before);
    }
}

/// Of a length over 193 the 193 bytes count.
#[test]
fn a_sheet_that_is_said_to_be_longer() {
    let mut desk = Desk::new(&longest());
    desk.change(|state| state.bytes = 200);
    assert_eq!(desk.choose(), calls(0, 0, 1));
    assert_eq!(desk.0.read().bytes, 200);
}

/// Some look-ups can't be answered: nothing is left to choose before all are.
#[test]
fn a_state_without_a_route() {
    let request = made(&["A f", "B b"], "x y", &["A(x)", "B(y)"], &[none(), none()]);
    let sheet = write::sheet(&request.request);
    assert_eq!(check_route(&sheet), (4, 2));
    let mut desk = Desk::new(&depot());
    desk.change(|state| {
        state.sheet[..sheet.len()].copy_from_slice(&sheet);
        state.bytes = sheet.len() as u8;
    });
    assert_eq!(numbers(&desk.taken(1, &[4])), [0, 0, 1, 1, 1, 1]);
    assert_eq!(desk.choose(), Case::AllTaken);
    assert_eq!(desk.take(2, &[]), refused(15));
}

/// With no look-up answered the list is the first one, whatever stands in the table and in the state.
#[test]
fn the_first_list_is_the_sheets() {
    for rows in [0, 1, 2, 513, 65_535] {
        let mut desk = Desk::new(&depot());
        desk.change(|state| state.rows = rows);
        assert_eq!(desk.choose(), calls(2, 0, 1));
        desk.has_calls(&[7]);
        assert_eq!(desk.take(1, &[7, 101]).name(), "taken");
        assert_eq!(desk.list(), [[7, 101, 1]]);
    }
}

/// Bits of look-ups that there are not are kept, and are no steps.
#[test]
fn bits_beyond_the_look_ups() {
    let mut desk = Desk::new(&depot());
    desk.change(|state| state.answered = 0xfff8);
    assert_eq!(desk.take(1, &[]), refused(15));
    assert_eq!(numbers(&desk.taken(1, &[7, 101])), [2, 0, 1, 1, 1, 1]);
    assert_eq!(desk.0.read().answered, 0xfffc);
    assert_eq!(desk.take(2, &[]), refused(15));
}

/// A change of what is lent, in words.
type Changed = (&'static str, fn(&mut Lent));

/// A list that does not hold together is empty.
#[test]
fn a_table_that_does_not_hold_together() {
    let changes: [Changed; 7] = [
        ("exchanged", |lent| {
            (lent.first[1], lent.first[17]) = (102, 101)
        }),
        ("the same", |lent| lent.first[17] = 101),
        ("a variable that is not known", |lent| lent.first[3] = 1),
        ("a variable that there is not", |lent| lent.first[31] = 1),
        ("a row more", |lent| lent.state[197] = 4),
        ("513 rows", |lent| {
            lent.state[196..198].copy_from_slice(&[2, 1])
        }),
        ("no rows", |lent| lent.state[197] = 0),
    ];
    for (what, change) in changes {
        let mut desk = Desk::new(&depot());
        desk.taken(1, &[7, 101, 7, 102, 7, 103]);
        change(&mut desk.0);
        assert_eq!(desk.choose(), calls(0, 0, 0), "{what}");
        desk.has_calls(&[]);
        assert_eq!(desk.take(2, &[101, 1]), refused(16), "{what}");
        assert_eq!(desk.take(2, &[]).values(), [0, 0, 0, 0, 0, 0], "{what}");
        assert_eq!(desk.list::<0>(), [[]; 0]);
    }
}

/// A list that holds together is taken as it is, and words behind it do not matter.
#[test]
fn a_table_that_is_another() {
    let mut desk = Desk::new(&depot());
    desk.taken(1, &[7, 101, 7, 102, 7, 103]);
    desk.0.first[0] = 5;
    desk.0.first[33] = 400;
    desk.0.first[48..8_192].fill(6);
    desk.0.second[..8_192].fill(6);
    assert_eq!(desk.choose(), calls(0, 0, 3));
    desk.has_calls(&[101, 102, 400]);
    assert_eq!(desk.take(2, &[400, 1, 101, 1]).values(), [0, 0, 3, 2, 2, 3]);
    assert_eq!(desk.list(), [[5, 101, 1], [7, 400, 1]]);
    // fewer rows are counted
    let mut desk = Desk::new(&depot());
    desk.taken(1, &[7, 101, 7, 102, 7, 103]);
    desk.change(|state| state.rows = 2);
    assert_eq!(desk.choose(), calls(0, 0, 2));
}

/// A step that is chosen counts only where its look-up is open and its rule can be used.
#[test]
fn a_chosen_step_that_can_not_be_taken() {
    let picks = [(2, 0), (3, 0), (12, 0), (255, 0), (0, 1), (0, 8), (1, 255)];
    for (lookup, rule) in picks {
        let mut desk = Desk::new(&depot());
        desk.taken(1, &[7, 101]);
        desk.change(|state| (state.chosen, state.lookup, state.rule) = (true, lookup, rule));
        let before = desk.0.clone();
        for sent in [&[][..], &[7, 101], &[101, 1], &[1]] {
            assert_eq!(desk.take(2, sent), refused(15));
        }
        assert_eq!(desk.0, before);
        assert_eq!(desk.choose(), calls(0, 0, 1));
    }
    // state and carrier need the machine, which is not known yet
    for lookup in [0, 1] {
        let mut desk = Desk::new(&depot());
        desk.change(|state| (state.chosen, state.lookup) = (true, lookup));
        assert_eq!(desk.take(1, &[]), refused(15));
    }
    // another look-up than CHAIN's choice can be taken where it is open and its rule can be used
    let mut desk = Desk::new(&depot());
    desk.taken(1, &[7, 101]);
    desk.change(|state| (state.chosen, state.lookup) = (true, 1));
    assert_eq!(desk.take(2, &[101, 51]).values(), [1, 0, 1, 1, 1, 1]);
}

/// A state may say that any step was refused with 5.
#[test]
fn any_5_is_told() {
    for over in [1, 12, 255] {
        let mut desk = Desk::new(&depot());
        desk.change(|state| state.over = over);
        assert_eq!(desk.choose(), refused_at(5, over.into()));
        assert_eq!(desk.take(1, &[]), refused_at(5, over.into()));
        assert!(desk.0.first[..8_192].iter().all(|word| *word == 0));
    }
}

// ---------------------------------------------------------------- the whole answer

/// Right deliveries, by the list of calls alone, come to the whole answer: each step, and every word of
/// both tables.
fn comes_to_the_answer(made: &Made) {
    let (sheet, words) = (write::sheet(&made.request), write::words(&made.rows));
    let whole = answer(&sheet, &words, 8_194, 8_195);
    let mut desk = Desk::new(made);
    let mut steps = Vec::new();
    while let Case::Calls {
        lookup,
        rule,
        calls,
    } = desk.choose()
    {
        let register = made.request.lookups[lookup].register;
        let marks = &made.request.registers[register].rules[rule];
        let musts = marks.iter().filter(|must| **must).count();
        let listed = &desk.0.calls[..calls * musts];
        let asked = |row: &&Vec<u32>| {
            let columns = row.iter().zip(marks).filter(|(_, must)| **must);
            let given: Vec<u32> = columns.map(|(value, _)| *value).collect();
            match musts {
                0 => calls > 0,
                _ => listed.chunks(musts).any(|call| call == given),
            }
        };
        let sent: Vec<Vec<u32>> = made.rows[register].iter().filter(asked).cloned().collect();
        match desk.take(steps.len() as u64 + 1, &sent.concat()) {
            Case::Taken(step) => steps.push(step),
            other => {
                assert_eq!(other, refused_at(5, steps.len() as u32 + 1));
                break;
            }
        }
    }
    let (mut first, mut second) = (vec![FILL; 8_194], vec![FILL; 8_195]);
    tables(&whole, &mut first, &mut second);
    assert_eq!((desk.0.first, desk.0.second), (first, second));
    match whole.number {
        0 => assert_eq!(steps, whole.steps),
        number => assert_eq!((number, whole.detail), (5, steps.len() as u32 + 1)),
    }
}

#[test]
fn examples_come_to_the_answer() {
    comes_to_the_answer(&depot());
    comes_to_the_answer(&longest());
    comes_to_the_answer(&product(16, 32));
    comes_to_the_answer(&product(23, 23));
    comes_to_the_answer(&made(
        &["A f", "B f"],
        "v",
        &["A(v)", "B(v)"],
        &[from(1, 1), none()],
    ));
    comes_to_the_answer(&made(
        &["R bf ff", "S f"],
        "x y",
        &["R(x y)", "S(x)"],
        &[
            rows(&[[1, 0], [1, 2], [2, 3], [2, 3], [0, 9]]),
            rows(&[[1]]),
        ],
    ));
}
