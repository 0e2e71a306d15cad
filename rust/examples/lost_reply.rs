//! The depot case step by step, over a link that sends one reply twice, loses one, and brings it when nobody
//! waits for it any more. No machine is counted twice: prints what happens, and what the program prints for the
//! depot case. Between two calls of the library the request is kept in bytes.

use ebbcandle::steps::{Next, State, Took, CALL_WORDS, STATE_BYTES};
use ebbcandle::{Answer, Refusal, Step, ROW, TABLE};
use std::collections::VecDeque;
use std::error::Error;
use std::io::Write;

/// The request: state(machine, condition), carrier(machine, truck), stock(depot, machine), with
/// depot 7 and condition 1 given.
const SHEET: [u8; 19] = [
    0x26, 0x66, 0x86, 0x43, 0x21, 0xA8, 0x00, 0x00, 0x00, 0x1C, 0x00, 0x00, 0x00, 0x04, 0x44, 0x88,
    0x4C, 0x00, 0x40,
];

/// The rows of the register that each look-up asks: state, carrier and stock. Each is asked by its first
/// column, so a call is one word.
const ROWS: [&[[u32; 2]]; 3] = [
    &[[101, 1], [102, 2], [103, 1], [104, 1]],
    &[[101, 51], [103, 52]],
    &[[7, 101], [7, 102], [7, 103], [8, 104]],
];

/// A reply: the step and the call that it is for, and the register's rows for that call.
#[derive(Clone)]
struct Reply {
    step: usize,
    call: u32,
    rows: Vec<u32>,
}

/// The link: how many calls were made, the replies under way, and the one that is lost.
#[derive(Default)]
struct Link {
    calls: usize,
    replies: VecDeque<Reply>,
    lost: Option<Reply>,
}

impl Link {
    /// Makes a call. The reply to the second call comes twice. That to the third is lost, and comes behind
    /// the sixth call after all.
    fn ask(&mut self, step: usize, lookup: usize, call: u32) {
        let rows = ROWS[lookup].iter().filter(|row| row[0] == call).flatten();
        let rows = rows.copied().collect();
        let reply = Reply { step, call, rows };
        self.calls += 1;
        match self.calls {
            2 => self.replies.extend([reply.clone(), reply]),
            3 => self.lost = Some(reply),
            6 => self
                .replies
                .extend(self.lost.take().into_iter().chain([reply])),
            _ => self.replies.push_back(reply),
        }
    }
}

/// The request as it is kept: the bytes of its state, and both tables. Each call takes the state up from its
/// bytes and puts it away again, so that each could be another process's.
#[derive(Clone, PartialEq)]
struct Kept {
    state: [u8; STATE_BYTES],
    first: Vec<u32>,
    second: Vec<u32>,
}

impl Kept {
    fn choose(&mut self, calls: &mut [u32]) -> Result<Next, Refusal> {
        let mut state = State::from_bytes(self.state);
        let next = state.choose(&mut self.first, &mut self.second, calls);
        self.state = state.to_bytes();
        next
    }

    fn take(&mut self, step: usize, sent: &[u32]) -> Result<Took, Refusal> {
        let mut state = State::from_bytes(self.state);
        let took = state.take(step, sent, &mut self.first, &mut self.second);
        self.state = state.to_bytes();
        took
    }
}

/// Words, parted by spaces.
fn text(words: &[u32]) -> String {
    let words: Vec<String> = words.iter().map(u32::to_string).collect();
    words.join(" ")
}

/// The rows sent for all calls of a step. Calls without a reply are made again. A reply to a step before is
/// handed on all the same, and the library says that this step is taken.
fn replies(
    output: &mut impl Write,
    kept: &mut Kept,
    link: &mut Link,
    step: usize,
    lookup: usize,
    calls: &[u32],
) -> Result<Vec<u32>, Box<dyn Error>> {
    let (mut open, mut sent) = (calls.to_vec(), Vec::new());
    open.iter().for_each(|call| link.ask(step, lookup, *call));
    while !open.is_empty() {
        let Some(reply) = link.replies.pop_front() else {
            writeln!(output, "  no reply to {}: asked again", text(&open))?;
            open.iter().for_each(|call| link.ask(step, lookup, *call));
            continue;
        };
        let (of, call, rows) = (reply.step, reply.call, reply.rows);
        writeln!(output, "  reply to {call}, step {of}: {}", text(&rows))?;
        if of == step {
            open.retain(|waiting| *waiting != call);
            sent.extend(rows);
        } else {
            let before = kept.clone();
            if kept.take(of, &rows)? == Took::Already && *kept == before {
                writeln!(output, "  step {of} is taken already: nothing changes")?;
            }
        }
    }
    Ok(sent)
}

fn main() -> Result<(), Box<dyn Error>> {
    let mut output = std::io::stdout();
    let mut link = Link::default();
    let mut kept = Kept {
        state: State::start(&SHEET)?.to_bytes(),
        first: vec![0; TABLE],
        second: vec![0; TABLE],
    };
    let mut list = [0; CALL_WORDS];
    let mut steps: Vec<Step> = Vec::new();
    while let Next::Calls { lookup, calls, .. } = kept.choose(&mut list)? {
        let (step, calls) = (steps.len() + 1, &list[..calls]);
        writeln!(output, "step {step} asks look-up {lookup}: {}", text(calls))?;
        let sent = replies(&mut output, &mut kept, &mut link, step, lookup, calls)?;
        if let Took::Taken(taken) = kept.take(step, &sent)? {
            let (came, different) = (sent.len() / 2, taken.sent);
            writeln!(output, "  taken: {came} rows came, {different} different")?;
            steps.push(taken);
        }
    }
    writeln!(output, "all steps are taken by {} calls", link.calls)?;
    let calls = steps.iter().map(|step| step.calls).sum();
    let rows = State::from_bytes(kept.state).rows();
    let rows = kept.first.chunks(ROW).take(rows);
    let answer = Answer {
        steps,
        calls,
        charge: calls,
        rows: rows.map(|row| row[..4].to_vec()).collect(),
    };
    write!(output, "{answer}")?;
    Ok(())
}
