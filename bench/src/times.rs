//! Times: the median of many batches, the contenders in turns.

use crate::contenders::{ready, Run, NAMES};
use crate::table;
use crate::workloads::{all, Asked};
use std::time::{Duration, Instant};

/// Each batch takes at least this long: less than a processor's turn, so that other work on the
/// machine falls into few of the batches.
const BATCH: Duration = Duration::from_millis(1);

/// So many batches of each contender at most, and at least; the time shown is the median.
const MOST: usize = 201;
const LEAST: usize = 5;

/// A contender takes no more turns once its batches took this long.
const ENOUGH: Duration = Duration::from_secs(1);

/// A contender with the times of its batches, in nanoseconds a call.
struct Timed {
    run: Run,
    calls: u32,
    times: Vec<f64>,
    spent: Duration,
}

impl Timed {
    fn new(run: Run) -> Timed {
        let mut timed = Timed {
            run,
            calls: 1,
            times: Vec::new(),
            spent: Duration::ZERO,
        };
        while timed.batch() < BATCH {
            timed.calls *= 2;
        }
        timed
    }

    /// The time of as many calls as make a batch.
    fn batch(&mut self) -> Duration {
        let start = Instant::now();
        for _ in 0..self.calls {
            (self.run)();
        }
        start.elapsed()
    }

    /// One turn, unless there were enough.
    fn turn(&mut self) {
        if self.times.len() < LEAST || self.spent < ENOUGH {
            let time = self.batch();
            self.spent += time;
            self.times
                .push(time.as_nanos() as f64 / f64::from(self.calls));
        }
    }

    fn median(mut self) -> f64 {
        self.times.sort_by(f64::total_cmp);
        self.times[self.times.len() / 2]
    }
}

/// The times of all contenders on one workload.
fn figures(asked: &Asked) -> table::Figures {
    let mut all: [Option<Timed>; NAMES.len()] =
        std::array::from_fn(|place| ready(place, asked, true).map(Timed::new));
    for _ in 0..MOST {
        all.iter_mut().flatten().for_each(Timed::turn);
    }
    all.map(|timed| timed.map(Timed::median))
}

/// Prints the table of times.
pub fn print() {
    table::head("nanoseconds a call");
    for workload in all() {
        table::line(&workload.name, &figures(&workload.asked));
    }
}
