//! The totals of a run.

use crate::each::each;
use std::collections::BTreeMap;

/// So many of the cases that fail are printed.
const SHOWN: u64 = 20;

/// How many cases passed and failed, and how many of those that passed had each number: 0 for an
/// answer, or a refusal.
#[derive(Default)]
pub struct Totals {
    passed: u64,
    failed: u64,
    skipped: u64,
    numbers: BTreeMap<usize, u64>,
}

impl Totals {
    /// Counts a case: its number, if it has one, or what is wrong, printed with the command that has
    /// the case again.
    pub fn add(&mut self, ran: Result<Option<usize>, String>, again: &str) {
        match ran {
            Ok(number) => {
                self.passed += 1;
                number
                    .into_iter()
                    .for_each(|n| *self.numbers.entry(n).or_default() += 1);
            }
            Err(text) => {
                self.failed += 1;
                if self.failed <= SHOWN {
                    println!("FAIL {}\n  again with: {again}", text.trim_end());
                }
            }
        }
    }

    /// Runs the cases of so many seeds, each of which gives its number, and counts them; `again` is
    /// the command that has the case of a seed again.
    pub fn add_seeds(
        &mut self,
        from: u64,
        count: u64,
        one: impl Fn(u64) -> Result<usize, String> + Sync,
        again: impl Fn(u64) -> String,
    ) {
        let seed = |place| from.wrapping_add(place);
        let ran = each(count, |place| one(seed(place)));
        for (ran, place) in ran.into_iter().zip(0..) {
            self.add(ran.map(Some), &again(seed(place)));
        }
    }

    /// Counts a case that can't be tried here.
    pub fn skip(&mut self, what: &str) {
        println!("skipped {what}");
        self.skipped += 1;
    }

    /// Prints the totals and ends the program: with status 0 where all passed, and there were some.
    pub fn end(&self) -> ! {
        println!("by number: {:?}", self.numbers);
        if self.skipped > 0 {
            println!("{} skipped", self.skipped);
        }
        println!("{} passed, {} failed", self.passed, self.failed);
        std::process::exit(i32::from(self.failed > 0 || self.passed == 0))
    }
}
