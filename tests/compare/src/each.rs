//! Cases on all processors.

use std::sync::atomic::{AtomicU64, Ordering};
use std::thread::{available_parallelism, scope};

/// What `one` gives for each number below `count`, in order. The numbers are taken in turn by as many
/// threads as there are processors.
pub fn each<T: Send>(count: u64, one: impl Fn(u64) -> T + Sync) -> Vec<T> {
    let next = AtomicU64::new(0);
    let turns = || {
        let mut done = Vec::new();
        loop {
            let number = next.fetch_add(1, Ordering::Relaxed);
            if number >= count {
                return done;
            }
            done.push((number, one(number)));
        }
    };
    let processors = available_parallelism().map_or(1, usize::from);
    let mut all: Vec<(u64, T)> = scope(|scope| {
        let threads: Vec<_> = (0..processors).map(|_| scope.spawn(turns)).collect();
        threads
            .into_iter()
            .flat_map(|thread| thread.join().expect("no thread panics"))
            .collect()
    });
    all.sort_unstable_by_key(|(number, _)| *number);
    all.into_iter().map(|(_, given)| given).collect()
}
