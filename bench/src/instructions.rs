//! Instructions: one call of one contender under callgrind, which counts those of one function.

use crate::contenders::{ready, Run, NAMES};
use crate::table;
use crate::workloads::all;
use std::hint::black_box;
use std::process::Command;

/// The function whose instructions are counted, with all that it calls.
#[inline(never)]
fn counted_calls(run: &mut Run, calls: usize) -> usize {
    for _ in 0..calls {
        run();
    }
    black_box(calls)
}

/// The call of a contender on the workload with this number.
fn run_of(workload: &str, contender: &str) -> Result<Run, String> {
    let number: usize = workload.parse().map_err(|_| "a workload's number")?;
    let all = all();
    let workload = all.get(number).ok_or("no such workload")?;
    let place = NAMES.iter().position(|name| *name == contender);
    let place = place.ok_or("no such contender")?;
    ready(place, &workload.asked, false).ok_or("it takes no part".to_string())
}

/// Makes so many calls in the function that is counted.
pub fn count(workload: &str, contender: &str, calls: &str) -> Result<(), String> {
    let mut run = run_of(workload, contender)?;
    let calls = calls.parse().map_err(|_| "a number of calls")?;
    black_box(counted_calls(&mut run, calls));
    // Where callgrind misses the function's end, it counts on: let that be little.
    std::process::exit(0)
}

/// What callgrind counts of so many calls.
fn counted(folder: &str, number: usize, name: &str, calls: usize) -> Result<f64, String> {
    let own = std::env::current_exe().map_err(|error| error.to_string())?;
    let file = format!("{folder}/{number}.{}.{calls}", name.replace(' ', "-"));
    let ran = Command::new("valgrind")
        .arg("--tool=callgrind")
        .arg("--toggle-collect=*counted_calls*")
        .arg(format!("--callgrind-out-file={file}"))
        .arg(own)
        .args(["count", &number.to_string(), name, &calls.to_string()])
        .output()
        .map_err(|error| format!("valgrind: {error}"))?;
    if !ran.status.success() {
        return Err(String::from_utf8_lossy(&ran.stderr).into_owned());
    }
    let counted = std::fs::read_to_string(&file).map_err(|error| error.to_string())?;
    let mut lines = counted.lines();
    let total = lines.find_map(|line| line.strip_prefix("totals: "));
    let total = total.and_then(|total| total.trim().parse().ok());
    total.ok_or(format!("no total in {file}"))
}

/// The instructions of one call: what two calls take beyond one, so that nothing of the first call's
/// warming up and of the end of the process is among them.
fn instructions(folder: &str, number: usize, name: &str) -> Result<f64, String> {
    let one = counted(folder, number, name, 1)?;
    Ok(counted(folder, number, name, 2)? - one)
}

/// Prints the table of instructions. What callgrind wrote stays in the folder.
pub fn print(folder: &str) -> Result<(), String> {
    table::head("instructions a call");
    for (number, workload) in all().iter().enumerate() {
        let mut figures = [None; NAMES.len()];
        for (place, name) in NAMES.iter().enumerate() {
            if ready(place, &workload.asked, true).is_some() {
                figures[place] = Some(instructions(folder, number, name)?);
            }
        }
        table::line(&workload.name, &figures);
    }
    Ok(())
}
