//! Times and instructions of the library beside those of a peer written for speed, of the second
//! program and of SQLite, on the same inputs.
//!
//! `bench check` holds the peer and SQLite to the second program on made-up cases, and the requests
//! that are answered step by step to their whole answers; `bench times` and `bench instructions FOLDER`
//! print a table each; `bench count WORKLOAD CONTENDER CALLS` makes calls of one contender in the
//! function that is counted.

mod check;
mod contenders;
mod instructions;
mod places;
mod plays;
mod table;
mod times;
mod workloads;

fn main() -> Result<(), String> {
    let words: Vec<String> = std::env::args().skip(1).collect();
    let words: Vec<&str> = words.iter().map(String::as_str).collect();
    match words[..] {
        ["check"] => check::check(),
        ["times"] => {
            times::print();
            Ok(())
        }
        ["instructions", folder] => instructions::print(folder),
        ["count", workload, contender, calls] => instructions::count(workload, contender, calls),
        _ => {
            Err("bench check, times, instructions FOLDER, or count WORKLOAD CONTENDER CALLS".into())
        }
    }
}
