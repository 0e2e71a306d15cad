//! `explain NUMBER DETAIL SHEET-FILE DATA-FILE`: a refusal that the program printed for these two
//! files, in one sentence. Each file is read once, so it may be a pipe; one that can't be read counts
//! as empty. Ends with 2 for wrong words, and with 1 where the sentence can't be written; both are told
//! on standard error.

use ebbcandle::{explain, Refusal};
use std::ffi::{OsStr, OsString};
use std::io::{self, Read, Write};
use std::process::ExitCode;
use std::str::FromStr;

/// The program reads no more than this of either file.
const MOST_SHEET: u64 = 194;
const MOST_DATA: u64 = 65_540;

/// The start of a file, or nothing where it can't be read.
fn start(path: &OsStr, most: u64) -> Vec<u8> {
    let mut bytes = Vec::new();
    let read = std::fs::File::open(path).and_then(|file| file.take(most).read_to_end(&mut bytes));
    if read.is_err() {
        bytes.clear();
    }
    bytes
}

/// The number that a word is.
fn parse<T: FromStr>(word: &OsStr) -> Result<T, String> {
    let number = word.to_str().and_then(|word| word.parse().ok());
    number.ok_or_else(|| format!("no number: {}", word.to_string_lossy()))
}

/// The sentence that the words ask for.
fn sentence(words: &[OsString]) -> Result<String, String> {
    let [number, detail, sheet, data] = words else {
        return Err("explain NUMBER DETAIL SHEET-FILE DATA-FILE".to_string());
    };
    let refusal = Refusal {
        number: parse(number)?,
        detail: parse(detail)?,
    };
    let (sheet, data) = (start(sheet, MOST_SHEET), start(data, MOST_DATA));
    Ok(explain::refusal(refusal, &sheet, &data))
}

/// Writes a line, all of it.
fn write_line(line: &str) -> io::Result<()> {
    let mut output = io::stdout();
    writeln!(output, "{line}")?;
    output.flush()
}

/// Tells what is wrong, as far as that can be written.
fn told(message: &str, status: u8) -> ExitCode {
    let _ = writeln!(io::stderr(), "explain: {message}");
    ExitCode::from(status)
}

fn main() -> ExitCode {
    let words: Vec<OsString> = std::env::args_os().skip(1).collect();
    match sentence(&words).map(|sentence| write_line(&sentence)) {
        Ok(Ok(())) => ExitCode::SUCCESS,
        Ok(Err(error)) => told(&format!("the sentence can't be written: {error}"), 1),
        Err(message) => told(&message, 2),
    }
}
