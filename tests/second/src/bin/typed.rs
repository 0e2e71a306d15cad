//! Reads lines of expected results for typed requests, and prints each with what the second program
//! gives for its sheet, its names and its line. So what is printed for a file that agrees is the file:
//! `typed <typed.txt | cmp - typed.txt`.

use second::typed::{in_words, Typed};
use std::io::{BufRead, Write};

/// Bytes from hex, `-` for none.
fn bytes(word: &str) -> Option<Vec<u8>> {
    let byte = |place| u8::from_str_radix(word.get(place..place + 2)?, 16).ok();
    match word {
        "-" => Some(Vec::new()),
        _ => (0..word.len()).step_by(2).map(byte).collect(),
    }
}

/// The typed request of a line: its first three fields.
fn request(line: &str) -> Option<Typed> {
    let mut fields = line.split(' ');
    let mut field = |name: &str| bytes(fields.next()?.strip_prefix(name)?);
    Some(Typed {
        sheet: field("sheet=")?,
        names: field("names=")?,
        line: field("line=")?,
    })
}

fn main() -> Result<(), String> {
    let mut out = std::io::stdout().lock();
    for line in std::io::stdin().lock().lines() {
        let line = line.map_err(|error| error.to_string())?;
        let request = request(&line).ok_or(format!("no typed request: {line}"))?;
        writeln!(out, "{}", in_words(&request)).map_err(|error| error.to_string())?;
    }
    out.flush().map_err(|error| error.to_string())
}
