//! Holds the library to files of expected results: `vectors FOLDER`. A file has one case a line. The
//! files that are known are listed in `operations.rs`, each with the function that holds the library
//! to a line of it; other files are said to be skipped, and so are lines that a file's function leaves
//! out.

mod fields;
mod line;
mod operations;
mod steps;
mod tables;
mod typed;

use compare::dice::Dice;
use compare::totals::Totals;
use operations::{Hold, KNOWN, LEFT_OUT};
use std::fs;
use std::path::Path;

/// The lines of a file. Each ends in a newline, the last too.
fn lines(path: &Path) -> Result<Vec<String>, String> {
    let text = fs::read_to_string(path).map_err(|error| error.to_string())?;
    let body = text.strip_suffix('\n');
    let body = body.ok_or("there is no line, or the last one has no end")?;
    Ok(body.split('\n').map(str::to_string).collect())
}

/// The command that has this folder again.
fn again(folder: &Path) -> String {
    format!("bash tests/vectors {}", folder.display())
}

/// Holds the library to each line of a file.
fn hold_file(folder: &Path, (file, hold): (&str, Hold), totals: &mut Totals) {
    let again = again(folder);
    let lines = match lines(&folder.join(file)) {
        Ok(lines) => lines,
        Err(what) => return totals.add(Err(format!("{file}: {what}")), &again),
    };
    let (mut held, mut left_out) = (0, 0);
    for (line, place) in lines.iter().zip(1..) {
        let ran = hold(line, &mut Dice::new(place));
        if ran == Ok(None) {
            left_out += 1;
            continue;
        }
        held += usize::from(ran.is_ok());
        let ran = ran.map_err(|what| format!("{file}, line {place}: {what}"));
        totals.add(ran, &again);
    }
    if left_out > 0 {
        totals.skip(&format!("{file}, {left_out} lines: {LEFT_OUT}"));
    }
    println!("{file}: {held} of {} lines held", lines.len() - left_out);
}

/// The names of the folder's files that are not known, in order.
fn unknown(folder: &Path) -> Result<Vec<String>, String> {
    let entries = fs::read_dir(folder).map_err(|error| format!("{}: {error}", folder.display()))?;
    let mut names: Vec<String> = entries
        .filter_map(|entry| Some(entry.ok()?.file_name().to_string_lossy().into_owned()))
        .filter(|name| !KNOWN.iter().any(|(file, _)| file == name))
        .collect();
    names.sort_unstable();
    Ok(names)
}

fn main() -> Result<(), String> {
    let words: Vec<String> = std::env::args().skip(1).collect();
    let [folder] = &words[..] else {
        return Err("vectors FOLDER".to_string());
    };
    let folder = Path::new(folder);
    let mut totals = Totals::default();
    match unknown(folder) {
        Ok(names) => names
            .iter()
            .for_each(|name| totals.skip(&format!("{name}: not known"))),
        Err(what) => totals.add(Err(what), &again(folder)),
    }
    for known in KNOWN {
        hold_file(folder, *known, &mut totals);
    }
    totals.end()
}
