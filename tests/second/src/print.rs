//! What the program prints.

use crate::answer::{answer, Answer, TABLE};
use crate::{data, sheet};

/// The lines of an answer or a refusal.
pub fn text(answer: &Answer) -> String {
    if answer.number != 0 {
        return format!("refused {} {}\n", answer.number, answer.detail);
    }
    let mut text = String::new();
    for (place, step) in answer.steps.iter().enumerate() {
        text += &format!(
            "step {} lookup {} rule {} calls {} rows {}\n",
            place + 1,
            step.lookup,
            step.rule,
            step.calls,
            step.rows
        );
    }
    text += &format!("calls {}\n", answer.calls);
    for row in &answer.rows {
        text += "row";
        for value in row.iter().take(answer.variables) {
            text += &format!(" {value}");
        }
        text += "\n";
    }
    text
}

/// What the program prints for these contents of `sheet.bin` and `data.bin`.
/// A file that can't be read counts as empty.
pub fn run_files(sheet: &[u8], data: &[u8]) -> String {
    let (words, left_over) = data::words(data);
    // Left-over bytes are one word too many: refusal 3 unless one of the sheet's fits.
    if left_over > 0 && sheet::read(sheet).is_ok() {
        return text(&Answer::refused(3, 0));
    }
    text(&answer(sheet, &words, TABLE, TABLE))
}
