//! The depot case: prints what the program prints for it.

use std::io::Write;

/// The request: state(machine, condition), carrier(machine, truck), stock(depot, machine), with
/// depot 7 and condition 1 given.
const SHEET: [u8; 19] = [
    0x26, 0x66, 0x86, 0x43, 0x21, 0xA8, 0x00, 0x00, 0x00, 0x1C, 0x00, 0x00, 0x00, 0x04, 0x44, 0x88,
    0x4C, 0x00, 0x40,
];

/// The rows of stock, state and carrier, each behind their count.
const WORDS: [u32; 23] = [
    4, 7, 101, 7, 102, 7, 103, 8, 104, 4, 101, 1, 102, 2, 103, 1, 104, 1, 2, 101, 51, 103, 52,
];

fn main() -> std::io::Result<()> {
    let mut output = std::io::stdout();
    match ebbcandle::answer(&SHEET, &WORDS) {
        Ok(answer) => write!(output, "{answer}"),
        Err(refusal) => write!(output, "{refusal}"),
    }
}
