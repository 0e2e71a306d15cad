//! The depot case's sheet put together, written, read back, and answered: prints what the program
//! prints for it.

use ebbcandle::{answer, read_sheet, SheetBuilder};
use std::error::Error;
use std::io::Write;

/// The rows of stock, state and carrier, each behind their count.
const WORDS: [u32; 23] = [
    4, 7, 101, 7, 102, 7, 103, 8, 104, 4, 101, 1, 102, 2, 103, 1, 104, 1, 2, 101, 51, 103, 52,
];

fn main() -> Result<(), Box<dyn Error>> {
    // variables: 0 depot, 1 machine, 2 condition, 3 truck
    let request = SheetBuilder::new()
        .register(&["bf"])? // 0: stock(depot, machine), asked by its depot
        .register(&["bf"])? // 1: state(machine, condition), by its machine
        .register(&["bf"])? // 2: carrier(machine, truck), by its machine
        .given(0, 7) // depot 7
        .given(2, 1) // condition 1
        .look_up(1, &[1, 2]) // state(machine, condition)
        .look_up(2, &[1, 3]) // carrier(machine, truck)
        .look_up(0, &[0, 1]) // stock(depot, machine)
        .sheet();
    let sheet = request.to_bytes()?;
    assert_eq!(read_sheet(&sheet)?, request, "it says what was written");
    write!(std::io::stdout(), "{}", answer(&sheet, &WORDS)?)?;
    Ok(())
}
