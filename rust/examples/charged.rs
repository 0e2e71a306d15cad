//! The depot case where a call is charged 10 and a row sent 1: prints its steps with rows sent and charges, and
//! its list; and of a p that is too high the refusal.

use ebbcandle::{answer_charged, Route, Step, TABLE};
use std::error::Error;
use std::io::Write;

/// The request: state(machine, condition), carrier(machine, truck), stock(depot, machine), with
/// depot 7 and condition 1 given.
const SHEET: [u8; 19] = [
    0x26, 0x66, 0x86, 0x43, 0x21, 0xA8, 0x00, 0x00, 0x00, 0x1C, 0x00, 0x00, 0x00, 0x04, 0x44, 0x88,
    0x4C, 0x00, 0x40,
];

/// The rows of stock, state and carrier, each behind their count.
const WORDS: [u32; 23] = [
    4, 7, 101, 7, 102, 7, 103, 8, 104, 4, 101, 1, 102, 2, 103, 1, 104, 1, 2, 101, 51, 103, 52,
];

/// The steps with what each costs, and the totals.
fn print(output: &mut impl Write, route: &Route) -> std::io::Result<()> {
    for (place, step) in route.steps.iter().enumerate() {
        let Step {
            lookup,
            calls,
            sent,
            charge,
            ..
        } = step;
        let costs = format!("calls {calls} sent {sent} charge {charge}");
        writeln!(output, "step {} lookup {lookup} {costs}", place + 1)?;
    }
    writeln!(output, "calls {} charge {}", route.calls, route.charge)
}

fn main() -> Result<(), Box<dyn Error>> {
    let mut output = std::io::stdout();
    let (mut first, mut second) = ([0; TABLE], [0; TABLE]);
    let route = answer_charged(&SHEET, &WORDS, 10, 1, &mut first, &mut second)?;
    print(&mut output, &route)?;
    for row in first.chunks(16).take(route.rows) {
        writeln!(output, "row {} {} {} {}", row[0], row[1], row[2], row[3])?;
    }
    if let Err(refusal) = answer_charged(&SHEET, &WORDS, 1_001, 1, &mut first, &mut second) {
        write!(output, "{refusal}")?;
    }
    Ok(())
}
