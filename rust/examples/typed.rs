//! The depot case typed as a line: prints its list, and of a line with a fault the very word that is wrong.

use ebbcandle::Typed;
use std::error::Error;
use std::io::Write;

/// The depot case's sheet: its registers are reused, in the order stock, state and carrier.
const SHEET: [u8; 19] = [
    0x26, 0x66, 0x86, 0x43, 0x21, 0xA8, 0x00, 0x00, 0x00, 0x1C, 0x00, 0x00, 0x00, 0x04, 0x44, 0x88,
    0x4C, 0x00, 0x40,
];

/// The rows of stock, state and carrier, each behind their count.
const WORDS: [u32; 23] = [
    4, 7, 101, 7, 102, 7, 103, 8, 104, 4, 101, 1, 102, 2, 103, 1, 104, 1, 2, 101, 51, 103, 52,
];

const NAMES: &str = "stock state carrier";
const LINE: &str =
    "depot=7 cond=1 : state(machine cond) carrier(machine truck) stock(depot machine)";

fn main() -> Result<(), Box<dyn Error>> {
    let mut output = std::io::stdout();
    write!(
        output,
        "{}",
        Typed::new(&SHEET, NAMES, LINE).answer(&WORDS)?
    )?;
    // a register that the second line does not have
    let line = LINE.replace("carrier", "carier");
    let faulty = Typed::new(&SHEET, NAMES, &line);
    if let Err(refusal) = faulty.answer(&WORDS) {
        let (place, part) = (faulty.place(refusal), faulty.part(refusal));
        write!(output, "{refusal}")?;
        writeln!(
            output,
            "the word `{part}`, {} bytes from byte {}",
            place.len(),
            place.start
        )?;
    }
    Ok(())
}
