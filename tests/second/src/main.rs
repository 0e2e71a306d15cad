//! Reads `sheet.bin` and `data.bin` in the current folder and prints the answer.

use std::io::Write;

fn main() -> std::io::Result<()> {
    let sheet = std::fs::read("sheet.bin").unwrap_or_default();
    let data = std::fs::read("data.bin").unwrap_or_default();
    let text = second::run_files(&sheet, &data);
    let mut out = std::io::stdout().lock();
    out.write_all(text.as_bytes())?;
    out.flush()
}
