//! Writes the example files and their page into a folder: `write_examples FOLDER`.

use second::examples::{all, readme};
use std::path::Path;

fn write(folder: &Path) -> std::io::Result<()> {
    for example in all() {
        let folder = folder.join(example.name);
        std::fs::create_dir_all(&folder)?;
        std::fs::write(folder.join("sheet.bin"), example.sheet)?;
        std::fs::write(folder.join("data.bin"), example.data)?;
        std::fs::write(folder.join("expected"), example.expected)?;
    }
    std::fs::write(folder.join("README.md"), readme())
}

fn main() -> Result<(), String> {
    let folder = std::env::args().nth(1).ok_or("write_examples FOLDER")?;
    write(Path::new(&folder)).map_err(|e| e.to_string())
}
