//! The examples, for the tests that take them all.

use std::path::Path;

/// The sheet and the row data of each folder of examples/.
pub fn examples() -> Vec<(Vec<u8>, Vec<u8>)> {
    let top = Path::new(env!("CARGO_MANIFEST_DIR")).join("../examples");
    let folders = std::fs::read_dir(top)
        .unwrap()
        .map(|folder| folder.unwrap().path());
    let read = |folder: &Path, name| std::fs::read(folder.join(name)).unwrap();
    folders
        .filter(|folder| folder.is_dir())
        .map(|folder| (read(&folder, "sheet.bin"), read(&folder, "data.bin")))
        .collect()
}
