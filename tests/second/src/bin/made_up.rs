//! Writes made-up cases, one folder per seed, or shows one in words.

use second::made_up::{case, in_words};
use std::path::Path;

const USE: &str = "made_up SEED COUNT FOLDER, or made_up --show SEED";

fn number(word: &str) -> Result<u64, String> {
    word.parse().map_err(|_| format!("not a number: {word}"))
}

fn write(seed: u64, folder: &Path) -> std::io::Result<()> {
    let case = case(seed);
    let folder = folder.join(seed.to_string());
    std::fs::create_dir_all(&folder)?;
    std::fs::write(folder.join("sheet.bin"), case.sheet)?;
    std::fs::write(folder.join("data.bin"), case.data)
}

fn run(words: &[&str]) -> Result<(), String> {
    match words {
        ["--show", seed] => {
            print!("{}", in_words(&case(number(seed)?)));
            Ok(())
        }
        [seed, count, folder] => {
            let seed = number(seed)?;
            for place in 0..number(count)? {
                write(seed.wrapping_add(place), Path::new(folder)).map_err(|e| e.to_string())?;
            }
            Ok(())
        }
        _ => Err(USE.to_string()),
    }
}

fn main() -> Result<(), String> {
    let words: Vec<String> = std::env::args().skip(1).collect();
    run(&words.iter().map(String::as_str).collect::<Vec<_>>())
}
