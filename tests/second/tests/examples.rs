//! The example files, their page and the program that reads files.

use second::examples::{all, readme};
use std::collections::BTreeSet;
use std::fs;
use std::path::{Path, PathBuf};
use std::process::Command;

fn folder() -> PathBuf {
    Path::new(env!("CARGO_MANIFEST_DIR")).join("../../examples")
}

/// What the program prints when it runs in this folder.
fn printed(folder: &Path) -> String {
    let out = Command::new(env!("CARGO_BIN_EXE_second"))
        .current_dir(folder)
        .output()
        .unwrap();
    assert!(out.status.success());
    String::from_utf8(out.stdout).unwrap()
}

/// A new empty folder of this name.
fn empty_folder(name: &str) -> PathBuf {
    let folder = Path::new(env!("CARGO_TARGET_TMPDIR")).join(name);
    let _ = fs::remove_dir_all(&folder);
    fs::create_dir_all(&folder).unwrap();
    folder
}

/// The files are what `write_examples` would write, no more and no less.
#[test]
fn the_files_are_as_written() {
    let mut names = BTreeSet::from(["README.md".to_string()]);
    for example in all() {
        let read = |name| fs::read(folder().join(example.name).join(name)).unwrap_or_default();
        assert_eq!(read("sheet.bin"), example.sheet, "{}", example.name);
        assert_eq!(read("data.bin"), example.data, "{}", example.name);
        assert_eq!(
            read("expected"),
            example.expected.as_bytes(),
            "{}",
            example.name
        );
        assert_eq!(
            fs::read_dir(folder().join(example.name)).unwrap().count(),
            3
        );
        assert!(names.insert(example.name.to_string()), "a name of its own");
    }
    let there: BTreeSet<String> = fs::read_dir(folder())
        .unwrap()
        .map(|entry| entry.unwrap().file_name().into_string().unwrap())
        .collect();
    assert_eq!(there, names);
    assert_eq!(
        fs::read_to_string(folder().join("README.md")).unwrap(),
        readme()
    );
}

/// The program prints what was worked out by hand.
#[test]
fn the_examples_print_what_is_expected() {
    for example in all() {
        let text = second::run_files(&example.sheet, &example.data);
        assert_eq!(text, example.expected, "{}", example.name);
        assert!(text.ends_with('\n'));
    }
}

/// Each number that the program can print occurs.
#[test]
fn the_examples_reach_each_number() {
    for start in [
        "step 1 ",
        "refused 2 0\n",
        "refused 3 0\n",
        "refused 4 ",
        "refused 5 ",
        "refused 7 0\n",
        "refused 8 ",
        "refused 9 ",
        "refused 10 ",
        "refused 11 ",
        "refused 12 ",
    ] {
        assert!(
            all()
                .iter()
                .any(|example| example.expected.starts_with(start)),
            "{start}"
        );
    }
}

/// A file that can't be read counts as empty.
#[test]
fn files_that_cannot_be_read() {
    let depot = all()
        .into_iter()
        .find(|example| example.name == "depot")
        .unwrap();
    let folder = empty_folder("unreadable");
    assert_eq!(printed(&folder), "refused 2 0\n", "no file");
    fs::write(folder.join("data.bin"), &depot.data).unwrap();
    assert_eq!(printed(&folder), "refused 2 0\n", "no sheet");
    fs::write(folder.join("sheet.bin"), &depot.sheet).unwrap();
    assert_eq!(printed(&folder), depot.expected);
    fs::remove_file(folder.join("data.bin")).unwrap();
    assert_eq!(printed(&folder), "refused 3 0\n", "no data");
    fs::create_dir(folder.join("data.bin")).unwrap();
    assert_eq!(
        printed(&folder),
        "refused 3 0\n",
        "a folder in place of the data"
    );
    fs::remove_file(folder.join("sheet.bin")).unwrap();
    fs::create_dir(folder.join("sheet.bin")).unwrap();
    assert_eq!(
        printed(&folder),
        "refused 2 0\n",
        "a folder in place of the sheet"
    );
}

/// `made_up` writes the cases of its seeds.
#[test]
fn made_up_writes_its_cases() {
    let folder = empty_folder("made-up");
    let out = Command::new(env!("CARGO_BIN_EXE_made_up"))
        .args(["40", "5"])
        .arg(&folder)
        .output()
        .unwrap();
    assert!(out.status.success());
    for seed in 40..45 {
        let case = second::made_up::case(seed);
        let at = folder.join(seed.to_string());
        assert_eq!(fs::read(at.join("sheet.bin")).unwrap(), case.sheet);
        assert_eq!(fs::read(at.join("data.bin")).unwrap(), case.data);
    }
    assert_eq!(fs::read_dir(&folder).unwrap().count(), 5);
    let out = Command::new(env!("CARGO_BIN_EXE_made_up"))
        .args(["--show", "40"])
        .output()
        .unwrap();
    let text = second::made_up::in_words(&second::made_up::case(40));
    assert_eq!(String::from_utf8(out.stdout).unwrap(), text);
}
