//! Hard input: `hard RUNS SEED PROGRAM FOLDER`. Random bytes and damaged sound cases, answered by the
//! library in this process and, for one in 200, by the program as a process with files in FOLDER;
//! and files that are missing, empty, locked, huge, folders or links to themselves.
//! What comes back must be one of the outputs that docs/RULES.md names, and the second program's.

use compare::dice::Dice;
use compare::totals::Totals;
use ebbcandle::MOST_WORDS;
use second::made_up::case;
use second::write;
use std::fs::{self, Permissions};
use std::io;
use std::os::unix::fs::{symlink, PermissionsExt};
use std::os::unix::process::CommandExt;
use std::path::{Path, PathBuf};
use std::process::Command;

/// One in this many runs goes through the program and its files too.
const SHARE: u64 = 200;

/// The bytes of the longest sheet.
const LONGEST_SHEET: usize = 193;

/// A user without rights.
const NOBODY: u32 = 65_534;

/// The bytes of a huge file.
const HUGE: u64 = 64 << 20;

/// The bytes of both files.
struct Files {
    sheet: Vec<u8>,
    data: Vec<u8>,
}

/// A length from none to beyond what a sheet or row data may have.
fn length(dice: &mut Dice, limit: usize) -> usize {
    match dice.below(8) {
        0 => dice.below(4),
        1 | 2 => dice.below(40),
        3 | 4 => dice.below(limit.min(400)),
        5 => limit - 8 + dice.below(20),
        _ => dice.below(200),
    }
}

/// Random bytes; for half of the sheets with version 1 in front.
fn noise(dice: &mut Dice, limit: usize) -> Vec<u8> {
    let length = length(dice, limit);
    let mut bytes: Vec<u8> = (0..length).map(|_| dice.next() as u8).collect();
    if let Some(byte) = bytes.first_mut().filter(|_| dice.below(2) == 0) {
        *byte = 0x20 | (*byte & 0x1f);
    }
    bytes
}

/// Turns up to three bits.
fn turn(dice: &mut Dice, bytes: &mut [u8]) {
    for _ in 0..dice.below(4) {
        if !bytes.is_empty() {
            bytes[dice.below(bytes.len())] ^= 1 << dice.below(8);
        }
    }
}

/// Cuts a part off, puts bytes behind, or makes the length one about the limit.
fn cut(dice: &mut Dice, bytes: &mut Vec<u8>, limit: usize) {
    match dice.below(6) {
        0 => bytes.truncate(dice.below(bytes.len() + 1)),
        1 => bytes.extend((0..1 + dice.below(5)).map(|_| dice.next() as u8)),
        2 => bytes.resize(limit - 4 + dice.below(9), 0),
        _ => {}
    }
}

/// The files of a run: noise, a made-up case that is damaged, or one of each.
fn files(seed: u64) -> Files {
    let mut dice = Dice::new(seed ^ 0x5eed);
    let made = case(seed);
    let (mut sheet, mut data) = (made.sheet, made.data);
    let kind = dice.below(10);
    match kind {
        0 | 1 => sheet = noise(&mut dice, LONGEST_SHEET),
        2 | 3 => turn(&mut dice, &mut sheet),
        4 => cut(&mut dice, &mut sheet, LONGEST_SHEET),
        _ => {}
    }
    match kind {
        0 | 5 => data = noise(&mut dice, 4 * MOST_WORDS),
        6 => cut(&mut dice, &mut data, 4 * MOST_WORDS),
        3 | 7 | 8 => turn(&mut dice, &mut data),
        _ => {}
    }
    Files { sheet, data }
}

/// What the library's answer prints.
fn printed(files: &Files) -> String {
    match ebbcandle::answer_bytes(&files.sheet, &files.data) {
        Ok(answer) => answer.to_string(),
        Err(refusal) => refusal.to_string(),
    }
}

/// A number in decimal without leading zeros, at most `most`.
fn decimal(word: &str, most: u64) -> Option<u64> {
    let plain = word.bytes().all(|byte| byte.is_ascii_digit());
    let lead = word.len() > 1 && word.starts_with('0');
    let number = word.parse().ok().filter(|number| *number <= most)?;
    (plain && !lead).then_some(number)
}

/// The numbers of a line that has these words before them, one space between each two.
fn numbers(line: &str, names: &[&str], most: &[u64]) -> Option<Vec<u64>> {
    let words: Vec<&str> = line.split(' ').collect();
    if words.len() != 2 * names.len() {
        return None;
    }
    let pairs = words.chunks_exact(2).zip(names.iter().zip(most));
    pairs
        .map(|(pair, (name, most))| decimal(pair[1], *most).filter(|_| pair[0] == *name))
        .collect()
}

/// Whether the line is a refusal that the program may print, with a detail in its range. The longest
/// sheet has 1,539 bits: its last number of rules is at bit 623, its last given value at bit 1,171, and
/// its last variable at bit 1,535. The shortest has 32: its look-up is at bit 24, and so is the first
/// given value where one is given.
fn is_refusal(line: &str) -> bool {
    let words: Vec<&str> = line.split(' ').collect();
    let [name, number, detail] = words[..] else {
        return false;
    };
    let range = match number {
        "2" => 0..=1_535,
        "3" | "7" => 0..=0,
        "4" => 1..=4_095,
        "5" => 1..=12,
        "8" => 3..=623,
        "9" => 24..=1_535,
        "10" => 0..=15,
        "11" => 32..=1_544,
        "12" => 24..=1_171,
        _ => return false,
    };
    name == "refused" && decimal(detail, 4_095).is_some_and(|detail| range.contains(&detail))
}

/// Whether the lines are a list: as many as there are rows, 1 to 16 values each, ascending.
fn is_list(lines: &[&str], rows: u64) -> bool {
    let values: Option<Vec<Vec<u64>>> = lines
        .iter()
        .map(|line| {
            let values = line.strip_prefix("row ")?.split(' ');
            values.map(|word| decimal(word, u32::MAX.into())).collect()
        })
        .collect();
    values.is_some_and(|list| {
        let same = |row: &Vec<u64>| row.len() == list[0].len() && (1..=16).contains(&row.len());
        list.len() as u64 == rows
            && list.iter().all(same)
            && list.windows(2).all(|two| two[0] < two[1])
    })
}

/// Whether a text is one that docs/RULES.md lets the program print.
fn documented(text: &str) -> bool {
    let Some(body) = text.strip_suffix('\n') else {
        return false;
    };
    let lines: Vec<&str> = body.split('\n').collect();
    if lines.len() == 1 && is_refusal(lines[0]) {
        return true;
    }
    let names = ["step", "lookup", "rule", "calls", "rows"];
    let steps: Vec<Vec<u64>> = lines
        .iter()
        .map_while(|line| numbers(line, &names, &[12, 11, 7, 512, 512]))
        .collect();
    let Some(last) = steps.last() else {
        return false;
    };
    let in_order = steps.iter().zip(1..).all(|(step, place)| step[0] == place);
    let calls: u64 = steps.iter().map(|step| step[3]).sum();
    let mut lookups: Vec<u64> = steps.iter().map(|step| step[1]).collect();
    lookups.sort_unstable();
    in_order
        && lookups
            .iter()
            .zip(0..)
            .all(|(lookup, place)| *lookup == place)
        && lines.get(steps.len()) == Some(&format!("calls {calls}").as_str())
        && is_list(&lines[steps.len() + 1..], last[4])
}

/// This user, or another by its number.
type User = Option<u32>;

/// A command in a folder, run by this user.
fn command(program: &Path, folder: &Path, user: User) -> Command {
    let mut command = Command::new(program);
    command.current_dir(folder);
    if let Some(user) = user {
        command.uid(user).gid(user);
    }
    command
}

/// What the program prints in a folder. It must end well, and tell on standard error just these files,
/// which can't be read.
fn program(program: &Path, folder: &Path, user: User, unread: &[&str]) -> Result<String, String> {
    let ran = command(program, folder, user).output();
    let ran = ran.map_err(|error| format!("the program did not run: {error}"))?;
    let told = String::from_utf8_lossy(&ran.stderr);
    let right = |(line, name): (&str, &&str)| line.starts_with(&format!("ebbcandle: {name}: "));
    if !ran.status.success()
        || told.lines().count() != unread.len()
        || !told.lines().zip(unread).all(right)
    {
        return Err(format!(
            "the program ended with {} and told {told:?}",
            ran.status
        ));
    }
    String::from_utf8(ran.stdout).map_err(|error| error.to_string())
}

/// Whether a text is documented and the second program's.
fn right(who: &str, text: &str, theirs: &str) -> Result<(), String> {
    if !documented(text) {
        return Err(format!("{who} printed {text:?}"));
    }
    if text != theirs {
        return Err(format!("{who} printed {text:?}, not {theirs:?}"));
    }
    Ok(())
}

/// What can stand in a sound file's place.
const KINDS: [&str; 6] = ["missing", "empty", "folder", "locked", "looped", "huge"];

/// Puts what the kind says in a file's place; `bytes` are those of a sound file.
fn place(kind: &str, path: &Path, bytes: &[u8]) -> io::Result<()> {
    if path.is_dir() {
        fs::remove_dir(path)?;
    } else if path.is_symlink() || path.exists() {
        fs::remove_file(path)?;
    }
    match kind {
        "missing" => Ok(()),
        "empty" => fs::write(path, []),
        "folder" => fs::create_dir(path),
        "looped" => symlink(path, path),
        "huge" => fs::write(path, bytes)
            .and_then(|()| fs::File::options().write(true).open(path)?.set_len(HUGE)),
        "locked" => fs::write(path, bytes)
            .and_then(|()| fs::set_permissions(path, Permissions::from_mode(0))),
        _ => fs::write(path, bytes),
    }
}

/// The paths and the bytes of both files of the depot case.
fn depot(folder: &Path) -> [(PathBuf, Vec<u8>); 2] {
    let depot = second::examples::depot();
    let sheet = write::sheet(&depot.request);
    let data = write::bytes(&write::words(&depot.rows));
    [
        (folder.join("sheet.bin"), sheet),
        (folder.join("data.bin"), data),
    ]
}

/// Puts what the kinds say in both files' places, and gives the bytes that can be read there.
fn place_both(folder: &Path, kinds: [&str; 2]) -> io::Result<[Vec<u8>; 2]> {
    let mut read = [Vec::new(), Vec::new()];
    for ((kind, (path, bytes)), read) in kinds.iter().zip(depot(folder)).zip(&mut read) {
        place(kind, &path, &bytes)?;
        if *kind != "locked" {
            *read = fs::read(&path).unwrap_or_default();
        }
    }
    Ok(read)
}

/// A user who can run the program and can't read a locked file: this one, or the other that root
/// can take the place of.
fn locked_out(binary: &Path, folder: &Path) -> io::Result<Option<User>> {
    let [sheet, data] = place_both(folder, ["sound", "sound"])?;
    let locked = folder.join("locked");
    place("locked", &locked, &[])?;
    let reads = |user| {
        let cat = command(Path::new("cat"), folder, user)
            .arg(&locked)
            .output();
        cat.is_ok_and(|ran| ran.status.success())
    };
    let sound = second::run_files(&sheet, &data);
    let fits = |user: &Option<u32>| {
        program(binary, folder, *user, &[]).as_ref() == Ok(&sound) && !reads(*user)
    };
    Ok([None, Some(NOBODY)].into_iter().find(fits))
}

/// The program with something else in one file's place, or in both. A file that can't be read
/// counts as empty.
fn misplaced(binary: &Path, folder: &Path, totals: &mut Totals) -> io::Result<()> {
    let other = locked_out(binary, folder)?;
    let pairs = KINDS
        .iter()
        .flat_map(|kind| [["sound", *kind], [*kind, "sound"], [*kind, *kind]]);
    for kinds in pairs {
        let user = match kinds.contains(&"locked") {
            true => other,
            false => Some(None),
        };
        let Some(user) = user else {
            totals.skip(&format!("the files {kinds:?}: no user here is locked out"));
            continue;
        };
        let [sheet, data] = place_both(folder, kinds)?;
        let theirs = second::run_files(&sheet, &data);
        let who = format!("with the files {kinds:?} the program");
        let named = ["sheet.bin", "data.bin"].into_iter().zip(kinds);
        let unread: Vec<&str> = named
            .filter(|(_, kind)| ["missing", "folder", "locked", "looped"].contains(kind))
            .map(|(name, _)| name)
            .collect();
        let ran = program(binary, folder, user, &unread);
        let ran = ran.and_then(|text| right(&who, &text, &theirs));
        let number = ran.and_then(|()| outcome(&theirs));
        totals.add(number.map(Some), "bash tests/hard 0");
    }
    Ok(())
}

/// The number of a refusal that was printed, 0 for an answer.
fn outcome(text: &str) -> Result<usize, String> {
    let number = match text.strip_prefix("refused ") {
        Some(rest) => rest.split(' ').next().unwrap_or_default(),
        None => "0",
    };
    number.parse().map_err(|_| text.to_string())
}

/// One run. Gives the number of the refusal, 0 for an answer.
fn run(seed: u64, place: u64, binary: &Path, folder: &Path) -> Result<usize, String> {
    let files = files(seed);
    let theirs = second::run_files(&files.sheet, &files.data);
    right("the library", &printed(&files), &theirs)?;
    if place % SHARE == 0 {
        // a folder of its own: other runs are at work
        let folder = folder.join(place.to_string());
        let written = fs::create_dir_all(&folder)
            .and_then(|()| fs::write(folder.join("sheet.bin"), &files.sheet))
            .and_then(|()| fs::write(folder.join("data.bin"), &files.data));
        written.map_err(|error| error.to_string())?;
        right(
            "the program",
            &program(binary, &folder, None, &[])?,
            &theirs,
        )?;
    }
    outcome(&theirs)
}

fn main() -> Result<(), String> {
    let words: Vec<String> = std::env::args().skip(1).collect();
    let [runs, seed, binary, folder] = &words[..] else {
        return Err("hard RUNS SEED PROGRAM FOLDER".to_string());
    };
    let number = |word: &String| word.parse().map_err(|_| format!("no number: {word}"));
    let (runs, from): (u64, u64) = (number(runs)?, number(seed)?);
    let (binary, folder) = (Path::new(binary), Path::new(folder));
    let mut totals = Totals::default();
    totals.add_seeds(
        from,
        runs,
        |seed| run(seed, seed.wrapping_sub(from), binary, folder),
        |seed| format!("bash tests/hard 1 {seed}"),
    );
    misplaced(binary, folder, &mut totals).map_err(|error| error.to_string())?;
    totals.end()
}
