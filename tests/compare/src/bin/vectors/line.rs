//! A line of expected results: fields `name=value`, parted by one space, always in the same order.
//! Bytes are lower-case hex, a number is decimal, a list of numbers is parted by commas, several
//! lists by `;`. What is empty is `-`.

use std::str::FromStr;

/// What a line that is not written so is told with.
pub fn malformed<T>(what: String) -> Result<T, String> {
    Err(format!("malformed: {what}"))
}

/// The values of a line that has just these fields, in this order.
pub fn values<'a, const N: usize>(line: &'a str, names: [&str; N]) -> Result<[&'a str; N], String> {
    let fields: Vec<&str> = line.split(' ').collect();
    if fields.len() != N {
        return malformed(format!("{} fields, not {N}", fields.len()));
    }
    let mut values = [""; N];
    for ((value, field), name) in values.iter_mut().zip(fields).zip(names) {
        match field.split_once('=') {
            Some((found, rest)) if found == name => *value = rest,
            _ => return malformed(format!("no {name} in its place")),
        }
    }
    Ok(values)
}

/// A number without leading zeros.
pub fn number<T: FromStr>(word: &str) -> Result<T, String> {
    let plain = word.bytes().all(|byte| byte.is_ascii_digit());
    let lead = word.len() > 1 && word.starts_with('0');
    match word.parse() {
        Ok(number) if plain && !lead => Ok(number),
        _ => malformed(format!("no number, or too high: {word:?}")),
    }
}

/// Bytes, two digits each.
pub fn bytes(word: &str) -> Result<Vec<u8>, String> {
    let digit = |digit: u8| match digit {
        b'0'..=b'9' => Some(digit - b'0'),
        b'a'..=b'f' => Some(digit - b'a' + 10),
        _ => None,
    };
    let byte = |digits: &[u8]| match digits {
        [high, low] => Some(16 * digit(*high)? + digit(*low)?),
        _ => None,
    };
    let read: Option<Vec<u8>> = match word {
        "-" => Some(Vec::new()),
        "" => None,
        _ => word.as_bytes().chunks(2).map(byte).collect(),
    };
    read.map_or_else(|| malformed(format!("no bytes: {word:?}")), Ok)
}

/// A list of numbers.
pub fn list<T: FromStr>(word: &str) -> Result<Vec<T>, String> {
    match word {
        "-" => Ok(Vec::new()),
        _ => word.split(',').map(number).collect(),
    }
}

/// Lists of any numbers of numbers.
pub fn any_lists<T: FromStr>(word: &str) -> Result<Vec<Vec<T>>, String> {
    match word {
        "-" => Ok(Vec::new()),
        _ => word.split(';').map(list).collect(),
    }
}

/// Lists of so many numbers each.
pub fn lists<T: FromStr, const N: usize>(word: &str) -> Result<Vec<[T; N]>, String> {
    let entry = |word: &str| match list(word)?.try_into() {
        Ok(entry) => Ok(entry),
        Err(_) => malformed(format!("not {N} numbers: {word:?}")),
    };
    match word {
        "-" => Ok(Vec::new()),
        _ => word.split(';').map(entry).collect(),
    }
}
