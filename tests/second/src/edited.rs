//! Ways to change a typed line and its second line, byte by byte and token by token. What was a line
//! may be none afterwards, or another.

use crate::made_up::Dice;
use crate::typed::tokens;

/// A way to change a line, or a second line; `None` where this one can't be changed so.
pub(crate) type Way = fn(&mut Dice, &[u8]) -> Option<Vec<u8>>;

/// The ways to change a line: a name for each, and how often it is taken.
pub(crate) const WAYS: &[(&str, usize, Way)] = &[
    // Any byte and any token.
    ("byte-inserted", 4, byte_inserted),
    ("byte-removed", 4, byte_removed),
    ("byte-replaced", 4, byte_replaced),
    ("byte-doubled", 3, byte_doubled),
    ("byte-over-127", 3, byte_over_127),
    ("upper-case", 3, upper_case),
    ("token-replaced", 5, token_replaced),
    ("token-inserted", 5, token_inserted),
    ("token-removed", 4, token_removed),
    ("token-doubled", 3, token_doubled),
    ("tokens-exchanged", 3, tokens_exchanged),
    // Spaces, brackets and the colon.
    ("space-doubled", 3, |d, line| doubled(d, line, b" ")),
    ("space-dropped", 3, |d, line| dropped(d, line, b" ")),
    ("space-inserted", 4, space_inserted),
    ("bracket", 4, bracket),
    ("brackets-emptied", 3, brackets_emptied),
    ("colon", 4, colon),
    // Names and numbers.
    ("name-of-12", 3, name_of_12),
    ("name-of-13", 6, name_of_13),
    ("name-shared", 4, name_shared),
    ("value", 24, value),
    ("number-in-brackets", 4, number_in_brackets),
    ("given-twice", 8, given_twice),
    ("given-behind", 3, given_behind),
    ("variables-to-17", 7, variables_to_17),
    ("look-ups-to-13", 8, look_ups_to_13),
    ("unknown-register", 8, unknown_register),
    ("columns", 9, columns),
    // The ends of the line.
    ("cut", 5, cut),
    ("look-ups-left-out", 2, look_ups_left_out),
    ("tail", 4, tail),
    ("empty", 1, |_, _| Some(Vec::new())),
];

/// The ways to change a second line.
pub(crate) const NAMES_WAYS: &[(&str, usize, Way)] = &[
    ("names-one-fewer", 3, names_one_fewer),
    ("names-one-more", 3, names_one_more),
    ("names-empty", 2, |_, _| Some(Vec::new())),
    ("names-space-before", 2, |_, line| {
        Some([b" ", line].concat())
    }),
    ("names-space-behind", 2, |_, line| {
        Some([line, b" "].concat())
    }),
    ("names-space-doubled", 2, |d, line| doubled(d, line, b" ")),
    ("names-space-replaced", 2, names_space_replaced),
    ("names-one-twice", 3, names_one_twice),
    ("names-13-letters", 3, names_13_letters),
    ("names-upper-case", 2, upper_case),
    ("names-byte-inserted", 3, byte_inserted),
    ("names-newline", 2, |_, line| Some([line, b"\n"].concat())),
];

// ---------------------------------------------------------------- bytes

/// A byte: of a name, a number or a mark, next to these, or any.
fn byte(d: &mut Dice) -> u8 {
    match d.from(1, 6) {
        1 => *d.pick(b"abmyz"),
        2 => *d.pick(b"0123456789"),
        3 => *d.pick(b"=:() "),
        4 => *d.pick(b"`{/;<>'*\x1f!AZ@[_,.-+"),
        5 => *d.pick(&[0, b'\t', b'\n', b'\r', 127, 128, 160, 255]),
        _ => d.next() as u8,
    }
}

fn byte_inserted(d: &mut Dice, line: &[u8]) -> Option<Vec<u8>> {
    let mut line = line.to_vec();
    line.insert(d.from(0, line.len()), byte(d));
    Some(line)
}

/// A place of the line; `None` where it is empty.
fn place(d: &mut Dice, line: &[u8]) -> Option<usize> {
    (!line.is_empty()).then(|| d.from(0, line.len() - 1))
}

fn byte_removed(d: &mut Dice, line: &[u8]) -> Option<Vec<u8>> {
    let mut line = line.to_vec();
    line.remove(place(d, &line)?);
    Some(line)
}

fn byte_replaced(d: &mut Dice, line: &[u8]) -> Option<Vec<u8>> {
    let mut line = line.to_vec();
    let place = place(d, &line)?;
    line[place] = byte(d);
    Some(line)
}

fn byte_doubled(d: &mut Dice, line: &[u8]) -> Option<Vec<u8>> {
    let mut line = line.to_vec();
    let place = place(d, &line)?;
    line.insert(place, line[place]);
    Some(line)
}

/// A byte over 127 put in, or the highest bit of a byte set.
fn byte_over_127(d: &mut Dice, line: &[u8]) -> Option<Vec<u8>> {
    let mut line = line.to_vec();
    if d.once_in(2) {
        let place = place(d, &line)?;
        line[place] |= 128;
    } else {
        line.insert(d.from(0, line.len()), 128 | d.next() as u8);
    }
    Some(line)
}

/// A letter made large.
fn upper_case(d: &mut Dice, line: &[u8]) -> Option<Vec<u8>> {
    let mut line = line.to_vec();
    let letters: Vec<usize> = (0..line.len())
        .filter(|place| line[*place].is_ascii_lowercase())
        .collect();
    let place = some(d, &letters)?;
    line[place].make_ascii_uppercase();
    Some(line)
}

/// The beginning of the line.
fn cut(d: &mut Dice, line: &[u8]) -> Option<Vec<u8>> {
    Some(line[..place(d, line)?].to_vec())
}

/// The line up to its colon, or the space behind it.
fn look_ups_left_out(d: &mut Dice, line: &[u8]) -> Option<Vec<u8>> {
    let colon = line.iter().position(|byte| *byte == b':')?;
    let end = (colon + d.from(1, 2)).min(line.len());
    Some(line[..end].to_vec())
}

/// Something behind the line.
fn tail(d: &mut Dice, line: &[u8]) -> Option<Vec<u8>> {
    let tails: [&[u8]; 16] = [
        b" ", b" ", b"\n", b"\n", b"\r\n", b"  ", b")", b":", b" :", b"=", b"(", b"x", b"7", b"0",
        b" x=1", b"\0",
    ];
    Some([line, *d.pick(&tails)].concat())
}

// ---------------------------------------------------------------- tokens

/// The tokens of a line as they stand.
type Parts = Vec<Vec<u8>>;

fn parts(line: &[u8]) -> Parts {
    let tokens = tokens(line).into_iter().map(|token| token.text.to_vec());
    tokens.filter(|text| !text.is_empty()).collect()
}

/// What a token is for, by what it is and what stands behind it.
#[derive(Clone, Copy, PartialEq, Eq)]
enum Role {
    Given,
    Register,
    Variable,
    Number,
    Other,
}

fn role(parts: &Parts, place: usize) -> Role {
    let behind = parts.get(place + 1).map(Vec::as_slice);
    match parts[place][0] {
        b'a'..=b'z' if behind == Some(b"=") => Role::Given,
        b'a'..=b'z' if behind == Some(b"(") => Role::Register,
        b'a'..=b'z' => Role::Variable,
        b'0'..=b'9' => Role::Number,
        _ => Role::Other,
    }
}

/// The places of tokens of this role.
fn of_role(parts: &Parts, wanted: Role) -> Vec<usize> {
    (0..parts.len())
        .filter(|place| role(parts, *place) == wanted)
        .collect()
}

/// The places of tokens that are this text.
fn of_text(parts: &Parts, text: &[u8]) -> Vec<usize> {
    (0..parts.len())
        .filter(|place| parts[*place] == text)
        .collect()
}

/// One of these; `None` where there is none.
fn some<T: Copy>(d: &mut Dice, of: &[T]) -> Option<T> {
    (!of.is_empty()).then(|| *d.pick(of))
}

/// The names of the variables so far, in order.
fn variables(parts: &Parts) -> Parts {
    let mut names = Parts::new();
    for place in 0..parts.len() {
        if [Role::Given, Role::Variable].contains(&role(parts, place))
            && !names.contains(&parts[place])
        {
            names.push(parts[place].clone());
        }
    }
    names
}

/// So many letters.
fn letters(d: &mut Dice, count: usize) -> Vec<u8> {
    (0..count).map(|_| d.from(97, 122) as u8).collect()
}

/// A name that the line does not have.
fn new_name(d: &mut Dice, parts: &Parts) -> Vec<u8> {
    loop {
        let length = d.from(1, 12);
        let name = letters(d, length);
        if !parts.contains(&name) {
            return name;
        }
    }
}

/// Some token, of any kind.
fn token(d: &mut Dice, parts: &Parts) -> Vec<u8> {
    let pool: [&[u8]; 20] = [
        b"=",
        b"=",
        b":",
        b":",
        b"(",
        b"(",
        b")",
        b")",
        b" ",
        b" ",
        b"0",
        b"00",
        b"07",
        b"1",
        b"4294967295",
        b"4294967296",
        b"a",
        b"kkkkkkkkkkkk",
        b"kkkkkkkkkkkkk",
        b"A",
    ];
    match parts.is_empty() || d.once_in(2) {
        true => d.pick(&pool).to_vec(),
        false => d.pick(parts).clone(),
    }
}

/// The place of some token.
fn token_place(d: &mut Dice, parts: &Parts) -> Option<usize> {
    (!parts.is_empty()).then(|| d.from(0, parts.len() - 1))
}

fn token_replaced(d: &mut Dice, line: &[u8]) -> Option<Vec<u8>> {
    let mut parts = parts(line);
    let place = token_place(d, &parts)?;
    parts[place] = token(d, &parts);
    Some(parts.concat())
}

fn token_inserted(d: &mut Dice, line: &[u8]) -> Option<Vec<u8>> {
    let mut parts = parts(line);
    let place = d.from(0, parts.len());
    parts.insert(place, token(d, &parts));
    Some(parts.concat())
}

fn token_removed(d: &mut Dice, line: &[u8]) -> Option<Vec<u8>> {
    let mut parts = parts(line);
    let place = token_place(d, &parts)?;
    parts.remove(place);
    Some(parts.concat())
}

fn token_doubled(d: &mut Dice, line: &[u8]) -> Option<Vec<u8>> {
    let mut parts = parts(line);
    let place = token_place(d, &parts)?;
    parts.insert(place, parts[place].clone());
    Some(parts.concat())
}

/// Two tokens exchanged, every second time neighbours.
fn tokens_exchanged(d: &mut Dice, line: &[u8]) -> Option<Vec<u8>> {
    let mut parts = parts(line);
    let (one, mut other) = (token_place(d, &parts)?, token_place(d, &parts)?);
    if d.once_in(2) {
        other = (one + 1) % parts.len();
    }
    parts.swap(one, other);
    Some(parts.concat())
}

/// A token with this text doubled.
fn doubled(d: &mut Dice, line: &[u8], text: &[u8]) -> Option<Vec<u8>> {
    let mut parts = parts(line);
    let place = some(d, &of_text(&parts, text))?;
    parts.insert(place, text.to_vec());
    Some(parts.concat())
}

/// A token with this text left out.
fn dropped(d: &mut Dice, line: &[u8], text: &[u8]) -> Option<Vec<u8>> {
    let mut parts = parts(line);
    let place = some(d, &of_text(&parts, text))?;
    parts.remove(place);
    Some(parts.concat())
}

/// A space between two tokens, before the first or behind the last.
fn space_inserted(d: &mut Dice, line: &[u8]) -> Option<Vec<u8>> {
    let mut parts = parts(line);
    parts.insert(d.from(0, parts.len()), b" ".to_vec());
    Some(parts.concat())
}

/// A bracket left out, doubled, or put for the other.
fn bracket(d: &mut Dice, line: &[u8]) -> Option<Vec<u8>> {
    let brackets: [&[u8]; 2] = [b"(", b")"];
    let one = d.from(0, 1);
    match d.from(1, 3) {
        1 => dropped(d, line, brackets[one]),
        2 => doubled(d, line, brackets[one]),
        _ => {
            let mut parts = parts(line);
            let place = some(d, &of_text(&parts, brackets[one]))?;
            parts[place] = brackets[1 - one].to_vec();
            Some(parts.concat())
        }
    }
}

/// Brackets with nothing between them, or a space.
fn brackets_emptied(d: &mut Dice, line: &[u8]) -> Option<Vec<u8>> {
    let mut parts = parts(line);
    let open = some(d, &of_text(&parts, b"("))?;
    let close = *of_text(&parts, b")").iter().find(|place| **place > open)?;
    let between = match d.from(1, 4) {
        1 => Some(b" ".to_vec()),
        _ => None,
    };
    parts.splice(open + 1..close, between);
    Some(parts.concat())
}

/// The colon left out, with its space or without, doubled, moved, or with a space too many or too few.
fn colon(d: &mut Dice, line: &[u8]) -> Option<Vec<u8>> {
    let mut parts = parts(line);
    let place = some(d, &of_text(&parts, b":"))?;
    match d.from(1, 7) {
        1 => parts[place].clear(),
        2 => parts[place] = b"::".to_vec(),
        3 => parts[place] = b" :".to_vec(),
        4 => parts[place] = b": ".to_vec(),
        5 => {
            let colon = parts.remove(place);
            parts.insert(d.from(0, parts.len()), colon);
        }
        6 => drop(parts.drain(place..parts.len().min(place + 2))),
        _ => {
            // Without the space behind it, or else before it.
            let behind = parts.get(place + 1).is_some_and(|part| part == b" ");
            let space = if behind { place + 1 } else { place.max(1) - 1 };
            parts[space].clear();
        }
    }
    Some(parts.concat())
}

// ---------------------------------------------------------------- names and numbers

/// A name put in the place of another, every second time wherever that stands.
fn renamed(d: &mut Dice, mut parts: Parts, place: usize, name: &[u8]) -> Vec<u8> {
    let old = parts[place].clone();
    let all = d.once_in(2);
    for (other, part) in parts.iter_mut().enumerate() {
        if other == place || all && *part == old {
            *part = name.to_vec();
        }
    }
    parts.concat()
}

/// The place of a name.
fn name_place(d: &mut Dice, parts: &Parts) -> Option<usize> {
    let role = *d.pick(&[Role::Given, Role::Register, Role::Variable]);
    some(d, &of_role(parts, role))
}

/// A name made longer, or shorter, to this many letters.
fn lengthened(d: &mut Dice, line: &[u8], count: usize) -> Option<Vec<u8>> {
    let parts = parts(line);
    let place = name_place(d, &parts)?;
    let mut name = parts[place].clone();
    name.extend(letters(d, count));
    name.truncate(count);
    Some(renamed(d, parts, place, &name))
}

/// A name of just 12 letters.
fn name_of_12(d: &mut Dice, line: &[u8]) -> Option<Vec<u8>> {
    lengthened(d, line, 12)
}

/// A name of 13 letters or more.
fn name_of_13(d: &mut Dice, line: &[u8]) -> Option<Vec<u8>> {
    let count = *d.pick(&[13, 13, 13, 14, 24, 25, 100]);
    lengthened(d, line, count)
}

/// A variable named as another name of the line, as its beginning, or with a letter more.
fn name_shared(d: &mut Dice, line: &[u8]) -> Option<Vec<u8>> {
    let parts = parts(line);
    let role = *d.pick(&[Role::Given, Role::Variable]);
    let place = some(d, &of_role(&parts, role))?;
    let mut name = parts[name_place(d, &parts)?].clone();
    match d.from(1, 3) {
        1 if name.len() > 1 => name.truncate(name.len() - 1),
        2 => name.extend(letters(d, 1)),
        _ => {}
    }
    Some(renamed(d, parts, place, &name))
}

/// Numbers at the edges: 0, leading zeros, the largest, and those that wrap around in 32 or 64 bits.
const NUMBERS: [&str; 22] = [
    "0",
    "0",
    "00",
    "00",
    "000000000000",
    "07",
    "007",
    "01",
    "1",
    "10",
    "4294967295",
    "4294967295",
    "4294967296",
    "4294967296",
    "04294967295",
    "04294967296",
    "4294967297",
    "8589934592",
    "9999999999",
    "10000000000",
    "18446744073709551617",
    "340282366920938463463374607431768211457",
];

fn number(d: &mut Dice) -> Vec<u8> {
    match d.from(1, 12) {
        1 => b"9".repeat(d.from(11, 200)),
        2 => [b"1".to_vec(), b"0".repeat(d.from(9, 80))].concat(),
        _ => d.pick(&NUMBERS).as_bytes().to_vec(),
    }
}

/// A given value at the edges; where nothing is given, something is.
fn value(d: &mut Dice, line: &[u8]) -> Option<Vec<u8>> {
    let mut parts = parts(line);
    let value = number(d);
    match some(d, &of_role(&parts, Role::Number)) {
        Some(place) => parts[place] = value,
        None => {
            let given = [new_name(d, &parts), b"=".to_vec(), value, b" ".to_vec()];
            parts.splice(0..0, given);
        }
    }
    Some(parts.concat())
}

/// A number where a variable or a register stands.
fn number_in_brackets(d: &mut Dice, line: &[u8]) -> Option<Vec<u8>> {
    let mut parts = parts(line);
    let role = *d.pick(&[Role::Variable, Role::Variable, Role::Register, Role::Given]);
    let place = some(d, &of_role(&parts, role))?;
    parts[place] = number(d);
    Some(parts.concat())
}

/// A name given again, before the colon; what follows it may be anything.
fn given_twice(d: &mut Dice, line: &[u8]) -> Option<Vec<u8>> {
    let mut parts = parts(line);
    let mut given = of_role(&parts, Role::Given);
    if given.is_empty() {
        let name = some(d, &of_role(&parts, Role::Variable))?;
        let name = parts[name].clone();
        parts.splice(0..0, [name, b"=".to_vec(), b"5".to_vec(), b" ".to_vec()]);
        given.push(0);
    }
    let first = some(d, &given)?;
    let name = parts[first].clone();
    let colon = *of_text(&parts, b":").first()?;
    let places: Vec<usize> = (given.iter().copied().chain([colon]))
        .filter(|place| *place > first)
        .collect();
    let place = some(d, &places)?;
    let behind: [&[u8]; 12] = [
        b"=1 ",
        b"=1 ",
        b"=7 ",
        b"=7 ",
        b"=4294967295 ",
        b"=0 ",
        b"=01 ",
        b" ",
        b"",
        b"=",
        b"A=1 ",
        b"=1",
    ];
    let again = [name, d.pick(&behind).to_vec()].concat();
    parts.insert(place, again);
    Some(parts.concat())
}

/// A given behind the colon, or behind a look-up.
fn given_behind(d: &mut Dice, line: &[u8]) -> Option<Vec<u8>> {
    let mut parts = parts(line);
    let marks: [&[u8]; 3] = [b":", b")", b"("];
    let mark = *d.pick(&marks);
    let place = some(d, &of_text(&parts, mark))?;
    let name = token(d, &variables(&parts));
    let given = [&b" "[..], &name, b"=7"].concat();
    parts.insert(place + 1, given);
    Some(parts.concat())
}

/// New variables up to 16, 17 or 18 of them, as givens or in brackets.
fn variables_to_17(d: &mut Dice, line: &[u8]) -> Option<Vec<u8>> {
    let mut parts = parts(line);
    let wanted = *d.pick(&[16, 17, 17, 17, 18]);
    let mark: &[u8] = if d.once_in(3) { b")" } else { b":" };
    let colon = *of_text(&parts, b":").first()?;
    let before = if d.once_in(2) { 0 } else { colon };
    let close = some(d, &of_text(&parts, mark))?;
    for _ in variables(&parts).len()..wanted {
        let name = new_name(d, &parts);
        match mark {
            b")" => drop(parts.splice(close..close, [b" ".to_vec(), name])),
            _ => {
                let given = [name, b"=".to_vec(), b"9".to_vec(), b" ".to_vec()];
                parts.splice(before..before, given);
            }
        }
    }
    Some(parts.concat())
}

/// The look-ups of a line, as they stand.
fn look_ups(parts: &Parts) -> Parts {
    let end = |from: usize| (from..parts.len()).find(|place| parts[*place] == b")");
    let whole = |from: usize| Some(parts[from..=end(from)?].concat());
    let from = of_role(parts, Role::Register);
    from.into_iter().filter_map(whole).collect()
}

/// Look-ups of the line again, up to 12 or more of them; the last one may be unknown, or not whole.
fn look_ups_to_13(d: &mut Dice, line: &[u8]) -> Option<Vec<u8>> {
    let parts = parts(line);
    let there = look_ups(&parts);
    if there.is_empty() {
        return None;
    }
    let wanted = *d.pick(&[12, 13, 13, 13, 13, 14]);
    let mut line = line.to_vec();
    for count in there.len()..wanted {
        let mut look_up = d.pick(&there).clone();
        if count + 1 == wanted {
            match d.from(1, 6) {
                1 => look_up = unknown_register(d, &look_up)?,
                2 => look_up.truncate(d.from(0, look_up.len() - 1)),
                3 => look_up = columns(d, &look_up)?,
                _ => {}
            }
        }
        line.push(b' ');
        line.extend(look_up);
    }
    Some(line)
}

/// A look-up of a register whose name is nearly that of another: without its last letter, with one
/// more, with another letter, or another name.
fn unknown_register(d: &mut Dice, line: &[u8]) -> Option<Vec<u8>> {
    let mut parts = parts(line);
    let place = some(d, &of_role(&parts, Role::Register))?;
    let mut name = parts[place].clone();
    let (letter, last) = (letters(d, 1)[0], name.len() - 1);
    match d.from(1, 5) {
        1 if last > 0 => name.truncate(last),
        2 => name.push(letter),
        3 => name[d.from(0, last)] = letter,
        4 => name = parts[some(d, &of_role(&parts, Role::Variable))?].clone(),
        _ => {
            let count = *d.pick(&[1, 12, 13]);
            name = letters(d, count);
        }
    }
    parts[place] = name;
    Some(parts.concat())
}

/// A look-up with a variable fewer, or with one or more more.
fn columns(d: &mut Dice, line: &[u8]) -> Option<Vec<u8>> {
    let mut parts = parts(line);
    let close = some(d, &of_text(&parts, b")"))?;
    if close >= 2 && parts[close - 2] == b" " && d.once_in(2) {
        parts.drain(close - 2..close);
        return Some(parts.concat());
    }
    for _ in 0..*d.pick(&[1, 1, 1, 2, 3, 6, 20]) {
        let there = variables(&parts);
        let name = match there.is_empty() || d.once_in(3) {
            true => new_name(d, &parts),
            false => d.pick(&there).clone(),
        };
        parts.splice(close..close, [b" ".to_vec(), name]);
    }
    Some(parts.concat())
}

// ---------------------------------------------------------------- second lines

/// The names of a second line.
fn names(line: &[u8]) -> Parts {
    line.split(|byte| *byte == b' ')
        .map(<[u8]>::to_vec)
        .collect()
}

fn names_one_fewer(d: &mut Dice, line: &[u8]) -> Option<Vec<u8>> {
    let mut names = names(line);
    names.remove(d.from(0, names.len() - 1));
    Some(names.join(&b' '))
}

fn names_one_more(d: &mut Dice, line: &[u8]) -> Option<Vec<u8>> {
    let mut names = names(line);
    let more = new_name(d, &names);
    names.insert(d.from(0, names.len()), more);
    Some(names.join(&b' '))
}

fn names_one_twice(d: &mut Dice, line: &[u8]) -> Option<Vec<u8>> {
    let mut names = names(line);
    let last = names.len() - 1;
    if last == 0 {
        return None;
    }
    let one = d.from(0, last);
    let other = (one + d.from(1, last)) % names.len();
    names[one] = names[other].clone();
    Some(names.join(&b' '))
}

fn names_13_letters(d: &mut Dice, line: &[u8]) -> Option<Vec<u8>> {
    let mut names = names(line);
    let place = d.from(0, names.len() - 1);
    let count = *d.pick(&[13, 13, 14, 30]);
    let more = letters(d, count);
    names[place].extend(more);
    names[place].truncate(count);
    Some(names.join(&b' '))
}

/// Another byte for a space.
fn names_space_replaced(d: &mut Dice, line: &[u8]) -> Option<Vec<u8>> {
    let mut line = line.to_vec();
    let spaces: Vec<usize> = (0..line.len()).filter(|at| line[*at] == b' ').collect();
    let place = some(d, &spaces)?;
    line[place] = *d.pick(b"\t\n,_0:");
    Some(line)
}
