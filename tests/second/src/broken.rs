//! Ways to break the sheet of a sound request, at each kind of field.

use crate::made_up::Dice;
use crate::sheet::Request;
use crate::write::{sheet, written, Field, Written};

/// A way to break the sheet of a request; `None` where this one can't be broken so.
pub(crate) type Way = fn(&mut Dice, &Request) -> Option<Vec<u8>>;

/// The kinds of fields that have a range: the version, the counts, what a look-up names, and a given
/// value, which is not 0.
const RANGED: [&str; 8] = [
    "version",
    "registers",
    "look-ups",
    "columns",
    "rules",
    "register",
    "variable",
    "value",
];

/// The kinds of fields that a sheet can end in, and whether it ends before such a field or inside.
/// The numbers of registers and of look-ups are whole with the byte that they begin in.
const ENDS: [(&str, bool); 16] = [
    ("version", true),
    ("variables", false),
    ("columns", true),
    ("columns", false),
    ("rules", true),
    ("rules", false),
    ("rule", true),
    ("rule", false),
    ("given", true),
    ("given", false),
    ("value", true),
    ("value", false),
    ("register", true),
    ("register", false),
    ("variable", true),
    ("variable", false),
];

/// One way for each number that a sheet is refused with: 2, and 7 to 12.
const WAYS: [Way; 7] = [
    ends_early,
    |d, request| Some(put_over(d, request, &RANGED[..1])?.0.bytes()),
    |d, request| Some(put_over(d, request, &RANGED[1..5])?.0.bytes()),
    |d, request| Some(put_over(d, request, &RANGED[5..7])?.0.bytes()),
    unused,
    ending,
    given_zero,
];

/// A sheet that is broken in some way. A way is tried at several of its fields before another.
pub(crate) fn any(d: &mut Dice, request: &Request) -> Vec<u8> {
    loop {
        let way = *d.pick(&WAYS);
        if let Some(sheet) = (0..8).find_map(|_| way(d, request)) {
            return sheet;
        }
    }
}

/// The fields of this kind.
fn of_kind<'a>(sheet: &'a Written, name: &'a str) -> impl Iterator<Item = &'a Field> {
    sheet.fields.iter().filter(move |field| field.name == name)
}

/// A value out of this field's range, below it or above it; `None` where there is none.
fn out_of_range(d: &mut Dice, request: &Request, field: &Field) -> Option<u32> {
    let (from_0, above) = match field.name {
        "value" => return Some(0),
        "version" => (false, 2),
        "registers" | "look-ups" => (false, 13),
        "columns" => (false, 7),
        "rules" => (false, 9),
        "register" => (true, request.registers.len()),
        "variable" => (true, request.givens.len()),
        _ => return None,
    };
    let most = (1 << field.width) - 1;
    if !from_0 && d.once_in(2) {
        Some(0)
    } else {
        (above <= most).then(|| d.from(above, most) as u32)
    }
}

/// Another value in a field of one of these kinds, out of its range, and all else left alone; `None`
/// where there is no such field or value.
fn put_over(d: &mut Dice, request: &Request, kinds: &[&'static str]) -> Option<(Written, Field)> {
    let name = *d.pick(kinds);
    let mut sheet = written(request);
    let fields: Vec<&Field> = of_kind(&sheet, name).collect();
    if fields.is_empty() {
        return None;
    }
    let field = (*d.pick(&fields)).clone();
    let value = out_of_range(d, request, &field)?;
    sheet.put(&field, value);
    Some((sheet, field))
}

/// One field out of its range.
pub(crate) fn field_over(d: &mut Dice, request: &Request) -> Option<Vec<u8>> {
    Some(put_over(d, request, &RANGED)?.0.bytes())
}

/// A given value of 0; `None` where no variable is given.
pub(crate) fn given_zero(d: &mut Dice, request: &Request) -> Option<Vec<u8>> {
    Some(put_over(d, request, &RANGED[7..])?.0.bytes())
}

/// A kind of field for a sheet to end in, and whether before it or inside.
pub(crate) fn end(d: &mut Dice) -> (&'static str, bool) {
    *d.pick(&ENDS)
}

/// A sheet cut to a length by which a field of this kind is the first that is not whole.
pub(crate) fn cut(d: &mut Dice, request: &Request, end: (&str, bool)) -> Option<Vec<u8>> {
    let sheet = written(request);
    let lengths: Vec<usize> = of_kind(&sheet, end.0)
        .flat_map(|field| {
            let cut = field.at.div_ceil(8)..(field.at + field.width).div_ceil(8);
            cut.filter(|length| (8 * length == field.at) == end.1)
        })
        .collect();
    if lengths.is_empty() {
        return None;
    }
    let mut bytes = sheet.bytes();
    bytes.truncate(*d.pick(&lengths));
    Some(bytes)
}

/// A sheet that ends early, in a field of some kind.
fn ends_early(d: &mut Dice, request: &Request) -> Option<Vec<u8>> {
    let end = end(d);
    cut(d, request, end)
}

/// One field out of its range, and the sheet ends early behind it: the later fault has the lower
/// number.
pub(crate) fn over_and_ends_early(d: &mut Dice, request: &Request) -> Option<Vec<u8>> {
    let (sheet, field) = put_over(d, request, &RANGED)?;
    let least = (field.at + field.width).div_ceil(8);
    let most = (sheet.bits.len() - 1) / 8;
    if least > most {
        return None;
    }
    let mut bytes = sheet.bytes();
    bytes.truncate(d.from(least, most));
    Some(bytes)
}

/// One to three variables more, which stand nowhere.
pub(crate) fn unused(d: &mut Dice, request: &Request) -> Option<Vec<u8>> {
    let mut request = request.clone();
    let more = d.from(1, 3).min(16 - request.givens.len());
    for _ in 0..more {
        let place = d.from(0, request.givens.len());
        request.givens.insert(place, None);
        for lookup in &mut request.lookups {
            for variable in &mut lookup.variables {
                *variable += usize::from(*variable >= place);
            }
        }
    }
    (more > 0).then(|| sheet(&request))
}

/// A padding bit of 1; `None` where the sheet has no padding.
pub(crate) fn padding(d: &mut Dice, request: &Request) -> Option<Vec<u8>> {
    let mut sheet = written(request);
    let bits = sheet.bits.len();
    let padding = bits.next_multiple_of(8) - bits;
    if padding == 0 {
        return None;
    }
    sheet.bits.resize(bits + d.from(1, padding) - 1, false);
    sheet.bits.push(true);
    Some(sheet.bytes())
}

/// One to three bytes behind a sheet.
fn with_bytes(d: &mut Dice, mut sheet: Vec<u8>) -> Vec<u8> {
    for _ in 0..*d.pick(&[1, 1, 2, 3]) {
        sheet.push(*d.pick(&[0, 0, 1, 255]));
    }
    sheet
}

/// Bytes behind the padding. Of the sheets that need padding, few are taken.
pub(crate) fn bytes_more(d: &mut Dice, request: &Request) -> Option<Vec<u8>> {
    let full = written(request).bits.len() % 8 == 0;
    (full || d.once_in(3)).then(|| with_bytes(d, sheet(request)))
}

/// A padding bit of 1, and bytes behind it.
pub(crate) fn padding_and_bytes(d: &mut Dice, request: &Request) -> Option<Vec<u8>> {
    let sheet = padding(d, request)?;
    Some(with_bytes(d, sheet))
}

/// A sheet that does not end where its fields do.
fn ending(d: &mut Dice, request: &Request) -> Option<Vec<u8>> {
    let way: Way = *d.pick(&[padding as Way, bytes_more, padding_and_bytes]);
    way(d, request)
}
