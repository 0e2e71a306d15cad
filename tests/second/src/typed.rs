//! A typed request: a line with given values and look-ups by name, as
//! `depot=7 cond=1 : state(machine cond) stock(depot machine)`. A second line names the registers of a
//! sheet, which are reused. The request is what a sheet with the same would say.
//!
//! The line is cut into tokens from the left, each as long as can be. Each token is looked at in its
//! place: all faults that fit it are found, and the lowest number is told. So the first token that has
//! a fault wins, then the lowest number. The end of the line counts as a token.

use crate::answer::{answered, checked, Answer};
use crate::route::Prices;
use crate::sheet::{self, Fault, Lookup, Register, Request, GIVEN_ZERO};

/// A byte that no token has, or a number with a leading zero.
pub const NO_TOKEN: u32 = 20;
/// A token, or the end of the line, is out of place.
pub const OUT_OF_PLACE: u32 = 21;
/// A look-up names a register that is not in the second line.
pub const UNKNOWN_REGISTER: u32 = 22;
/// A look-up has more or fewer variables than its register has columns.
pub const WRONG_COLUMNS: u32 = 23;
/// A name or a number is over its limit, or it is the 17th variable or the 13th look-up.
pub const OVER_LIMIT: u32 = 24;
/// A name is given twice.
pub const GIVEN_TWICE: u32 = 25;
/// The second line is not one name for each register.
pub const REGISTER_NAMES: u32 = 31;

/// A name has at most so many letters.
pub const MOST_LETTERS: usize = 12;
/// A line has at most so many variables.
pub const MOST_VARIABLES: usize = 16;
/// A line has at most so many look-ups.
pub const MOST_LOOKUPS: usize = 12;

/// The bytes of a typed request: the sheet whose registers are reused, the second line with their
/// names, and the line.
#[derive(Debug, Clone, PartialEq, Eq)]
pub struct Typed {
    pub sheet: Vec<u8>,
    pub names: Vec<u8>,
    pub line: Vec<u8>,
}

/// What a token is.
#[derive(Debug, Clone, Copy, PartialEq, Eq)]
pub enum Kind {
    Name,
    Number,
    /// One of `=`, `:`, the two brackets and the space.
    Mark(u8),
    /// A byte that no token has.
    Other,
    /// The end of the line.
    End,
}

/// A token: what it is, the place of its first byte, and its bytes.
#[derive(Debug, Clone, Copy, PartialEq, Eq)]
pub struct Token<'a> {
    pub kind: Kind,
    pub at: usize,
    pub text: &'a [u8],
}

/// The tokens of a line, and its end.
pub fn tokens(line: &[u8]) -> Vec<Token<'_>> {
    let mut tokens = Vec::new();
    let mut at = 0;
    while let Some(first) = line.get(at) {
        let run = |of: fn(&u8) -> bool| line[at..].iter().take_while(|byte| of(byte)).count();
        let (kind, length) = match first {
            b'a'..=b'z' => (Kind::Name, run(u8::is_ascii_lowercase)),
            b'0'..=b'9' => (Kind::Number, run(u8::is_ascii_digit)),
            b'=' | b':' | b'(' | b')' | b' ' => (Kind::Mark(*first), 1),
            _ => (Kind::Other, 1),
        };
        let text = &line[at..at + length];
        tokens.push(Token { kind, at, text });
        at += length;
    }
    let (kind, text) = (Kind::End, &line[at..]);
    tokens.push(Token { kind, at, text });
    tokens
}

/// Whether a number has a leading zero. 0 alone has none.
fn leading_zero(digits: &[u8]) -> bool {
    digits.len() > 1 && digits[0] == b'0'
}

/// The value of a number; one that is too large stays so, however long it is.
fn value(digits: &[u8]) -> u64 {
    let digit = |digit: &u8| u64::from(digit - b'0');
    digits.iter().fold(0, |value: u64, next| {
        value.saturating_mul(10).saturating_add(digit(next))
    })
}

/// A line while it is read. The given variables are the first ones, since givens come first.
struct Reading<'a> {
    registers: &'a [Register],
    /// The name of each register.
    register_names: &'a [&'a [u8]],
    /// The tokens that are still unread.
    tokens: std::vec::IntoIter<Token<'a>>,
    /// The name of each variable so far.
    variables: Vec<&'a [u8]>,
    given: Vec<u32>,
    lookups: Vec<Lookup>,
}

impl<'a> Reading<'a> {
    /// The next token, if it is of one of these kinds and nothing else is wrong with it. `faults` gives
    /// what is wrong with one that is in place.
    fn next(
        &mut self,
        kinds: &[Kind],
        faults: impl Fn(&Reading, &Token) -> Vec<u32>,
    ) -> Result<Token<'a>, Fault> {
        let token = self.tokens.next().expect("the end is not passed");
        let mut found = Vec::new();
        if token.kind == Kind::Other || token.kind == Kind::Number && leading_zero(token.text) {
            found.push(NO_TOKEN);
        }
        if kinds.contains(&token.kind) {
            found.extend(faults(self, &token));
        } else {
            found.push(OUT_OF_PLACE);
        }
        match found.into_iter().min() {
            Some(number) => Err(Fault::at(number, token.at)),
            None => Ok(token),
        }
    }

    /// The next token, which is one of these marks.
    fn mark(&mut self, marks: &[u8]) -> Result<u8, Fault> {
        let kinds: Vec<Kind> = marks.iter().map(|mark| Kind::Mark(*mark)).collect();
        let token = self.next(&kinds, |_, _| Vec::new())?;
        Ok(token.text[0])
    }

    /// What is wrong with this as a variable's name: it is too long, or the 17th.
    fn faults_of_variable(&self, name: &[u8]) -> Vec<u32> {
        let more = !self.variables.contains(&name) && self.variables.len() == MOST_VARIABLES;
        let over = more || name.len() > MOST_LETTERS;
        over.then_some(OVER_LIMIT).into_iter().collect()
    }

    /// A name that is given, or `None` at the colon.
    fn given_name(&mut self) -> Result<Option<&'a [u8]>, Fault> {
        let kinds = [Kind::Name, Kind::Mark(b':')];
        let token = self.next(&kinds, |so_far, token| {
            let mut faults = Vec::new();
            if token.kind == Kind::Name {
                faults = so_far.faults_of_variable(token.text);
                if so_far.variables.contains(&token.text) {
                    faults.push(GIVEN_TWICE);
                }
            }
            faults
        })?;
        Ok((token.kind == Kind::Name).then_some(token.text))
    }

    /// The value that a name is given.
    fn given_value(&mut self) -> Result<u32, Fault> {
        let token = self.next(&[Kind::Number], |_, token| match value(token.text) {
            0 => vec![GIVEN_ZERO],
            value if value > u64::from(u32::MAX) => vec![OVER_LIMIT],
            _ => Vec::new(),
        })?;
        Ok(value(token.text) as u32)
    }

    /// The givens, each with a space behind it, and the colon.
    fn givens(&mut self) -> Result<(), Fault> {
        while let Some(name) = self.given_name()? {
            self.mark(b"=")?;
            let value = self.given_value()?;
            self.mark(b" ")?;
            self.variables.push(name);
            self.given.push(value);
        }
        Ok(())
    }

    /// The number of the register with this name.
    fn register_of(&self, name: &[u8]) -> Option<usize> {
        let mut names = self.register_names.iter();
        names.position(|other| *other == name)
    }

    /// The register that a look-up names.
    fn register(&mut self) -> Result<usize, Fault> {
        let token = self.next(&[Kind::Name], |so_far, token| {
            let mut faults = Vec::new();
            if so_far.register_of(token.text).is_none() {
                faults.push(UNKNOWN_REGISTER);
            }
            if token.text.len() > MOST_LETTERS || so_far.lookups.len() == MOST_LOOKUPS {
                faults.push(OVER_LIMIT);
            }
            faults
        })?;
        Ok(self.register_of(token.text).expect("it is known"))
    }

    /// A variable of a look-up. A name that is new takes the next number.
    fn variable(&mut self) -> Result<usize, Fault> {
        let token = self.next(&[Kind::Name], |so_far, token| {
            so_far.faults_of_variable(token.text)
        })?;
        let met = self.variables.iter().position(|name| *name == token.text);
        Ok(met.unwrap_or_else(|| {
            self.variables.push(token.text);
            self.variables.len() - 1
        }))
    }

    /// A look-up, up to its closing bracket. Variables beyond the columns are read on.
    fn lookup(&mut self) -> Result<Lookup, Fault> {
        let register = self.register()?;
        let columns = self.registers[register].columns;
        self.mark(b"(")?;
        let mut variables = Vec::new();
        loop {
            variables.push(self.variable()?);
            let wrong = variables.len() != columns;
            let kinds = [Kind::Mark(b' '), Kind::Mark(b')')];
            let token = self.next(&kinds, |_, token| match token.text {
                b")" if wrong => vec![WRONG_COLUMNS],
                _ => Vec::new(),
            })?;
            if token.text == b")" {
                return Ok(Lookup {
                    register,
                    variables,
                });
            }
        }
    }

    /// The look-ups, one at least, each with a space before it, and the end of the line.
    fn lookups(&mut self) -> Result<(), Fault> {
        self.mark(b" ")?;
        loop {
            let lookup = self.lookup()?;
            self.lookups.push(lookup);
            let kinds = [Kind::Mark(b' '), Kind::End];
            if self.next(&kinds, |_, _| Vec::new())?.kind == Kind::End {
                return Ok(());
            }
        }
    }
}

/// Whether this is a name: 1 to 12 lower-case letters.
fn is_name(text: &[u8]) -> bool {
    (1..=MOST_LETTERS).contains(&text.len()) && text.iter().all(u8::is_ascii_lowercase)
}

/// The names of the second line: so many, all different, one space between each two. `None` where it
/// is anything else.
fn register_names(second_line: &[u8], count: usize) -> Option<Vec<&[u8]>> {
    let names: Vec<&[u8]> = second_line.split(|byte| *byte == b' ').collect();
    let first = |(place, name)| names.iter().position(|other| other == name) == Some(place);
    let right = names.len() == count
        && names.iter().all(|name| is_name(name))
        && names.iter().enumerate().all(first);
    right.then_some(names)
}

/// The request that a typed line makes with the registers of a sheet; or the sheet's fault, then 31,
/// then the first fault of the line, whose detail is its place in bytes.
pub fn read_typed(sheet: &[u8], names: &[u8], line: &[u8]) -> Result<Request, Fault> {
    let registers = sheet::read(sheet)?.registers;
    let Some(register_names) = register_names(names, registers.len()) else {
        return Err(Fault::at(REGISTER_NAMES, 0));
    };
    let mut reading = Reading {
        registers: &registers,
        register_names: &register_names,
        tokens: tokens(line).into_iter(),
        variables: Vec::new(),
        given: Vec::new(),
        lookups: Vec::new(),
    };
    reading.givens()?;
    reading.lookups()?;
    let mut givens: Vec<Option<u32>> = reading.given.into_iter().map(Some).collect();
    givens.resize(reading.variables.len(), None);
    let lookups = reading.lookups;
    Ok(Request {
        registers,
        givens,
        lookups,
    })
}

/// The part of the line that is handed back, as place and length: the name that begins at the fault's
/// place. It is empty where none does. It is empty at place 0 where the number is no fault that has a
/// place in the line and a name there, so is not from 20 to 25, or the place is not in the line.
pub fn part(line: &[u8], number: u32, detail: usize) -> (usize, usize) {
    if !(NO_TOKEN..=GIVEN_TWICE).contains(&number) || detail > line.len() {
        return (0, 0);
    }
    let mut tokens = tokens(line).into_iter();
    let name = tokens.find(|token| token.kind == Kind::Name && token.at == detail);
    (detail, name.map_or(0, |name| name.text.len()))
}

/// The answer to a typed request. The lengths are those of the two lent tables, which come first.
pub fn answer_typed(typed: &Typed, words: &[u32], first_len: usize, second_len: usize) -> Answer {
    let read = || read_typed(&typed.sheet, &typed.names, &typed.line);
    answered(read, words, Prices::CALLS, first_len, second_len)
}

/// The route check of a typed request: number and detail.
pub fn check_typed(typed: &Typed) -> (u32, u32) {
    checked(read_typed(&typed.sheet, &typed.names, &typed.line))
}

// ---------------------------------------------------------------- writing

/// The second line: these names.
pub fn written_names(names: &[impl AsRef<str>]) -> Vec<u8> {
    let names: Vec<&str> = names.iter().map(AsRef::as_ref).collect();
    names.join(" ").into_bytes()
}

/// The line that says this request with these names of its registers and of its variables. It is read
/// as [`by_appearance`] of the request.
pub fn written(
    request: &Request,
    registers: &[impl AsRef<str>],
    variables: &[impl AsRef<str>],
) -> Vec<u8> {
    let mut line = String::new();
    for (given, name) in request.givens.iter().zip(variables) {
        if let Some(value) = given {
            line += &format!("{}={value} ", name.as_ref());
        }
    }
    line += ":";
    for lookup in &request.lookups {
        let names = lookup.variables.iter().map(|v| variables[*v].as_ref());
        let names: Vec<&str> = names.collect();
        let register = registers[lookup.register].as_ref();
        line += &format!(" {register}({})", names.join(" "));
    }
    line.into_bytes()
}

/// The request with its variables numbered by first appearance in its line: the given ones first, in
/// their order, then those of the look-ups.
pub fn by_appearance(request: &Request) -> Request {
    let given = (0..request.givens.len()).filter(|v| request.givens[*v].is_some());
    let named = request.lookups.iter().flat_map(|lookup| &lookup.variables);
    let mut order: Vec<usize> = Vec::new();
    for variable in given.chain(named.copied()) {
        if !order.contains(&variable) {
            order.push(variable);
        }
    }
    let number = |old: &usize| order.iter().position(|other| other == old);
    let mut other = request.clone();
    other.givens = order.iter().map(|old| request.givens[*old]).collect();
    for variable in other.lookups.iter_mut().flat_map(|l| &mut l.variables) {
        *variable = number(variable).expect("it appears");
    }
    other
}

// ---------------------------------------------------------------- in words

/// Bytes as lower-case hex, `-` for none.
fn hex(bytes: &[u8]) -> String {
    match bytes {
        [] => "-".to_string(),
        _ => bytes.iter().map(|byte| format!("{byte:02x}")).collect(),
    }
}

/// Lists of numbers, `-` for none.
fn lists(lists: impl Iterator<Item = Vec<usize>>) -> String {
    let list = |list: Vec<usize>| {
        list.iter()
            .map(usize::to_string)
            .collect::<Vec<_>>()
            .join(",")
    };
    let lists: Vec<String> = lists.map(list).collect();
    match &lists[..] {
        [] => "-".to_string(),
        _ => lists.join(";"),
    }
}

/// What comes back for a typed request, as a line of expected results has it: number, detail and part,
/// the number of variables, variable and value of each given, register and variables of each look-up.
fn outcome_in_words(typed: &Typed) -> String {
    match read_typed(&typed.sheet, &typed.names, &typed.line) {
        Ok(Request {
            givens, lookups, ..
        }) => {
            let given = givens.iter().enumerate();
            let given = given.filter_map(|(v, value)| Some(vec![v, (*value)? as usize]));
            let named = lookups.into_iter();
            let named = named.map(|lookup| [vec![lookup.register], lookup.variables].concat());
            let variables = givens.len();
            let (given, lookups) = (lists(given), lists(named));
            format!(
                "number=0 detail=0 part=- variables={variables} given={given} lookups={lookups}"
            )
        }
        Err(Fault { number, detail }) => {
            let (place, length) = part(&typed.line, number, detail as usize);
            let part = (length > 0).then(|| vec![place, length]);
            let part = lists(part.into_iter());
            format!("number={number} detail={detail} part={part} variables=0 given=- lookups=-")
        }
    }
}

/// A typed request and what comes back for it, as a line of expected results has them.
pub fn in_words(typed: &Typed) -> String {
    let Typed { sheet, names, line } = typed;
    let [sheet, names, line] = [sheet, names, line].map(|bytes| hex(bytes));
    let outcome = outcome_in_words(typed);
    format!("sheet={sheet} names={names} line={line} {outcome}")
}
