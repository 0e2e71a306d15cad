//! Another reader of typed lines, as a table of states, which is right or has one wrong idea.

mod ideas;

pub use ideas::{Idea, ALL};

use ideas::{Given, LookUp};
use second::made_up_typed::Case;
use second::sheet::{self, Fault, Lookup, Register, Request};
use Idea::*;

/// What comes back: number and detail, place and length of the part, and what was read.
#[derive(Debug, Clone, PartialEq, Eq)]
pub struct Outcome {
    pub number: u32,
    pub detail: usize,
    pub part: (usize, usize),
    pub request: Option<Request>,
}

/// What stands before a token.
#[derive(Debug, Clone, Copy, PartialEq, Eq, PartialOrd, Ord)]
pub enum State {
    /// Nothing.
    Start,
    /// A given and its space.
    Givens,
    /// A name that is given.
    Name,
    /// `=`
    Equals,
    /// A value.
    Value,
    /// The colon.
    Colon,
    /// The space before a look-up.
    LookUp,
    /// A register.
    Register,
    /// `(`
    Open,
    /// A space in brackets.
    Between,
    /// A variable.
    Variable,
    /// `)`
    Closed,
}

/// A token: one letter for what it is (`a` a name, `1` a number, a mark, `?` any other byte, `$` the
/// end), its place and its bytes.
#[derive(Debug, Clone, Copy)]
pub struct Token<'a> {
    pub kind: char,
    pub at: usize,
    pub text: &'a [u8],
}

/// What kind of token a byte is of.
fn kind(byte: u8, idea: Idea) -> char {
    match byte {
        b'a'..=b'z' => 'a',
        b'A'..=b'Z' if idea == UpperCaseIsLetters => 'a',
        b'0'..=b'9' => '1',
        b'=' | b':' | b'(' | b')' | b' ' => char::from(byte),
        b'\t' | b'\n' if idea == BlanksAreSpaces => ' ',
        _ => '?',
    }
}

/// The tokens of a line, and its end.
fn tokens(line: &[u8], idea: Idea) -> Vec<Token<'_>> {
    let mut tokens: Vec<Token> = Vec::new();
    for (at, byte) in line.iter().enumerate() {
        let kind = kind(*byte, idea);
        let word = |kind| ['a', '1', '?'].contains(&kind);
        match tokens.last_mut() {
            Some(last) if last.kind == kind && ['a', '1'].contains(&kind) => {
                last.text = &line[last.at..=at];
            }
            Some(last) if idea == WordsRunOn && word(last.kind) && word(kind) => {
                (last.kind, last.text) = ('?', &line[last.at..=at]);
            }
            _ => {
                let text = &line[at..=at];
                tokens.push(Token { kind, at, text });
            }
        }
    }
    let (kind, at, text) = ('$', line.len(), &[][..]);
    tokens.push(Token { kind, at, text });
    tokens
}

/// A line while it is read.
struct Reader<'a> {
    idea: Idea,
    registers: &'a [Register],
    names: Vec<&'a [u8]>,
    variables: Vec<&'a [u8]>,
    /// How many names of variables stand in the line so far.
    standing: usize,
    given: Vec<Given<'a>>,
    lookups: Vec<LookUp<'a>>,
}

impl<'a> Reader<'a> {
    /// Whether this idea is had.
    fn has(&self, idea: Idea) -> bool {
        self.idea == idea
    }

    /// The kinds of tokens that may stand behind this.
    fn expected(state: State) -> &'static [char] {
        match state {
            State::Start | State::Givens => &['a', ':'],
            State::Name => &['='],
            State::Equals => &['1'],
            State::Value | State::Colon => &[' '],
            State::LookUp | State::Open | State::Between => &['a'],
            State::Register => &['('],
            State::Variable => &[' ', ')'],
            State::Closed => &[' ', '$'],
        }
    }

    /// The state in which a token is looked at by an idea that lets pass what should not; `None` where
    /// the token is passed over.
    fn lenient(&self, state: State, token: &Token, before: char, behind: char) -> Option<State> {
        match (self.idea, state, token.kind) {
            (DoubleSpaces, _, ' ') if before == ' ' => None,
            (SpaceFirst, State::Start, ' ') => None,
            (SpacesInBrackets, State::Open, ' ') => None,
            (SpacesInBrackets, State::Between, ')') => Some(State::Variable),
            (SpaceBeforeBracket, State::Register, ' ') => None,
            (TrailingSpace, State::LookUp, '$') if !self.lookups.is_empty() => Some(State::Closed),
            (NoSpaceBeforeColon, State::Value, ':') => Some(State::Givens),
            (NoSpaceBehindColon, State::Colon, 'a') => Some(State::LookUp),
            (NoLookUps, State::Colon, '$') => Some(State::Closed),
            (ColonLeftOut, State::Start, 'a') if behind == '(' => Some(State::LookUp),
            _ => Some(state),
        }
    }

    /// All faults that fit a token.
    fn faults(&self, state: State, token: &Token) -> Vec<u32> {
        let mut faults = Vec::new();
        let in_place = Reader::expected(state).contains(&token.kind);
        if token.kind == '?' || token.kind == '1' && self.leads(token.text, in_place) {
            faults.push(20);
        }
        if !in_place {
            faults.push(21);
            if token.kind == 'a' && token.text.len() > 12 {
                faults.push(24);
            }
            if state == State::Open && token.kind == ')' {
                faults.push(23);
                faults.retain(|number| *number != 21 || !self.has(EmptyIs23));
            }
            return faults;
        }
        faults.extend(match (state, token.kind) {
            (State::Start | State::Givens, 'a') => self.faults_of_given(token),
            (State::Equals, _) => self.faults_of_value(token.text),
            (State::LookUp, 'a') => self.faults_of_register(token),
            (State::Open | State::Between, 'a') => self.faults_of_variable(token),
            (State::Variable, ')') => self.faults_of_columns(),
            (State::Closed, ' ') if self.has(ThirteenthAtSpace) && self.lookups.len() == 12 => {
                vec![24]
            }
            _ => Vec::new(),
        });
        faults
    }

    /// Whether a number counts as one with a leading zero.
    fn leads(&self, digits: &[u8], in_place: bool) -> bool {
        match self.idea {
            LeadingZeroAllowed if in_place => false,
            LeadingZeroInPlaceAlone if !in_place => false,
            ZeroLeads => digits[0] == b'0',
            _ => digits.len() > 1 && digits[0] == b'0',
        }
    }

    /// Whether a variable's name is too long, or one too many.
    fn over_limit(&self, name: &[u8]) -> bool {
        let letters = match self.idea {
            ThirteenLetters => 13,
            ElevenLetters => 11,
            _ => 12,
        };
        let most = match self.idea {
            SeventeenVariables => 17,
            FifteenVariables => 15,
            _ => 16,
        };
        let more = match self.idea {
            EachStandingCounts => self.standing >= most,
            _ => !self.variables.contains(&name) && self.variables.len() >= most,
        };
        more || name.len() > letters
    }

    fn faults_of_given(&self, token: &Token) -> Vec<u32> {
        let mut faults = Vec::new();
        let twice = self.given.iter().any(|(name, _, _)| *name == token.text);
        if twice && ![TwiceAllowed, TwiceWhenWhole].contains(&self.idea) {
            faults.push(25);
        }
        if self.over_limit(token.text) && !self.has(GivensUncounted) {
            faults.push(24);
        }
        if self.has(NamesShared) && self.names.contains(&token.text) {
            faults.push(25);
        }
        faults
    }

    fn faults_of_variable(&self, token: &Token) -> Vec<u32> {
        let mut faults = Vec::new();
        if self.over_limit(token.text) && !self.has(BracketsUncounted) {
            faults.push(24);
        }
        if self.has(NamesShared) && self.names.contains(&token.text) {
            faults.push(25);
        }
        if self.has(ColumnsAtFirstTooMany) {
            let (register, _, variables) = self.lookups.last().expect("a look-up");
            let columns = register.map_or(6, |register| self.registers[register].columns);
            faults.extend((variables.len() >= columns).then_some(23));
        }
        faults
    }

    /// A number as this idea reads it.
    fn value(&self, digits: &[u8]) -> u128 {
        let read = digits.iter().fold(0_u128, |value, digit| {
            let value = value.saturating_mul(10);
            value.saturating_add(u128::from(digit - b'0'))
        });
        match self.idea {
            WrapsIn32Bits => read % (1 << 32),
            WrapsIn64Bits => read % (1 << 64),
            TenDigits if digits.len() <= 10 => read % (1 << 32),
            _ => read,
        }
    }

    fn faults_of_value(&self, digits: &[u8]) -> Vec<u32> {
        let zeros = digits.iter().all(|digit| *digit == b'0');
        let zero = match self.idea {
            ZeroAllowed => false,
            DoubleZeroIs20 => digits == b"0",
            _ => zeros,
        };
        let most = match self.idea {
            MostRefused => (1 << 32) - 2,
            _ => (1 << 32) - 1,
        };
        let over = self.value(digits) > most;
        let faults = [(12, zero), (24, over)].into_iter();
        faults
            .filter(|fault| fault.1)
            .map(|fault| fault.0)
            .collect()
    }

    /// The register of this name.
    fn register(&self, name: &[u8]) -> Option<usize> {
        let same = |other: &&[u8]| match self.idea {
            RegisterByBeginning => other.starts_with(name) || name.starts_with(other),
            _ => *other == name,
        };
        self.names.iter().position(same)
    }

    fn faults_of_register(&self, token: &Token) -> Vec<u32> {
        let unknown = self.register(token.text).is_none();
        let long = token.text.len() > 12;
        let most = match self.idea {
            ThirteenLookUps | ThirteenthAtEnd => 13,
            ElevenLookUps => 11,
            _ => 12,
        };
        let more = self.lookups.len() >= most;
        let told = match self.idea {
            LongRegisterIs24 => !long,
            UnknownThirteenthIs24 => !more,
            _ => true,
        };
        let faults = [(22, unknown && told), (24, long || more)].into_iter();
        faults
            .filter(|fault| fault.1)
            .map(|fault| fault.0)
            .collect()
    }

    fn faults_of_columns(&self) -> Vec<u32> {
        let (register, _, variables) = self.lookups.last().expect("a look-up");
        let columns = register.map_or(variables.len(), |r| self.registers[r].columns);
        let wrong = match self.idea {
            MoreColumns => variables.len() < columns,
            FewerColumns => variables.len() > columns,
            _ => variables.len() != columns,
        };
        let late = self.has(ThirteenthAtEnd) && self.lookups.len() == 13;
        let faults = [(23, wrong), (24, late)].into_iter();
        faults
            .filter(|fault| fault.1)
            .map(|fault| fault.0)
            .collect()
    }

    /// A variable stands here.
    fn stands(&mut self, name: &'a [u8]) {
        self.standing += 1;
        if !self.variables.contains(&name) {
            self.variables.push(name);
        }
    }

    /// Takes a token, and gives the state behind it.
    fn take(&mut self, state: State, token: &Token<'a>) -> State {
        match (state, token.kind) {
            (State::Start | State::Givens, 'a') => {
                self.stands(token.text);
                self.given.push((token.text, token.at, 0));
                State::Name
            }
            (State::Start | State::Givens, _) => State::Colon,
            (State::Name, _) => State::Equals,
            (State::Equals, _) => {
                let value = self.value(token.text) as u32;
                self.given.last_mut().expect("a name").2 = value;
                State::Value
            }
            (State::Value, _) => State::Givens,
            (State::Colon, _) => State::LookUp,
            (State::LookUp, _) => {
                let register = self.register(token.text);
                self.lookups.push((register, token.at, Vec::new()));
                State::Register
            }
            (State::Register, _) => State::Open,
            (State::Open | State::Between, _) => {
                self.stands(token.text);
                self.lookups
                    .last_mut()
                    .expect("a look-up")
                    .2
                    .push(token.text);
                State::Variable
            }
            (State::Variable, ' ') => State::Between,
            (State::Variable, _) => State::Closed,
            (State::Closed, _) => State::LookUp,
        }
    }

    /// The place that is told for a fault at a token.
    fn place(&self, number: u32, token: &Token) -> usize {
        let first = |name: &[u8]| self.given.iter().find(|given| given.0 == name);
        match (self.idea, number) {
            (ZeroAtName, 12) => self.given.last().expect("a name").1,
            (TwiceAtFirst, 25) => first(token.text).expect("given before").1,
            (ColumnsAtName, 23) if token.kind == ')' => self.lookups.last().expect("a look-up").1,
            (EndAtLastByte, 21) if token.kind == '$' => token.at.max(1) - 1,
            _ => token.at,
        }
    }

    /// The fault of a name that is given twice, where it is told only once its value is read.
    fn twice(&self, state: State) -> Option<(usize, u32)> {
        let (last, before) = self.given.split_last()?;
        let again = before.iter().any(|given| given.0 == last.0);
        (self.has(TwiceWhenWhole) && state == State::Value && again).then_some((last.1, 25))
    }

    /// All faults of the line that this idea finds, in order, as place and number. Most ideas end with
    /// the first. With it goes the state and the kind of token at the last one.
    fn read(&mut self, tokens: &[Token<'a>]) -> (Vec<(usize, u32)>, State, char) {
        let mut state = State::Start;
        let mut told = Vec::new();
        for (number, token) in tokens.iter().enumerate() {
            let kind =
                |place: Option<usize>| place.and_then(|p| tokens.get(p)).map_or('$', |t| t.kind);
            let (before, behind) = (kind(number.checked_sub(1)), kind(Some(number + 1)));
            let Some(looked) = self.lenient(state, token, before, behind) else {
                continue;
            };
            let faults = self.faults(looked, token);
            let number = match self.has(HighestNumber) {
                true => faults.iter().max(),
                false => faults.iter().min(),
            };
            if let Some(number) = number {
                told.push((self.place(*number, token), *number));
                let goes_on = [SyntaxFirst, LastFault, LowestNumber].contains(&self.idea);
                if !goes_on || [20, 21].contains(number) {
                    return (told, looked, token.kind);
                }
            }
            if token.kind == '$' {
                return (told, looked, '$');
            }
            state = self.take(looked, token);
            if let Some(twice) = self.twice(state) {
                return (vec![twice], state, token.kind);
            }
        }
        unreachable!("the end is the last token")
    }

    /// What was read as a request, with its variables numbered as this idea does.
    fn request(&self) -> Request {
        let numbered = ideas::numbered(self.idea, &self.variables, &self.given, &self.lookups);
        let number = |name: &[u8]| {
            let place = numbered.iter().position(|other| *other == name);
            place.expect("it has a number")
        };
        let mut givens = vec![None; numbered.len()];
        for (name, _, value) in &self.given {
            givens[number(name)] = Some(*value);
        }
        let lookup = |(register, _, variables): &LookUp| {
            let register = register.expect("it is known");
            let columns = self.registers[register].columns;
            let taken = variables.iter().take(columns).map(|name| number(name));
            Lookup {
                register,
                variables: taken.collect(),
            }
        };
        Request {
            registers: self.registers.to_vec(),
            givens,
            lookups: self.lookups.iter().map(lookup).collect(),
        }
    }
}

/// The part that is handed back.
fn part(
    line: &[u8],
    number: u32,
    detail: usize,
    reader: Option<&Reader>,
    idea: Idea,
) -> (usize, usize) {
    let told = match idea {
        PartAt31 => (20..=25).contains(&number) || number == 31,
        PartAtSheets => (2..=25).contains(&number),
        PartNotAt21 => (22..=25).contains(&number),
        _ => (20..=25).contains(&number),
    };
    let register = reader.and_then(|reader| reader.lookups.last());
    let place = match (idea, number, register) {
        (PartAtColumns, 23, Some(register)) => register.1,
        _ => detail,
    };
    if !told || place > line.len() {
        return (0, 0);
    }
    let tokens = tokens(line, idea).into_iter();
    let mut names = tokens.filter(|token| token.kind == 'a' && token.at == place);
    let length = names.next().map_or(0, |name| name.text.len());
    match idea {
        PartOf12Letters => (place, length.min(12)),
        _ => (place, length),
    }
}

/// A fault found by looking at all tokens before the line is read.
fn scanned(tokens: &[Token], idea: Idea) -> Option<(usize, u32)> {
    let found = |token: &&Token| match idea {
        OtherBytesFirst => token.kind == '?',
        LeadingZerosFirst => token.kind == '1' && token.text.len() > 1 && token.text[0] == b'0',
        _ => false,
    };
    tokens.iter().find(found).map(|token| (token.at, 20))
}

/// Of the faults of a line the one that is told.
fn chosen(told: &[(usize, u32)], idea: Idea) -> Option<(usize, u32)> {
    match idea {
        SyntaxFirst => {
            let syntax = told.iter().find(|(_, number)| [20, 21].contains(number));
            syntax.or(told.first()).copied()
        }
        LastFault => told.last().copied(),
        LowestNumber => told
            .iter()
            .copied()
            .min_by_key(|(place, number)| (*number, *place)),
        _ => told.first().copied(),
    }
}

/// What comes back where something is refused.
fn refused(number: u32, detail: usize, part: (usize, usize)) -> Outcome {
    Outcome {
        number,
        detail,
        part,
        request: None,
    }
}

/// The registers of the sheet, or its fault.
fn registers(case: &Case, idea: Idea) -> Result<Vec<Register>, Fault> {
    let behind = |fault: &Fault| [9, 10, 11, 12].contains(&fault.number);
    match sheet::read(&case.typed.sheet) {
        Err(fault) if idea == RegistersAlone && behind(&fault) => sheet::read(&case.before.sheet),
        read => read,
    }
    .map(|request| request.registers)
}

/// What a typed request is read as by a reader with this idea.
pub fn read(case: &Case, idea: Idea) -> Outcome {
    let line = &case.typed.line;
    let told = |number: u32, detail: usize| {
        let part = part(line, number, detail, None, idea);
        refused(number, detail, part)
    };
    let named = ideas::names(&case.typed.names, idea);
    let registers = match registers(case, idea) {
        Ok(registers) => registers,
        Err(_) if idea == NamesBeforeSheet && named.is_none() => return told(31, 0),
        Err(fault) => return told(fault.number, fault.detail as usize),
    };
    let fits = |names: &Vec<&[u8]>| ideas::fits(names.len(), registers.len(), idea);
    let right = named.filter(fits).is_some();
    if !right && idea != NamesAfterLine {
        return told(31, 0);
    }
    match read_line(case, &registers, idea) {
        Outcome { number: 0, .. } if !right => told(31, 0),
        outcome => outcome,
    }
}

/// What a line is read as with these registers.
fn read_line(case: &Case, registers: &[Register], idea: Idea) -> Outcome {
    let line = &case.typed.line;
    let names: Vec<&[u8]> = case.typed.names.split(|byte| *byte == b' ').collect();
    let (mut reader, tokens) = (reader(idea, registers, names), tokens(line, idea));
    let (found, _, _) = reader.read(&tokens);
    if let Some((place, number)) = scanned(&tokens, idea).or(chosen(&found, idea)) {
        let part = part(line, number, place, Some(&reader), idea);
        return refused(number, place, part);
    }
    Outcome {
        number: 0,
        detail: if idea == DetailIsEnd { line.len() } else { 0 },
        part: (0, 0),
        request: Some(reader.request()),
    }
}

fn reader<'a>(idea: Idea, registers: &'a [Register], names: Vec<&'a [u8]>) -> Reader<'a> {
    Reader {
        idea,
        registers,
        names: names.into_iter().take(registers.len()).collect(),
        variables: Vec::new(),
        standing: 0,
        given: Vec::new(),
        lookups: Vec::new(),
    }
}

/// The state and the kind of token at which a line ends, well or not. Sheet and second line are sound.
pub fn stop(case: &Case) -> (State, char) {
    let registers = registers(case, Right).expect("a sound sheet");
    let names: Vec<&[u8]> = case.typed.names.split(|byte| *byte == b' ').collect();
    let tokens = tokens(&case.typed.line, Right);
    let (_, state, kind) = reader(Right, &registers, names).read(&tokens);
    (state, kind)
}
