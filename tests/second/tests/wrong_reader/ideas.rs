//! The wrong ideas, and what some of them do with names.

ideas! {
    /// An idea of how a typed line is read.
    ideas;

    // ---- tokens
    /// Upper-case letters are letters of names.
    UpperCaseIsLetters,
    /// A run of bytes that are no marks is one token.
    WordsRunOn,
    /// A tab and a newline are spaces.
    BlanksAreSpaces,

    // ---- which fault is told
    /// Other bytes are looked for before the line is read.
    OtherBytesFirst,
    /// Leading zeros are looked for before the line is read.
    LeadingZerosFirst,
    /// 20 and 21 anywhere come before all others.
    SyntaxFirst,
    /// The last fault is told.
    LastFault,
    /// The lowest number is told, wherever it stands.
    LowestNumber,
    /// Of the faults of one token the highest number is told.
    HighestNumber,

    // ---- numbers
    /// A given value may have leading zeros.
    LeadingZeroAllowed,
    /// A number out of place is 21 with a leading zero too.
    LeadingZeroInPlaceAlone,
    /// 0 alone has a leading zero.
    ZeroLeads,
    /// `x=00` is 20.
    DoubleZeroIs20,
    /// 0 may be given.
    ZeroAllowed,
    /// A given 0 is told at its name.
    ZeroAtName,
    /// Values are read in 32 bits.
    WrapsIn32Bits,
    /// Values are read in 64 bits.
    WrapsIn64Bits,
    /// Only numbers of more than ten digits are too large.
    TenDigits,
    /// 4,294,967,295 is too large.
    MostRefused,

    // ---- names
    /// Variables may have 13 letters.
    ThirteenLetters,
    /// Variables may have 11 letters at most.
    ElevenLetters,
    /// A register of more than 12 letters is 24.
    LongRegisterIs24,
    /// A register is known by its beginning.
    RegisterByBeginning,
    /// No variable may be named as a register is.
    NamesShared,
    /// Variables are numbered by the look-ups first.
    NumberedLookUpsFirst,
    /// Variables are numbered by the registers of their look-ups.
    NumberedByRegister,
    /// Variables are numbered by their names.
    NumberedByName,

    // ---- limits
    /// There may be 17 variables.
    SeventeenVariables,
    /// There may be 15 variables at most.
    FifteenVariables,
    /// A variable counts each time that it stands.
    EachStandingCounts,
    /// Givens may be any number of variables.
    GivensUncounted,
    /// Variables in brackets may be any number.
    BracketsUncounted,
    /// There may be 13 look-ups.
    ThirteenLookUps,
    /// There may be 11 look-ups at most.
    ElevenLookUps,
    /// A 13th look-up is told at the space before it.
    ThirteenthAtSpace,
    /// A 13th look-up is told at its closing bracket.
    ThirteenthAtEnd,
    /// A 13th look-up of an unknown register is 24.
    UnknownThirteenthIs24,

    // ---- columns
    /// 23 stands at the register's name.
    ColumnsAtName,
    /// 23 stands at the first variable too many.
    ColumnsAtFirstTooMany,
    /// Variables beyond the columns are left out.
    MoreColumns,
    /// Fewer variables than columns are taken.
    FewerColumns,
    /// Empty brackets are 23.
    EmptyIs23,

    // ---- given twice
    /// 25 stands at the first.
    TwiceAtFirst,
    /// 25 is told once the second value is read.
    TwiceWhenWhole,
    /// The second value counts.
    TwiceAllowed,

    // ---- spaces and ends
    /// Several spaces are one.
    DoubleSpaces,
    /// A space may stand before the colon of a line without givens.
    SpaceFirst,
    /// Spaces may stand inside brackets, next to them.
    SpacesInBrackets,
    /// A space may stand before an opening bracket.
    SpaceBeforeBracket,
    /// A space may end the line.
    TrailingSpace,
    /// No space is needed before the colon.
    NoSpaceBeforeColon,
    /// No space is needed behind the colon.
    NoSpaceBehindColon,
    /// A line may have no look-up.
    NoLookUps,
    /// A line without givens may have no colon.
    ColonLeftOut,
    /// The end of the line is told at its last byte.
    EndAtLastByte,

    // ---- what comes back
    /// At 31 the name at the detail's place is handed back.
    PartAt31,
    /// At the sheet's refusals, and at 12, the name at the detail's place is handed back.
    PartAtSheets,
    /// At 21 no name is handed back.
    PartNotAt21,
    /// At 23 the register's name is handed back.
    PartAtColumns,
    /// 12 letters at most are handed back.
    PartOf12Letters,
    /// The detail of a line that is read is its end.
    DetailIsEnd,

    // ---- the second line and the sheet
    /// 31 comes behind the line's faults.
    NamesAfterLine,
    /// 31 comes before the sheet's refusals.
    NamesBeforeSheet,
    /// There may be more names than registers.
    MoreNames,
    /// There may be fewer names than registers.
    FewerNames,
    /// Two registers may have one name.
    EqualNames,
    /// A register's name may have 13 letters.
    NamesOf13Letters,
    /// Other bytes than letters may stand in a register's name.
    NamesOfAnyBytes,
    /// A space may end the second line.
    NamesTrailingSpace,
    /// Of the sheet only the part up to its registers is looked at.
    RegistersAlone,
}

use Idea::*;

/// A given: its name, its place and its value.
pub type Given<'a> = (&'a [u8], usize, u32);

/// A look-up: its register, the place of its name, and its variables.
pub type LookUp<'a> = (Option<usize>, usize, Vec<&'a [u8]>);

/// The variables in the order of their numbers.
pub fn numbered<'a>(
    idea: Idea,
    variables: &[&'a [u8]],
    given: &[Given<'a>],
    lookups: &[LookUp<'a>],
) -> Vec<&'a [u8]> {
    let given = given.iter().map(|given| given.0);
    let mut lookups = lookups.to_vec();
    if idea == NumberedByRegister {
        lookups.sort_by_key(|lookup| lookup.0);
    }
    let named = lookups.iter().flat_map(|lookup| lookup.2.iter().copied());
    let order: Vec<&[u8]> = match idea {
        NumberedLookUpsFirst => named.chain(given).collect(),
        NumberedByRegister => given.chain(named).collect(),
        _ => variables.to_vec(),
    };
    let mut numbered: Vec<&[u8]> = Vec::new();
    for name in order {
        if !numbered.contains(&name) {
            numbered.push(name);
        }
    }
    if idea == NumberedByName {
        numbered.sort_unstable();
    }
    numbered
}

/// The names of a second line, if it is right but for their number.
pub fn names(second_line: &[u8], idea: Idea) -> Option<Vec<&[u8]>> {
    let second_line = match second_line.strip_suffix(b" ") {
        Some(rest) if idea == NamesTrailingSpace => rest,
        _ => second_line,
    };
    let names: Vec<&[u8]> = second_line.split(|byte| *byte == b' ').collect();
    let letters = if idea == NamesOf13Letters { 13 } else { 12 };
    let letter = |byte: &u8| byte.is_ascii_lowercase() || idea == NamesOfAnyBytes;
    let name = |name: &&[u8]| !name.is_empty() && name.len() <= letters && name.iter().all(letter);
    let mut different = names.clone();
    different.sort_unstable();
    different.dedup();
    let right = names.iter().all(name) && (different.len() == names.len() || idea == EqualNames);
    right.then_some(names)
}

/// Whether so many names are right for so many registers.
pub fn fits(names: usize, registers: usize, idea: Idea) -> bool {
    match idea {
        MoreNames => names >= registers,
        FewerNames => names <= registers,
        _ => names == registers,
    }
}
