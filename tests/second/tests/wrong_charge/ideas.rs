//! The wrong ideas.

ideas! {
    /// An idea of what is charged, and of how a step is chosen by it.
    ideas;

    // ---- rows sent
    /// A row that repeats is sent as often.
    RepeatsAreSent,
    /// Only rows that join a row of the list are sent.
    JoinedAlone,
    /// Rows that are left out for a 0 are not sent.
    LeftOutUnsent,
    /// A row must agree with a row of the list on all known variables, free columns included.
    KnownColumns,
    /// A row must agree with itself where a variable repeats.
    RepeatedVariables,
    /// A row agrees where each must-give column has some value of the list, together or not.
    ColumnsApart,
    /// Only the first must-give column counts.
    FirstColumn,
    /// All rows are sent, whatever is given.
    AllRows,
    /// All rows are sent with nothing to give, also to an empty list.
    EmptyListSends,
    /// With nothing to give no row is sent.
    NothingToGive,
    /// A row is sent for each row of the list that it agrees with.
    ForEachListRow,
    /// The rows after the step are told as sent.
    RowsAfter,
    /// The rows of the row data are counted, by lines, where no call leaves one out.
    LinesWhereAll,

    // ---- the charge
    /// p is for rows, and q for calls.
    Exchanged,
    /// A step pays p once, whatever its calls.
    OneCall,
    /// A step pays p once at least.
    OneCallAtLeast,
    /// q is for the rows after the step.
    ChargedRowsAfter,
    /// The charge is kept in 16 bits.
    SixteenBits,
    /// The total is p for all calls, without the rows.
    TotalWithoutRows,
    /// The total is the dearest step.
    TotalIsDearest,

    // ---- the choice
    /// The fewest calls are taken.
    ByCalls,
    /// The fewest rows sent are taken.
    BySent,
    /// Calls and rows count alike.
    ByCallsAndRows,
    /// The highest charge is taken.
    Dearest,
    /// A tie takes the fewest calls.
    TieByCalls,
    /// A tie takes the most calls.
    TieByMoreCalls,
    /// A tie takes the fewest rows sent.
    TieBySent,
    /// A tie takes the highest look-up.
    TieLast,
    /// A tie of one look-up's rules takes the highest.
    TieLastRule,
    /// A tie takes the lowest rule, then the lowest look-up.
    TieRuleFirst,
    /// Each look-up goes by its lowest rule that can be used.
    LowestRule,
    /// Each look-up goes by its rule with the fewest calls.
    FewestCallsRule,
    /// Nothing is charged: the fewest calls are taken.
    NothingByCalls,

    // ---- 17
    /// 1,000 is too much.
    Below1000,
    /// 1,001 is not too much.
    Up1001,
    /// q is not looked at.
    OnlyP,
    /// p is not looked at.
    OnlyQ,
    /// Both must be over.
    Both,
    /// The sum must be over.
    Sum,
    /// Of p and q the low 32 bits are taken.
    LowBits,
    /// 17 comes before 1.
    BeforeTables,
    /// 17 comes behind the sheet's refusals.
    BehindSheet,
    /// 17 comes behind 3.
    BehindData,
    /// 17 comes behind 4.
    BehindRoute,
    /// 17 comes behind 5.
    BehindList,
    /// p and q above 1,000 count as 1,000.
    Cut,
}
