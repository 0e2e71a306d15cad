//! The wrong ideas.

ideas! {
    /// An idea of how a request is answered step by step.
    ideas;

    // ---- the list of calls
    /// The values of a call stand in the order of their variables.
    VariableOrder,
    /// Calls ascend by their values in the order of the variables.
    AscendByVariable,
    /// Calls stand as the list's rows do.
    AsRowsStand,
    /// Calls descend.
    Descend,
    /// Each row of the list is a call.
    CallForEachRow,
    /// A variable that repeats is given once.
    RepeatedOnce,
    /// Free columns that are known are given too.
    KnownGiven,
    /// No zeros are written behind the calls.
    NoZerosBehindCalls,
    /// Zeros are written up to the end of the list of calls.
    ZerosToTheEnd,
    /// Zeros are written where all steps are taken.
    AllTakenWrites,
    /// Under 5 the list of calls is zeroed.
    FiveZeroesCalls,

    // ---- choosing
    /// With nothing to give there is no call.
    NothingNoCall,
    /// With nothing to give there is a call for an empty list too.
    EmptyOneCall,
    /// An empty list ends it.
    EmptyEnds,
    /// A step that is chosen is chosen again, whatever else would be.
    Sticks,
    /// The lowest look-up and rule that can be used are chosen.
    LowestFirst,
    /// A tie takes the highest look-up.
    TieLast,
    /// Choosing again takes the choice back.
    TakesBack,
    /// Choosing zeroes the second table.
    ChoosingZeroes,

    // ---- 1
    /// A short list of calls is no fault where all steps are taken.
    ShortCallsAtTheEnd,
    /// The list of calls may be short, if the calls have room.
    CallsHaveRoom,
    /// 1 comes behind a later 5.
    OneBehindFive,
    /// 1 comes behind what is told of a step that is taken.
    OneBehindAlready,
    /// 1 comes behind 15.
    OneBehind15,
    /// Taking does not look at the second table's length.
    SecondNotLookedAt,

    // ---- 5
    /// A later 5 does not zero the tables.
    LaterFiveStays,
    /// A later 5 zeroes the first table alone.
    LaterFiveZeroesFirst,
    /// The first 5 does not zero the tables.
    FiveStays,
    /// 5 is forgotten.
    FiveForgotten,
    /// Choosing does not tell 5 again.
    ChoosesAfterFive,
    /// A step that is taken is told before a later 5.
    AlreadyBeforeFive,
    /// 15 is told before a later 5.
    Before15,
    /// A later 5 has no detail.
    LaterFiveWithoutDetail,
    /// The detail of 5 counts from 0.
    FiveFromZero,
    /// 512 rows are too many.
    Over511,
    /// After 5 no step is chosen.
    FiveUnchooses,

    // ---- step numbers
    /// Any step up to the chosen one is accepted.
    AnyUpToTheChosen,
    /// What is delivered for a step that is taken is joined again.
    JoinedAgain,
    /// Any step number is accepted.
    AnyStep,
    /// Of the step number the low 8 bits are taken.
    LowByte,
    /// Of the step number the low 32 bits are taken.
    LowWord,
    /// Steps count from 0.
    FromZero,
    /// A step need not be chosen.
    NotChosenTaken,
    /// 32 comes before a step that is taken is told.
    AlreadyBehind32,
    /// A step that is taken is refused with 15.
    AlreadyIs15,
    /// After a step that is taken none is chosen.
    AlreadyUnchooses,
    /// 32 comes before 15.
    LinesBefore15,
    /// After 15, 32 or 16 no step is chosen.
    RefusalUnchooses,

    // ---- 32
    /// 512 lines are too many.
    Below512Lines,
    /// Lines that repeat do not count.
    DifferentLines,
    /// Any number of lines is taken.
    AnyLines,
    /// Words behind the last whole row are dropped.
    RestDropped,
    /// A delivery has a row at least.
    EmptyIs32,
    /// 16 comes before 32.
    AskedBefore32,

    // ---- 16
    /// Free columns that are known must agree too.
    KnownFreeAsked,
    /// Only the first must-give column is looked at.
    FirstColumn,
    /// Each must-give column is looked at by itself.
    ColumnsApart,
    /// No row is refused; those that no call asks for are not joined.
    NoneRefused,
    /// Rows that no call asks for are left out.
    LeftOut,
    /// A row must agree with itself where a variable repeats.
    RepeatedAsked,
    /// A row with a 0 that can't match is refused.
    ZeroRefused,
    /// Where there is no call any row is asked for.
    EmptyListAsks,
    /// Only the last row is looked at.
    LastRow,

    // ---- the join
    /// A free column that is known need not agree.
    KnownFreeIgnored,
    /// Rows with 0 join.
    ZeroJoins,
    /// A row need not agree with itself.
    RepeatedIgnored,
    /// Lines that repeat are joined as often.
    RowsRepeat,
    /// A row is new where it stands: the list is not put in order.
    NotInOrder,

    // ---- what comes back
    /// Rows sent are lines.
    SentLines,
    /// Rows sent are those that join.
    SentJoined,
    /// Rows with a 0 that can't match are not sent.
    SentWithoutZero,
    /// A row sent costs as much as a call.
    RowsCharged,

    // ---- the tables
    /// No zeros are written behind the list.
    NoZerosBehindList,
    /// The second table stays.
    SecondStays,
    /// Zeros are written up to the tables' ends.
    ZerosBeyond,

    // ---- the state
    /// A step that is taken stays chosen.
    StaysChosen,
    /// Look-up and rule of the step that is taken stay.
    PickStays,
    /// Bits beyond the look-ups are dropped.
    BitsDropped,
    /// Bytes behind the sheet are zeroed.
    BehindSheetZeroed,

    // ---- any state
    /// A sheet of over 193 bytes is none.
    LongIsNone,
    /// A sheet that is not sound is refused with its fault.
    FaultTold,
    /// Bits beyond the look-ups count as steps.
    BitsCount,
    /// The first list stands in the table too.
    FirstListInTable,
    /// Rows that do not ascend are put in order.
    PutInOrder,
    /// Rows may repeat.
    RepeatsTaken,
    /// Words at variables that are not known are not looked at.
    UnknownNotLookedAt,
    /// Of over 512 rows the first 512 count.
    RowsCut,
    /// Only 1 stands for a step that is chosen.
    ChosenIsOne,
    /// A rule that can't be used may be chosen.
    UnusableChosen,
    /// A look-up that is answered may be chosen.
    AnsweredChosen,
}
