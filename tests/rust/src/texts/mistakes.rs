//! The mistakes that `mock` can make, one at a time.

use std::sync::atomic::{AtomicUsize, Ordering};

macro_rules! mistakes {
    ($($name:ident)*) => {
        #[derive(Clone, Copy, Debug, PartialEq, Eq)]
        pub enum Mistake {
            NoMistake,
            $($name,)*
        }

        pub const MISTAKES: &[Mistake] = &[$(Mistake::$name,)*];
    };
}

mistakes! {
    XorStrongerThanAnd
    OrStrongerThanXor
    OrAsStrongAsXor
    AllOfOneStrength
    FromRightToLeft
    AndFromRightToLeft
    XorFromRightToLeft
    OrFromRightToLeft
    NotWeakerThanAnd
    NotOnceOnly
    DoubleNotDropped
    EmptyBracketsAccepted
    BracketsDoNotGroup
    Depth31
    Depth33
    DepthUnbounded
    DepthCountsAllBrackets
    DepthSeenAtTheOperand
    Records503
    Records505
    RecordsCountedByGuard
    RecordsCountedByList
    Clauses503
    OperatorSeenLate
    NotSeenLate
    ClauseSeenLate
    OperandOfLastOperatorForgotten
    OperatorBeforeOperands
    RightBeforeLeft
    OperandsSwapped
    IndicesFromTheGuardOn
    IndicesCutToAByte
    RecordsShared
    ConstantsSwapped
    ConstantsGiveVariables
    OrAndXorSwapped
    NotFillsBothOperands
    GuardIsFirstRecord
    GuardIsCountOfRecords
    GuardFromTheClauseOn
    GuardCutToAByte
    NodeCutToAByte
    NodeAndTimeSwapped
    ValueInverted
    SidesSwapped
    SideAlwaysGiven
    ExpectBeforeGivenInTheList
    LastClauseForgotten
    VariableKAccepted
    LastVariableRefused
    VariablesToL
    LetterSeenLate
    NodeNAccepted
    LastNodeRefused
    NodeSeenLate
    NodesCutTo16Bits
    Time256Accepted
    Time255Refused
    TimeSeenLate
    TimeCutToAByte
    ValueTwoAccepted
    LeadingZerosAccepted
    LeadingZeroOfTimesAccepted
    LeadingZeroSeenAtOnce
    ZeroRefused
    GapsNotRequired
    GapNotRequiredAfterNumbers
    GapNotRequiredAfterGiven
    GapNotRequiredBeforeConstants
    GapNotRequiredBeforeVariables
    GapNotRequiredBeforeNumbers
    GapRequiredAfterWords
    GapRequiredAfterColons
    TabIsAGap
    FormFeedIsAGap
    HighSpaceIsAGap
    NewlineIsNoGap
    ReturnIsNoGap
    OneGapByteOnly
    GapAtTheStartRefused
    GapAtTheEndRefused
    UppercaseAccepted
    HighBitIgnored
    ZeroByteEndsTheText
    WordsByTheirFirstLetter
    ExpectOptional
    ExpectTwiceAccepted
    GivenOptional
    EmptyGivenRefused
    EmptyExpectRefused
    EmptyTextAccepted
    LastSemicolonOptional
    ColonOptional
    RestIgnored
    PlaceOneLater
    PlaceOneEarlier
    PlaceAtTheStartOfTheItem
    PlaceAtTheEndOfTheItem
    PlaceBeforeTheGap
    PlaceAtTheStartOfTheClause
    PlaceZeroIfItEndsEarly
    PlaceOfLastByteIfItEndsEarly
    PlaceCutToAByte
    PlaceCutTo16Bits
    LengthCutTo16Bits
    PlaceCountsItems
    PlaceInTheThirdNumber
    VariablesNotChecked
    VariablesCutToAByte
    NodesNotChecked
    NoNodesAccepted
    Nodes1009Accepted
    TextBeforeLimits
    RoomBeforeText
    RoomBeforeLimits
    RoomRunsOutBeforeTheText
    RoomOfExpressionsNotChecked
    RoomOfClausesNotChecked
    RoomOneByteTooMany
    RoomOneByteTooFew
    RoomWithPlace
    RoomSummed
    ExpressionsTouchedWhenRefused
    ClausesTouchedWhenRefused
    TouchedWhenRoomIsShort
    WrittenUpToTheStop
    ExpressionsWrittenBeforeClausesAreMeasured
    RestCleared
    WritesOnePastTheEnd
    TextAltered
    CountsSwapped
    CountsInBytes
    AnswerNotCleared
    AnswerInThirtyNineBytes
    AnswerOneByteTooLong
    ShortAnswerStillWritesLists
    ReturnsZero
}

static CHOSEN: AtomicUsize = AtomicUsize::new(Mistake::NoMistake as usize);

pub fn choose(mistake: Mistake) {
    CHOSEN.store(mistake as usize, Ordering::SeqCst);
}

/// Chooses the mistake that the environment names in TEXT_MISTAKE, if it names one.
pub fn choose_from_environment() {
    let Ok(name) = std::env::var("TEXT_MISTAKE") else {
        return;
    };
    let named = MISTAKES.iter().find(|m| format!("{m:?}") == name);
    choose(*named.unwrap_or_else(|| panic!("no mistake is called {name}")));
}

pub fn making(mistake: Mistake) -> bool {
    CHOSEN.load(Ordering::Relaxed) == mistake as usize
}
