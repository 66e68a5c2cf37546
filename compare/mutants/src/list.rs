//! The wrong rules, by name.

/// How a mutant is to be told from the paper's rules.
#[derive(Clone, Copy, Debug, PartialEq, Eq)]
pub enum Harm {
    /// Two alike files give different views.
    Leak,
    /// A file gives another view than by the paper.
    Wrong,
}

macro_rules! mutants {
    ($of:ident $all:ident; $($name:ident $harm:ident $says:literal,)*) => {
        #[derive(Clone, Copy, Debug, PartialEq, Eq)]
        pub enum $of {
            $($name,)*
        }

        pub const $all: &[$of] = &[$($of::$name,)*];

        impl $of {
            pub fn harm(self) -> Harm {
                match self {
                    $($of::$name => Harm::$harm,)*
                }
            }

            /// What the mutant does instead of the paper's rule.
            pub fn says(self) -> &'static str {
                match self {
                    $($of::$name => $says,)*
                }
            }
        }
    };
}
pub(crate) use mutants;

mutants! {
    Mutant MUTANTS;

    // The paper's wrong turns.
    StepsByUse Leak "a block is charged the steps that it used",
    PlacesByUse Leak "a block is charged the places that it used",
    FaultCrosses Leak "a body's fault is thrown by BLOCK",
    SpentOverBound Leak "32 where a spent body's label passed the bound",
    OutcomeByFinalLabel Leak "the outcome bears the body's final label",
    IntegrityBackwards Leak "integrity is checked in secrecy's direction",
    HiddenCounted Leak "the view counts hidden records",

    // Blocks.
    PlaceCheckByUse Leak "26 by the places that a body uses, which it is charged",
    SpentCrosses Leak "32 is thrown by BLOCK",
    SpentEndsOuter Leak "a spent body leaves the outer run without steps",
    FaultOverBound Leak "a body's own fault where its label passed the bound",
    ResultOverBound Leak "a body's result where its label passed the bound",
    BoundFaultTells Leak "31 bears the code of the fault that it stands for",
    CodesSwapped Wrong "31 for spent and 32 for a label past the bound",
    OutcomeByJoin Leak "the outcome bears the join of bound and final label",
    LabelKept Wrong "a body's label stays after the block",
    ClearanceKept Leak "a body's clearance stays after the block",
    LocalsShared Leak "a body's changes to locals stay",
    LocalsBlank Wrong "a body starts with locals of 0",
    StackShared Wrong "a body starts with the outer stack",
    FramesShared Wrong "a body starts with the outer frames",
    RolledBack Leak "what a body made is undone if its label passed the bound",
    OuterStepsTaken Leak "a body goes on with the outer run's steps",
    OuterPlacesTaken Leak "a body goes on with the outer run's places",
    NineBlocks Wrong "nine nested blocks run",
    SevenBlocks Wrong "seven nested blocks run and the eighth does not",
    LastStepKept Wrong "27 also for all steps that are left",
    LastPlaceKept Wrong "26 also for all places that are left",

    // Raising.
    OpenUnraised Leak "OPEN does not raise",
    OpenFaultUnraised Leak "OPEN of a sealed fault does not raise",
    ReadUnraised Leak "READ does not raise",
    OpenReplaces Leak "OPEN sets the label to the record's",
    ReadReplaces Leak "READ sets the label to the record's",
    RaiseReplaces Leak "RAISE sets the label to its operand",
    LabofRaises Wrong "LABOF raises",
    JoinAndsIntegrity Leak "join takes the AND of integrity",
    JoinOrsSecrecy Leak "join takes the OR of secrecy",
    MeetIsJoin Wrong "meet is join",

    // Checks.
    SealUnchecked Leak "SEAL without check 23",
    NewUnchecked Leak "NEW without check 23",
    WriteUnchecked Leak "WRITE without check 23",
    BlockUnchecked Leak "BLOCK without check 23",
    SealUncleared Wrong "SEAL without check 24",
    NewUncleared Wrong "NEW without check 24",
    WriteUncleared Wrong "WRITE without check 24",
    BlockUncleared Wrong "BLOCK without check 24",
    RaiseUncleared Wrong "RAISE without check 24",
    OpenUncleared Wrong "OPEN without check 24",
    ReadUncleared Wrong "READ without check 24",
    UnopenedFaultTells Leak "OPEN of a sealed fault above the clearance throws it",
    LowerBelowLabel Wrong "LOWER may go below the label",
    LowerGoesUp Wrong "LOWER may go above the old clearance",

    // Which half of a flow test failed.
    HalvesSwapped Wrong "1 is told for integrity and 2 for secrecy",
    BothAsSecrecy Wrong "1 is told where both halves failed",
    BothAsIntegrity Wrong "2 is told where both halves failed",
    TargetSilent Wrong "23 bears 0",
    ClearanceSilent Wrong "24 of a target bears 0",
    RaisedSilent Wrong "24 of a raised label bears 0",
    LowerSilent Wrong "25 bears 0",
    TargetBackwards Wrong "23 bears the answer from the target to the label",
    ClearanceBackwards Wrong "24 bears the answer from the clearance to the target or raised label",
    LowerBackwards Wrong "25 bears the answer from the new clearance to the label, or from the old to the new",
    TargetTellsBoth Wrong "23 bears what 24 would bear, too",
    LowerTellsBoth Wrong "25 bears the answers of both its tests",
    LowerTellsLast Wrong "25 bears the second test's answer where both fail",
    RaiseTellsRise Wrong "24 of RAISE bears the answer from its operand to the current label",
    OpenTellsRise Wrong "24 of OPEN bears the answer from the record's label to the current one",
    ReadTellsRise Wrong "24 of READ bears the answer from the record's label to the current one",
    BoundTells Leak "31 bears the answer from the body's label to the bound",
    FlowsTells Wrong "FLOWS pushes the flow test's answer",
    CaughtSilent Wrong "a handler gets 0 with 23, 24 and 25",
    SealedSilent Wrong "an outcome holds 23, 24 and 25 with 0",

    // Handlers.
    TryLabel Leak "a handler runs with the label that stood at TRY",
    ThrowClearance Wrong "a handler runs with the clearance that stood at the throw",
    ThrowOnly Wrong "only 30 gives the clearance back",
    ThrowKeeps Wrong "30 does not give the clearance back",
    FlowFaultsKeep Wrong "23, 24 and 25 do not give the clearance back",
    BodyKeeps Wrong "no clearance is given back in a body",
    LastStepKeeps Wrong "no clearance is given back after the last step",
    OldestClearance Wrong "the oldest frame's clearance is given back",
    NextClearance Wrong "the clearance of the frame below the newest is given back",
    StartClearance Wrong "the script's starting clearance is given back",
    OuterClearance Wrong "the clearance that stood at BLOCK is given back in a body",
    LastTry Wrong "the clearance at the run's last TRY is given back",
    LastTryOfAll Leak "the clearance at the last TRY of all runs is given back",
    DoneClearance Wrong "DONE gives back the clearance of the frame that it drops",
    UncaughtRemoved Wrong "an uncaught fault gives back the clearance of the last frame there was",
    UncaughtStart Wrong "an uncaught fault gives back the clearance at the run's start",
    UncaughtBody Leak "a body's uncaught fault gives back the clearance of the outer run's newest frame",
    CodeOnTop Wrong "a handler gets the number below the code",
    OperandsPopped Wrong "the operands of a faulting instruction are popped",
    FaultsFree Wrong "a faulting instruction takes no step",

    // The words of a table. The sets of words 1 and 3 have the hirer, principal 6, and those
    // of words 2 and 3 the desk, principal 7.
    Word0Unlooked Leak "the flow test does not look at word 0",
    Word1Unlooked Leak "the flow test does not look at word 1",
    Word2Unlooked Leak "the flow test does not look at word 2",
    Word3Unlooked Leak "the flow test does not look at word 3",
    OneWordEnough Leak "a half of the flow test fails only if it fails in all words",
    LowestJoined Leak "join is of the lowest word, and leaves the others of the first label",
    LowestMet Wrong "meet is of the lowest word, and leaves the others of the first label",
    HirerInNone Leak "no set has principal 6, as if bit 6 were one of a set within a word",
    DeskInNone Leak "no set has principal 7, as if bit 7 were one of a set within a word",
    BothInNone Leak "no set has principal 6 or 7: every word of a clause is the lowest",
    HirerInAll Leak "every set has principal 6",
    DeskInAll Leak "every set has principal 7",
    HirerAsDesk Wrong "principals 6 and 7 are taken for one another",
    ValueTurned Wrong "the view has the highest word of a label that is a value first",
    RunLabelTurned Wrong "the view has the highest word of the final label first",
    ClearanceTurned Wrong "the view has the highest word of the clearance first",
    RecordLabelTurned Wrong "the view has the highest word of a record's label first",

    // Widths of the view from before there were eight principals.
    OldHidden Leak "50 bytes behind the six numbers are 0 where the final label is hidden",
    OldRecordsAt Wrong "the fifth number is 62",
    OldLength Wrong "the length is 62, and 36 for each record",
    OldRecordLength Wrong "the length is 206, and 36 for each record",
    OldRecordsApart Wrong "records start 36 bytes apart",

    // Views.
    HiddenShown Leak "the view shows hidden records",
    ShownByFinalLabel Leak "records are shown by the run's final label",
    EndingShown Leak "the ending is shown where the final label is hidden",
    StepsShown Leak "the steps are shown where the final label is hidden",
    NextPlaceShown Leak "the next place is shown where the final label is hidden",
    ResultShown Leak "the result is shown where the final label is hidden",
    LabelShown Leak "the final label is shown where it is hidden",
    ClearanceShown Leak "the clearance is shown where the final label is hidden",
}
