//! The wrong rules of days, by name.

use crate::list::{mutants, Harm};

mutants! {
    DayMutant DAY_MUTANTS;

    // Admission: whose allowance.
    OneForAll Wrong "all callers have one allowance",
    LimitsPooled Wrong "all callers have one allowance, as many limits as there are callers in the day",
    LimitDivided Wrong "the limit is divided by the callers in the day",
    Sixteenths Wrong "each caller has a sixteenth of the limit",
    ByIndex Wrong "each job has an allowance of its own, by its index",
    EightApart Wrong "callers eight apart have one allowance",
    FirstAndLast Wrong "callers 0 and 15 have one allowance",
    Neighbours Wrong "callers 2n and 2n + 1 have one allowance",
    NextCharged Wrong "a job is charged to the next caller",
    Borrowed Wrong "what a caller lacks is charged to the next one",
    Refilled Wrong "behind another caller's job a caller has the whole limit again",

    // Admission: what is taken down, and when a job is skipped.
    UsedCharged Leak "a job is charged the steps that it used",
    FaultFree Leak "a job that faults is charged nothing",
    SkippedCharged Wrong "a skipped job is charged",
    SkippedWraps Wrong "a skipped job is charged, modulo 2^32",
    TakenFirst Wrong "steps are taken down, modulo 2^32, and then compared with what is left",
    Unchecked Wrong "steps are taken down, modulo 2^32, and every job runs",
    NothingCharged Wrong "no job is charged",
    FirstCharged Wrong "of a caller's jobs only the first to run is charged",
    LastCharged Wrong "of a caller's jobs only the last one that ran counts",
    LastStepsKept Wrong "a job that declares all that its caller has left is skipped",
    ShortLimit Wrong "the limit counts modulo 2^16",
    SignedLeft Wrong "what is left is compared as a signed number",
    AllOrNone Wrong "no job runs of a caller whose jobs declare more than the limit",
    SkipEndsCaller Wrong "no job runs behind a skipped one of its caller",
    SkipEndsDay Wrong "no job runs behind a skipped one of any caller",
    FaultEndsCaller Leak "no job runs behind one of its caller that faults",
    FaultEndsDay Leak "no job runs behind one of any caller that faults",
    SpentEndsCaller Leak "no job runs behind one of its caller that is spent",
    SpentEndsDay Leak "no job runs behind one of any caller that is spent",

    // The store between jobs.
    StoreFresh Wrong "every job finds the store as it was at first",
    FaultUndoes Leak "what a faulting job wrote is undone",
    RecordsLeft Wrong "new records stay",
    HandlesLeft Leak "places are emptied, handles to them stay",
    StandingTurned Leak "of handles to emptied places, those whose record still stands become 33",
    HiddenHandlesLeft Leak "handles stay in records that do not flow to the job's final label",
    SealedHandlesLeft Leak "sealed handles stay",
    ReferenceHandlesLeft Leak "reference handles stay",
    FirstHandleLeft Wrong "handles to place C stay",
    HandlesAllTurned Wrong "handles to input records become 33 too",
    GoneIsZero Wrong "a handle becomes the number 0",
    GoneTellsPlace Wrong "the number of 33 is the handle's place",
    TurnedTooSoon Wrong "handles become 33 before the view is fixed",
    EmptiedTooSoon Wrong "new records vanish before the view is fixed",

    // A job's start.
    PlacesKept Leak "the next place goes on from the last job's",
    LabelKept Wrong "a job starts with the last one's label",
    ClearanceKept Leak "a job starts with the last one's clearance",
    LocalsKept Leak "a job starts with the last one's locals",
    TargetsFromSection Wrong "targets count from the code section's first byte",
    CodeChecked Wrong "check 7 is on the whole code as well",

    // Handlers.
    TryLabel Leak "a handler runs with the label that stood at TRY",
    ThrowClearance Wrong "a handler runs with the clearance that stood at the throw",
    FirstJobClearance Wrong "the clearance that the first job to run started with is given back",
    GoneKeeps Wrong "33 does not give the clearance back",

    // Contents that are faults.
    ReadFaultUnraised Leak "READ of 33 does not raise",
    UnreadFaultTells Leak "READ of 33 above the clearance throws it",
    WriteLooks Leak "WRITE over 33 throws it",
    LabofLooks Leak "LABOF of a reference that holds 33 throws it",
    GoneUnsealed Wrong "a block that ends with 33 seals 32",

    // Views.
    SkipByReader Wrong "a skipped job's ending is hidden where its start does not flow to the reader",
    SkipAsSpent Wrong "a skipped job's ending is 3",
    SkipWithoutLength Wrong "a skipped job's length is 0",
    SkipWithoutRecordsAt Wrong "a skipped job's fifth number is 0",
    SkipTellsSteps Wrong "a skipped job's steps used are those declared",
    SkipTellsPlace Wrong "a skipped job's next place is C",
    SkipCountsInputs Wrong "a skipped job's records shown are the inputs",
    SkipOldRecordsAt Wrong "a skipped job's fifth number is 62",
    SkipOldLength Wrong "a skipped job's length is 62",
    SkipOldView Wrong "a skipped job's view has 62 bytes, and says so",
    StepsOfCaller Wrong "steps used are the caller's allowance less the steps left",

    // Check 9.
    LastViewChecked Wrong "check 9 is on the last view alone",
    FirstViewChecked Wrong "check 9 is on the first view alone",
    LongestViewChecked Wrong "check 9 is on the longest view alone",
    SumWraps Wrong "check 9 is on the sum modulo 2^16",
    OldWidthsChecked Wrong "check 9 is on 62 bytes for each view, and 36 for each record",
    RoomForOneMore Wrong "check 9 wants one byte more than the sum",
    ByteBeforeCheck Wrong "a byte is written before check 9",
    ViewsBeforeCheck Wrong "views are written until one does not fit",
}
