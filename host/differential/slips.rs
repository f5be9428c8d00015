//! Slips that can be put into the expected side with `broken=NAME`, to see that the comparison notices them. The first six are document 01's "Easy slips".

#[derive(Clone, Copy, PartialEq, Eq, Debug)]
pub enum Slip {
    None,
    TwoRoundings,
    FirstResidual,
    TolerantBounds,
    AverageOfSum,
    EarlyTimes,
    RowOrder,
    FewerNeighbours,
    OpenEnd,
    FinalIsATime,
    NanIsThere,
    FinalTwice,
    LateFinal,
    RoomWithoutFinal,
    PlainFma,
    PlainHypot,
    OriginalOff,
    MovedByRefusal,
    FullAfterRows,
    CountKept,
    OldCap,
    UnknownFirst,
    ZeroFalls,
    KindAfterLength,
    LongerForm,
    ElevenGroups,
    CutTo64,
    CutCount,
    NoLimit,
    AnyFlag,
    BeyondAfterPayload,
    LateStart,
    AbsentFirst,
    FoundFirst,
    OneByteMore,
}

impl Slip {
    pub const ALL: [(&'static str, Slip, &'static str); 34] = [
        ("two-roundings", Slip::TwoRoundings, "the sampler multiplies and adds with two roundings"),
        ("first-residual", Slip::FirstResidual, "the certificate stops at the first residual that fits"),
        ("tolerant-bounds", Slip::TolerantBounds, "the current bounds are compared with tolerance"),
        ("average-of-sum", Slip::AverageOfSum, "the middle is half of a sum"),
        ("early-times", Slip::EarlyTimes, "times are written before the last is known to be finite"),
        ("row-order", Slip::RowOrder, "the first faulty row picks between 5 and 6"),
        ("fewer-neighbours", Slip::FewerNeighbours, "three next-down doubles are tried, not four"),
        ("open-end", Slip::OpenEnd, "an interval's end time belongs to the next interval"),
        ("final-is-a-time", Slip::FinalIsATime, "an added final station counts as a time inside"),
        ("nan-is-there", Slip::NanIsThere, "the final is not added after an entry that is NaN"),
        ("final-twice", Slip::FinalTwice, "the final is added after an entry at the last station"),
        ("late-final", Slip::LateFinal, "the final is added though t0 is past the last time"),
        ("room-without-final", Slip::RoomWithoutFinal, "needed room leaves out a final that is asked for"),
        ("plain-fma", Slip::PlainFma, "the leaf fma multiplies and adds with two roundings"),
        ("plain-hypot", Slip::PlainHypot, "hypot is the root of a rounded sum of rounded squares"),
        ("original-off", Slip::OriginalOff, "the first double of each of the original's answers is one step off"),
        ("moved-by-refusal", Slip::MovedByRefusal, "a refused step moves the walk on"),
        ("full-after-rows", Slip::FullAfterRows, "a full walk is refused after the length of the rows"),
        ("count-kept", Slip::CountKept, "an accepted step does not count its station"),
        ("old-cap", Slip::OldCap, "an accepted step keeps the old station's cap"),
        ("unknown-first", Slip::UnknownFirst, "an unknown kind is refused with 42 before 43"),
        ("zero-falls", Slip::ZeroFalls, "a file's first kind of 0 is refused as not rising"),
        ("kind-after-length", Slip::KindAfterLength, "a kind is judged after its section's length is read"),
        ("longer-form", Slip::LongerForm, "a number is read that is not in its shortest form"),
        ("eleven-groups", Slip::ElevenGroups, "a number's tenth group may say that another follows"),
        ("cut-to-64", Slip::CutTo64, "a number of 2^64 or more is read as its low 64 bits"),
        ("cut-count", Slip::CutCount, "a count that its payload's end cuts is refused with 41"),
        ("no-limit", Slip::NoLimit, "a list in a file may have any count"),
        ("any-flag", Slip::AnyFlag, "a grid's flag in a file may be any byte"),
        ("beyond-after-payload", Slip::BeyondAfterPayload, "a payload beyond the file is looked at before 44"),
        ("late-start", Slip::LateStart, "a payload is said to start one byte late"),
        ("absent-first", Slip::AbsentFirst, "a kind is said to be absent before a later fault"),
        ("found-first", Slip::FoundFirst, "a section is handed back in spite of a later fault"),
        ("one-byte-more", Slip::OneByteMore, "a file may have 65,537 bytes"),
    ];

    pub fn named(name: &str) -> Option<Slip> {
        Slip::ALL.iter().find(|(n, _, _)| *n == name).map(|(_, slip, _)| *slip)
    }

    /// A warning, if the expected side is broken.
    pub fn told(self) -> String {
        match Slip::ALL.iter().find(|(_, slip, _)| *slip == self) {
            Some((_, _, what)) => format!("; the expected side is broken: {what}"),
            None => String::new(),
        }
    }
}
