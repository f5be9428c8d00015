//! The refusals.

use std::error::Error;
use std::fmt;

/// The enum with a variant for each line, and each line's number and sentence.
macro_rules! refusals {
    ($($number:literal $name:ident: $sentence:literal,)*) => {
        /// Why a call was refused. Each has a number, which the C entries return, and a sentence, which is its
        /// `Display`; docs/RULES.md has the exact rule of each.
        ///
        /// ```
        /// let refused = malikoza::Refusal::SpeedCount;
        /// assert_eq!(refused.number(), 12);
        /// assert_eq!(refused.to_string(), "refusal 12: as many squared speeds as stations are needed");
        /// ```
        #[derive(Clone, Copy, Debug, PartialEq, Eq, Hash)]
        #[non_exhaustive]
        pub enum Refusal {
            $(#[doc = concat!($number, ": ", $sentence, ".")] $name,)*
            /// A number that this version does not know: the archive is of another one.
            Unknown(u64),
        }

        impl Refusal {
            /// Every refusal that this version knows, by rising number.
            pub const ALL: &'static [Refusal] = &[$(Refusal::$name),*];

            /// The number that the C entries return.
            #[must_use]
            pub const fn number(self) -> u64 {
                match self {
                    $(Refusal::$name => $number,)*
                    Refusal::Unknown(number) => number,
                }
            }

            const fn sentence(self) -> &'static str {
                match self {
                    $(Refusal::$name => $sentence,)*
                    Refusal::Unknown(_) => "a number that this version does not know",
                }
            }
        }
    };
}

refusals! {
     1 RowsLength: "a row is three doubles, and 256 rows are the most",
     2 RequestNumber: "tolerances must be finite and not negative, a_prev and the previous interval finite, nothing else NaN",
     3 PreviousStation: "the previous station's bounds must be finite, and a_prev must lie between them",
     4 CurrentBounds: "the current station's bounds must be finite, and the lower one not above the upper",
     5 RowNumber: "the numbers of every row must be finite, and so must its norm, 1/norm and tolerance",
     6 RowImpossible: "both coefficients of a row are zero and its rhs is below zero: no speed meets it",
     7 ProjectionNotFinite: "the cap fails, and the numbers of a row are too large or too far apart to solve it for the speed",
     8 ProjectionEmpty: "the rows, solved for the speed, leave nothing between the bounds",
     9 MiddleFails: "no speed was found: every one that was tried fails",
    10 NotEights: "the length of every byte list, output included, must be a multiple of eight",
    11 StationCount: "2 to 4,096 stations are needed",
    12 SpeedCount: "as many squared speeds as stations are needed",
    13 StationNotFinite: "every station must be finite",
    14 SpeedNotFinite: "every squared speed must be finite",
    15 StationsNotIncreasing: "each station must lie beyond the one before it",
    16 StartNotFinite: "the start time t0 must be finite",
    17 SpeedNegative: "no squared speed may be below zero",
    18 Standstill: "of two neighbouring squared speeds one must be above zero, or the knife stands still",
    19 ComputedTimeNotFinite: "a time comes out too large: it is not finite",
    20 TimeCount: "as many times as stations are needed",
    21 TimeNotFinite: "every time must be finite",
    22 TimesNotIncreasing: "each time must be later than the one before it",
    23 StepNotFinite: "the step dt must be finite",
    24 StepNotPositive: "the step dt must be above zero",
    25 NoSamples: "one sample at least is needed",
    26 SampleNotFinite: "every sample must be finite",
    27 SamplesNotIncreasing: "each sample must be later than the one before it",
    28 TooManySamples: "65,536 samples are the most",
    29 OutputTooShort: "the output has too little room",
    40 FileTooLong: "a cut file has 65,536 bytes at most",
    41 FileNumber: "a number in the file is cut, too long, 2^64 or more, or not in its shortest form",
    42 KindUnknown: "the kind of every section must be 1, 2, 3, 4 or 5",
    43 KindNotRising: "the kind of each section must be above that of the one before it",
    44 PayloadBeyondFile: "a section's payload goes beyond the file",
    45 PayloadForm: "a payload is a count, within its limit, and that many doubles, or t0, dt and a flag that is 0 or 1",
    46 KindAbsent: "the file is sound and has no section of this kind",
    61 WalkFull: "the walk is full: 4,096 stations are the most",
}

impl fmt::Display for Refusal {
    fn fmt(&self, f: &mut fmt::Formatter<'_>) -> fmt::Result {
        write!(f, "refusal {}: {}", self.number(), self.sentence())
    }
}

impl Error for Refusal {}

/// Whether an entry returned 0, or else which refusal.
pub(crate) fn none(number: u64) -> Result<(), Refusal> {
    if number == 0 {
        return Ok(());
    }
    let known = Refusal::ALL.iter().find(|refusal| refusal.number() == number);
    Err(known.copied().unwrap_or(Refusal::Unknown(number)))
}
