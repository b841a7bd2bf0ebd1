//! The numbers in answers as types. The words of a variant are its documentation and its display.

use std::fmt::{self, Display, Formatter};

macro_rules! numbered {
    ($(#[$about:meta])* $name:ident { $($variant:ident = $number:literal $words:literal,)* }) => {
        $(#[$about])*
        #[derive(Clone, Copy, Debug, PartialEq, Eq, Hash)]
        #[repr(u8)]
        pub enum $name {
            $(#[doc = concat!($number, ": ", $words, ".")] $variant = $number,)*
        }

        impl $name {
            /// The number that it has in an answer.
            pub fn number(self) -> u8 {
                self as u8
            }

            /// What has the number; no answer of the proved library has another.
            pub(crate) fn numbered(number: u32) -> $name {
                match number {
                    $($number => $name::$variant,)*
                    _ => panic!("{number} is no {}", stringify!($name)),
                }
            }
        }

        impl Display for $name {
            fn fmt(&self, f: &mut Formatter) -> fmt::Result {
                f.write_str(match self {
                    $($name::$variant => $words,)*
                })
            }
        }
    };
}

numbered! {
    /// How a job reasons.
    Technique {
        UnitMinimal = 1 "unit propagation on the minimal clause set",
        UnitExtended = 2 "unit propagation on the extended clause set",
        TrialsMinimal = 3 "trials on the minimal clause set",
        TrialsExtended = 4 "trials on the extended clause set",
    }
}

impl From<Technique> for u32 {
    fn from(technique: Technique) -> u32 {
        technique.number().into()
    }
}

numbered! {
    /// How a job ends.
    Outcome {
        Solved = 1 "all variables are decided",
        Open = 2 "the technique decides no more",
        Stopped = 3 "the count has come to the ceiling",
        Contradiction = 4 "a variable is true and false: no legal completion",
    }
}

numbered! {
    /// How many legal completions a grid has.
    Completions {
        None = 0 "no legal completion",
        One = 1 "one legal completion",
        Several = 2 "several legal completions",
    }
}

numbered! {
    /// What a grading says of a grid, in rising order.
    #[derive(PartialOrd, Ord)]
    Verdict {
        NoCompletion = 0 "no legal completion",
        UnitMinimal = 1 "solved by unit propagation on the minimal clause set",
        UnitExtended = 2 "solved by unit propagation on the extended clause set",
        TrialsMinimal = 3 "solved by trials on the minimal clause set",
        TrialsExtended = 4 "solved by trials on the extended clause set",
        NotSolved = 5 "solved by no technique",
        TrialsRanOut = 6 "not solved before the trials ran out",
        SeveralCompletions = 7 "several legal completions",
    }
}

numbered! {
    /// Why a call was refused.
    Cause {
        GridLength = 11 "the grid is not 81 bytes long",
        GridByte = 12 "a byte of a grid is no digit, `0` or `.`",
        Technique = 21 "the technique is not 1 to 4",
        OrderLength = 22 "the order is not 1,458 literals long",
        OrderEntry = 23 "an entry of the order is 0 or outside −729 to 729",
        OrderRepeat = 24 "an entry of the order equals an earlier one",
        PieceCut = 31 "a piece of the job file is cut short",
        PieceKind = 32 "the kind of a piece is unknown or does not rise",
        PieceLength = 33 "the body of a piece has the wrong length for its kind",
        PieceMissing = 34 "the job file has no grid or no technique",
        MarksLength = 41 "the marks are not 729 a grid",
        BufferLength = 42 "a buffer for a grid or a completion is not 81 bytes long",
        ClauseSet = 43 "the clause set is not 1 or 2",
        ClauseNumber = 44 "the set has no clause of that number",
        LiteralsLength = 45 "the lent literals are not nine",
        OrderBuffer = 46 "the buffer for an order is not 1,458 literals long",
        BatchLength = 47 "the bytes are not 1 to 64 grids end to end",
        AnswersLength = 48 "the answer list is not two numbers a grid",
    }
}
