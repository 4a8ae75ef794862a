//! Refusals, kinds, statuses and outcomes: the numbers of docs/RULES.md as types.

use core::error::Error;
use core::fmt;

/// An enum whose cases have the numbers of the rules, and the words of the
/// library.
macro_rules! numbered {
    ($(#[$about:meta])* $name:ident { $($(#[$of_case:meta])* $case:ident = $number:literal => $words:literal,)+ }) => {
        $(#[$about])*
        #[derive(Clone, Copy, Debug, PartialEq, Eq, Hash, PartialOrd, Ord)]
        #[repr(u8)]
        pub enum $name {
            $(
                #[doc = $words]
                #[doc = ""]
                $(#[$of_case])*
                $case = $number,
            )+
        }

        impl $name {
            /// Its number, as in docs/RULES.md.
            ///
            /// ```
            #[doc = concat!("use vcube::", stringify!($name), ";")]
            ///
            #[doc = concat!("assert_eq!(", stringify!($name), "::from_number(2).map(", stringify!($name), "::number), Some(2));")]
            /// ```
            #[must_use]
            pub const fn number(self) -> u8 {
                self as u8
            }

            /// The one with this number, if there is one.
            ///
            /// ```
            #[doc = concat!("assert!(vcube::", stringify!($name), "::from_number(2).is_some());")]
            #[doc = concat!("assert!(vcube::", stringify!($name), "::from_number(26).is_none());")]
            /// ```
            #[must_use]
            pub const fn from_number(number: u8) -> Option<$name> {
                match number {
                    $($number => Some($name::$case),)+
                    _ => None,
                }
            }
        }

        impl fmt::Display for $name {
            fn fmt(&self, f: &mut fmt::Formatter<'_>) -> fmt::Result {
                f.write_str(match self {
                    $($name::$case => $words,)+
                })
            }
        }
    };
}

numbered! {
    /// Why a call was refused. Each function lists its refusals in the order in which
    /// they are checked. A station is a board in the words of the library.
    #[non_exhaustive]
    Refusal {
        SizeOutOfRange = 1 => "a plant has 2 to 64 boards",
        TableLength = 2 => "the table's length is not n(n + 6)",
        LineRule = 3 => "a line breaks a line rule",
        /// Some station is live.
        RoundNotClosed = 4 => "every live board has finished its pass, but the round is not closed",
        ScheduleLength = 5 => "the schedule has an odd number of bytes",
        SheetLength = 6 => "the run sheet is not twice as long as the schedule",
        /// Those of the [`Tally`](crate::Tally).
        TallyFull = 7 => "the count of rounds or of tests is at its limit, 4,294,967,295",
        /// [`Kind`] has them.
        UnknownKind = 8 => "the kind of the entry is not 1, 2 or 3",
        /// The number of a [`Station`](crate::Station) is n or more.
        NoSuchStation = 9 => "no board has this number: boards are numbered from 0 to n - 1",
        NotLive = 10 => "this board is not live",
        /// And the kind is 1 or 2.
        PassFinished = 11 => "this board has already finished its pass in this round",
        /// A [`Level`](crate::Level) is 0 or above d.
        NoSuchLevel = 12 => "there is no such level: levels go from 1 to d",
        ListLength = 13 => "the list or buffer for the answer has the wrong length",
        NoResult = 14 => "there are no results to compute figures from",
        TooManyResults = 15 => "there are more than 4,096 results, or the totals are higher than 4,096 results can give",
        /// It is n or more, and not 255.
        LastGranted = 16 => "the last granted number is neither a board's number nor 255",
        NoneLive = 17 => "no board is live",
        FieldPastEnd = 18 => "the file is cut off: a field or its head goes past the end",
        /// Or it is there more than twice.
        SizeOrTallyField = 19 => "the field with the size or the tally is missing, appears twice or has the wrong length",
        /// Or it is there more than twice. A number of n or more is of no board.
        LineField = 20 => "a board's line in the file is missing, appears twice, has the wrong length or names no board",
        NoOpening = 21 => "the file does not begin as edition 2 does; if it is of edition 1, convert it first",
        FieldOrder = 22 => "a field is out of order or has an unknown tag",
        /// The report of a mending.
        ReportTooShort = 23 => "the buffer for the report has fewer than 4n(n + 6) bytes",
        /// No call of this crate gives it, since each takes a [`Wiring`].
        NoSuchWiring = 24 => "the wiring is neither 1, the cube, nor 2, the ring",
        LineLength = 25 => "the length of the board's line is not n + 6",
    }
}

numbered! {
    /// Who tests whom. The library does not keep it, and a table does not hold it:
    /// give the same one in all calls of a plant.
    Wiring {
        Cube = 1 => "cube",
        Ring = 2 => "ring",
    }
}

numbered! {
    /// What an entry asks of its station.
    Kind {
        Turn = 1 => "turn",
        LateTurn = 2 => "turn whose reply comes late",
        Crash = 3 => "crash",
    }
}

numbered! {
    /// Whether a station is live, and if not, why.
    Status {
        Live = 0 => "live",
        Crashed = 1 => "crashed",
        /// It was told that it is suspected: by a station that it tested, or by
        /// one that tested it. [`told_by`](crate::told_by) says by which.
        Told = 2 => "left because told",
        /// It suspects all others.
        Alone = 3 => "left because alone",
    }
}

numbered! {
    /// What an entry brought.
    #[non_exhaustive]
    Outcome {
        /// There was no next test.
        PassFinished = 0 => "pass finished",
        /// Neither suspected the other: both rows became the union of the two.
        Exchanged = 1 => "exchanged",
        /// The tester left: the tested station suspected it.
        Told = 2 => "told, and left",
        /// The tested station is not live, or its reply was late: the tester
        /// suspects it.
        NoReply = 3 => "no reply",
        Crash = 4 => "crash",
        /// The tester suspected it, and was not suspected by it.
        TestedTold = 5 => "the tested board was told, and left",
    }
}

impl Error for Refusal {}
