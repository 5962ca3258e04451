//! The numbers of documents 01 and 02 that stand for something, each with its name and its words. A new number is a new line.

use std::fmt;

macro_rules! numbered {
    ($(#[$about:meta])* $name:ident { $($number:literal $case:ident $words:literal,)* }) => {
        $(#[$about])*
        #[derive(Clone, Copy, Debug, PartialEq, Eq, PartialOrd, Ord, Hash)]
        #[non_exhaustive]
        pub enum $name {
            $(#[doc = $words] $case = $number,)*
        }

        impl $name {
            /// All of them, by rising number.
            pub const ALL: &'static [$name] = &[$($name::$case),*];

            /// What a number stands for, if it stands for one of these.
            pub fn of(number: u64) -> Option<$name> {
                match number {
                    $($number => Some($name::$case),)*
                    _ => None,
                }
            }

            /// Its number in the documents.
            pub fn number(self) -> u64 {
                self as u64
            }

            /// The same in words, as `Display` prints it.
            pub fn words(self) -> &'static str {
                match self {
                    $($name::$case => $words,)*
                }
            }
        }

        impl fmt::Display for $name {
            fn fmt(&self, to: &mut fmt::Formatter<'_>) -> fmt::Result {
                to.pad(self.words())
            }
        }
    };
}

numbered! {
    /// Why a run ended; displayed as the rule in words.
    ///
    /// ```
    /// use covrith::End;
    /// assert_eq!(End::of(3), Some(End::Budget));
    /// assert_eq!(End::Budget.number(), 3);
    /// assert_eq!(End::Budget.to_string(), "the budget of turns is used");
    /// ```
    End {
        1 Dry "dry: nobody is moving, and REL and FEL are both empty",
        2 Counter "a TERMINATE brought the counter to 0 or below",
        3 Budget "the budget of turns is used",
        4 TraceFull "fewer than 12 bytes are left in the trace",
        21 NoPlace "no living place is free for a new transaction",
        22 ClockLimit "a move time would pass the limit of the clock",
        23 NoTime "an ADVANCE found no time left in its list",
        24 NotInUse "a RELEASE or a RETURN found its facility idle, or a LEAVE found fewer units in use than it frees",
        25 NoContent "a DEPART found its queue without content",
        26 RunLimit "the last serial given is above 99,997,952, or 100,000,000 turns are done",
        27 NotHolder "a RELEASE by another than the one that seized its facility, or a RETURN by another than the one that preempted it",
        28 StillHolds "one that still holds a facility would end, at a TERMINATE or an ASSEMBLE",
    }
}

numbered! {
    /// Why a call was refused; displayed as the rule in words.
    ///
    /// ```
    /// use covrith::Refusal;
    /// let refusal = Refusal::of(6).unwrap();
    /// assert_eq!(refusal, Refusal::AfterModel);
    /// assert_eq!(format!("refused {}: {refusal}", refusal.number()), "refused 6: bytes follow the model");
    /// ```
    Refusal {
        1 ShortWork "the work buffer has fewer than 16,384 32-bit numbers",
        2 ShortReport "the report buffer has fewer than 10,240 bytes",
        3 ModelNumber "a number of the model is not whole, not in its shortest form or not in size",
        4 ModelRange "a number of the model is outside its field's range",
        5 ValueLimit "a value passes 64 numbers, four open brackets or two mentions of values",
        6 AfterModel "bytes follow the model",
        7 BlockOrder "a GENERATE is out of place or named by a target, the last block is neither TERMINATE nor GOTO, a value names a block that does not exist, or a group of joined waits is broken",
        8 TapeNumber "a number of the tape is not whole, not in its shortest form or not in size",
        9 TapeRange "a number of the tape is outside its field's range",
        10 AfterTape "bytes follow the tape",
        31 RecordNumber "a number of the record is not whole, not in its shortest form or not in size",
        32 RecordRange "a number of the record is outside its field's range",
        33 RecordRoom "the record does not fit in the rest of the trace",
        41 NoStream "the stream is above 511",
        42 NotDistribution "a distribution or a count is outside its rules, or there is a seventeenth",
        43 TapeRoom "the tape needs more bytes than were lent",
        51 NotColumns "not a trace that is taken, or not the columns of one",
        52 ColumnsRoom "the output needs more bytes than were lent",
        61 NotJoined "the editions differ, or a joined count or the counter passes its limit",
        62 JoinRoom "the joined model or tape needs more bytes than were lent",
    }
}

impl std::error::Error for Refusal {}

numbered! {
    /// Where a living transaction stands.
    Place {
        1 Ql "QL",
        2 Wel "WEL",
        3 Wsl "WSL",
        4 Fel "FEL",
        5 Rel "REL",
        6 Moving "moving",
        7 Gathering "gathering",
        8 Interrupted "interrupted",
    }
}
