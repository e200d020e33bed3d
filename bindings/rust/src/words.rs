//! The numbers of refusals and verdicts, with plain words.
use std::fmt;

/// Gives an enum its numbers and its words, each said once.
macro_rules! numbered {
    ($(#[$about:meta])* $name:ident { $($case:ident = $number:literal, $words:literal;)* }) => {
        $(#[$about])*
        #[derive(Clone, Copy, Debug, PartialEq, Eq, Hash)]
        pub enum $name {
            $(#[doc = $words] $case,)*
            /// A number that this crate does not know: the archive is newer than the crate.
            Unknown(u64),
        }

        impl $name {
            /// The number, as the tables have it.
            pub fn number(self) -> u64 {
                match self {
                    $($name::$case => $number,)*
                    $name::Unknown(n) => n,
                }
            }

            fn named(number: u64) -> $name {
                match number {
                    $($number => $name::$case,)*
                    n => $name::Unknown(n),
                }
            }
        }

        impl fmt::Display for $name {
            fn fmt(&self, f: &mut fmt::Formatter<'_>) -> fmt::Result {
                match self {
                    $($name::$case => f.write_str($words),)*
                    $name::Unknown(n) => write!(f, "unknown number {n}"),
                }
            }
        }
    };
}

numbered! {
    /// Why a call was refused. Nothing that was lent has changed.
    Refusal {
        Order = 1, "no node, or more than 48 unknowns";
        Sheet = 2, "the sheet is not whole records, or has more than 256";
        Points = 3, "the points are not whole, or more than 1,024";
        Counts = 4, "an iteration limit above 10,000, or a budget of 0 or above 1,000,000";
        Room = 5, "a lent buffer is too short";
        Kind = 6, "a record's kind is not known";
        Unused = 7, "an unused byte of a record is not zero";
        Node = 8, "a node is not below the node count";
        Source = 9, "a source number is not below the source count, or is shared with an inductor";
        Range = 10, "a pattern reaches past the points given";
        Number = 11, "a number is not finite, or a tolerance is below zero";
        Sine = 12, "the sine's argument is beyond 2^20 in size";
        Jobs = 13, "no job, more than 256 of them, or an unknown outside the vector";
    }
}

numbered! {
    /// How a run ended. `Settled` of a DC run: the last two vectors agree within the tolerances. Of a transient: it reached TSTOP,
    /// and every step settled; its DC verdict says whether DC did. `ConvergenceError`: a number is not finite, and no later place
    /// of the vector says "no".
    Verdict {
        Settled = 0, "settled";
        PassesUsedUp = 20, "the DC passes are used up";
        ConvergenceError = 21, "a number is not finite";
        DiodeNotFinite = 22, "a diode's current is not finite";
        StepTooSmall = 23, "the time step is too small";
        BudgetSpent = 24, "the budget is spent";
        NoRoom = 25, "no room for the next row";
        SineRefused = 26, "a sine's argument is beyond 2^20 in size";
    }
}

impl Refusal {
    /// The refusal of a number; none for 0.
    pub fn of(number: u64) -> Option<Refusal> {
        match number {
            0 => None,
            n => Some(Refusal::named(n)),
        }
    }
}

impl Verdict {
    pub fn of(number: u64) -> Verdict {
        Verdict::named(number)
    }
}
