//! The numbered refusals.

use core::error::Error;
use core::fmt;

/// Why an input was refused: one variant for each number of `docs/REFUSALS.md`, which has an example of each and the order in
/// which they are looked for.
///
/// The place is an offset in the input: that of the command that is refused, or for 3 the input's size. Refusals 11 to 18 have
/// none, which counts as 0. `{}` shows number, place and condition; `?` out of `main` shows the variant.
///
/// ```
/// use runfold::{read_run, Refusal};
///
/// // A group of label 05 that nothing closes.
/// let refused = read_run(&[0x11, 0x05]).unwrap_err();
/// assert_eq!(refused, Refusal::Unfinished { place: 2 });
/// assert_eq!(refused.number(), 3);
/// assert_eq!(refused.to_string(), "refused 3 at 2: operands missing, or the end with something open");
/// ```
#[non_exhaustive]
#[derive(Clone, Copy, Debug, PartialEq, Eq, Hash)]
pub enum Refusal {
    /// 1: a byte that is no command.
    UnknownCommand {
        /// The byte's offset.
        place: usize,
    },
    /// 2: `20` or `21` in a run.
    RepeatInRun {
        /// The command's offset.
        place: usize,
    },
    /// 3: operands are missing, or the input ends with something open.
    Unfinished {
        /// The input's size.
        place: usize,
    },
    /// 4: `12` or `21` where nothing is open, or the innermost open thing is not of its kind.
    WrongClose {
        /// The command's offset.
        place: usize,
    },
    /// 5: a close right after its open.
    EmptyBody {
        /// The close's offset.
        place: usize,
    },
    /// 6: a repeat of count 0 or 1.
    SmallCount {
        /// The command's offset.
        place: usize,
    },
    /// 7: a width operand over the limit.
    Wide {
        /// The command's offset.
        place: usize,
    },
    /// 8: a 9th open group or an 11th open repeat.
    Deep {
        /// The command's offset.
        place: usize,
    },
    /// 9: a width operand that is not the true width, found where the repeat closes, after [`ManyNodes`](Self::ManyNodes).
    FalseWidth {
        /// The close's offset.
        place: usize,
    },
    /// 10: the node total would pass 1,024, or 65,535 in a season.
    ManyNodes {
        /// The command's offset.
        place: usize,
    },
    /// 11: the costs of steps are not 256 entries.
    StepTableSize,
    /// 12: the width limit is over 1,024, or over 32 for a season.
    LimitSize,
    /// 13: a work slice is too short.
    WorkSize,
    /// 14: the output is shorter than the result, or a slice of the index shorter than its entries.
    OutputSize,
    /// 15: the costs of groups are not 256 entries.
    GroupTableSize,
    /// 16: the position is not below the node total.
    PastEnd,
    /// 17: the index is not the one that the builder writes for this fold.
    FalseIndex,
    /// 18: the marks are not 256 entries, or one is neither 0 nor 1.
    WrongMarks,
    /// 19: a marked label inside a repeat, of a step or a group.
    MarkedInRepeat {
        /// The offset of the command that has the label.
        place: usize,
    },
    /// 20: in a short fold a `20` whose count and width are both below 256, where a `22` should stand.
    LongInShort {
        /// The command's offset.
        place: usize,
    },
    /// 21: a group in a season run or a season fold.
    GroupInSeason {
        /// The offset of its `11`.
        place: usize,
    },
}

use Refusal::*;

impl Refusal {
    /// The refusal of a number and a place, as the functions of [`raw`](crate::raw) answer them; none for 0 and for numbers
    /// that this version does not know. 11 to 18 have no place.
    pub const fn numbered(number: u8, place: usize) -> Option<Refusal> {
        Some(match number {
            1 => UnknownCommand { place },
            2 => RepeatInRun { place },
            3 => Unfinished { place },
            4 => WrongClose { place },
            5 => EmptyBody { place },
            6 => SmallCount { place },
            7 => Wide { place },
            8 => Deep { place },
            9 => FalseWidth { place },
            10 => ManyNodes { place },
            11 => StepTableSize,
            12 => LimitSize,
            13 => WorkSize,
            14 => OutputSize,
            15 => GroupTableSize,
            16 => PastEnd,
            17 => FalseIndex,
            18 => WrongMarks,
            19 => MarkedInRepeat { place },
            20 => LongInShort { place },
            21 => GroupInSeason { place },
            _ => return None,
        })
    }

    /// Its number, 1 to 21.
    pub const fn number(self) -> u8 {
        match self {
            UnknownCommand { .. } => 1,
            RepeatInRun { .. } => 2,
            Unfinished { .. } => 3,
            WrongClose { .. } => 4,
            EmptyBody { .. } => 5,
            SmallCount { .. } => 6,
            Wide { .. } => 7,
            Deep { .. } => 8,
            FalseWidth { .. } => 9,
            ManyNodes { .. } => 10,
            StepTableSize => 11,
            LimitSize => 12,
            WorkSize => 13,
            OutputSize => 14,
            GroupTableSize => 15,
            PastEnd => 16,
            FalseIndex => 17,
            WrongMarks => 18,
            MarkedInRepeat { .. } => 19,
            LongInShort { .. } => 20,
            GroupInSeason { .. } => 21,
        }
    }

    /// Its place: an offset in the input, 0 where it has none.
    pub const fn place(self) -> usize {
        match self {
            UnknownCommand { place }
            | RepeatInRun { place }
            | Unfinished { place }
            | WrongClose { place }
            | EmptyBody { place }
            | SmallCount { place }
            | Wide { place }
            | Deep { place }
            | FalseWidth { place }
            | ManyNodes { place }
            | MarkedInRepeat { place }
            | LongInShort { place }
            | GroupInSeason { place } => place,
            StepTableSize | LimitSize | WorkSize | OutputSize | GroupTableSize | PastEnd | FalseIndex | WrongMarks => 0,
        }
    }

    /// Its condition, in the words of `docs/REFUSALS.md`.
    const fn condition(self) -> &'static str {
        match self {
            UnknownCommand { .. } => "unknown command",
            RepeatInRun { .. } => "20 or 21 in a run",
            Unfinished { .. } => "operands missing, or the end with something open",
            WrongClose { .. } => "12 or 21 where nothing is open or the innermost open thing is not of its kind",
            EmptyBody { .. } => "a close right after its open",
            SmallCount { .. } => "count 0 or 1",
            Wide { .. } => "width operand over the limit",
            Deep { .. } => "a 9th open group or an 11th open repeat",
            FalseWidth { .. } => "width operand not the true width, found at 21",
            ManyNodes { .. } => "node total would pass 1,024, or 65,535 in a season",
            StepTableSize => "step cost table not of 256 entries",
            LimitSize => "width limit over 1,024, or over 32 for a season",
            WorkSize => "a work slice too short",
            OutputSize => "output shorter than the result",
            GroupTableSize => "group cost table not of 256 entries",
            PastEnd => "position not below the node total",
            FalseIndex => "index not the one that the builder writes",
            WrongMarks => "marks not of 256 entries, or an entry above 1",
            MarkedInRepeat { .. } => "a marked label inside a repeat",
            LongInShort { .. } => "20 in the short family with count and width both below 256",
            GroupInSeason { .. } => "a group in a season run or a season fold",
        }
    }
}

/// Number, place and condition: `refused 1 at 0: unknown command`.
impl fmt::Display for Refusal {
    fn fmt(&self, f: &mut fmt::Formatter<'_>) -> fmt::Result {
        write!(f, "refused {} at {}: {}", self.number(), self.place(), self.condition())
    }
}

impl Error for Refusal {}

#[cfg(test)]
mod tests {
    use super::Refusal;

    #[test]
    fn numbers_and_places_come_back() {
        for number in 1..=21 {
            let refusal = Refusal::numbered(number, 7).expect("a refusal");
            assert_eq!(refusal.number(), number);
            assert_eq!(refusal.place(), if (11..=18).contains(&number) { 0 } else { 7 });
        }
        for other in [0, 22, crate::raw::SHORT] {
            assert_eq!(Refusal::numbered(other, 0), None);
        }
    }
}
