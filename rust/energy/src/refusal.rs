//! Refusals: a number, a P, and a sentence for people.

use crate::raw;
use crate::{MAX_BOUND, MAX_CAPACITY, MAX_FILE_BYTES, MAX_FRAMES, MAX_HARVEST};
use std::error::Error;
use std::fmt;

/// Why a call is refused. P is the value that a variant holds, 0 where it holds none.
///
/// Printed, it is its number, its P and its [sentence](Refusal::sentence): one line is enough for whoever has to put it
/// right. The names are those of the constants `ENERGY_REFUSED_..` in `include/energy.h`. Each function says by which numbers
/// it is refused, and in which order.
///
/// A later version may refuse what nothing refuses today, and give it a variant; so a `match` needs a wildcard. Here such a
/// refusal is [`Unknown`](Refusal::Unknown).
#[derive(Clone, Copy, Debug, PartialEq, Eq, Hash)]
#[non_exhaustive]
pub enum Refusal {
    /// 1: no frames.
    NoFrames,
    /// 2: more than [`MAX_FRAMES`] frames, or a file above [`MAX_FILE_BYTES`].
    TooManyFrames,
    /// 3: capacity above [`MAX_CAPACITY`]; for the needed capacity, start or end above it.
    CapacityAboveLimit,
    /// 4: start above capacity.
    StartAboveCapacity,
    /// 5: end above capacity.
    EndAboveCapacity,
    /// 6: a harvest above [`MAX_HARVEST`].
    HarvestAboveLimit {
        /// The earliest such frame, from 1.
        frame: u64,
    },
    /// 7: a list whose length is not that of the harvests, or one too short for the word file.
    WrongLength,
    /// 8: a malformed word file.
    BadWord {
        /// The word's place, from 0.
        word: u64,
    },
    /// 9: start plus all harvest is below the end charge.
    OutOfReach {
        /// The watt-hours missing.
        missing: u64,
    },
    /// 10: a least above its most, or a least or a most above [`MAX_BOUND`], save the most that means no upper end.
    BadBounds {
        /// The earliest such frame, from 1.
        frame: u64,
    },
    /// 11: the leasts taken as budgets are not feasible; for the needed capacity, not with unlimited storage.
    LeastsOutOfReach,
    /// 20: every frame is recorded already.
    AllRecorded,
    /// 21: use greater than charge plus harvest.
    UseTooGreat {
        /// The watt-hours too much.
        excess: u64,
    },
    /// 22: a shift record that isn't one.
    NotShift,
    /// A number with a P that this version has no variant for.
    Unknown {
        /// The number.
        number: u32,
        /// The P.
        p: u64,
    },
}

impl Refusal {
    /// Its number.
    pub fn number(self) -> u32 {
        match self {
            Refusal::NoFrames => raw::ENERGY_REFUSED_NO_FRAMES,
            Refusal::TooManyFrames => raw::ENERGY_REFUSED_TOO_MANY_FRAMES,
            Refusal::CapacityAboveLimit => raw::ENERGY_REFUSED_CAPACITY_ABOVE_LIMIT,
            Refusal::StartAboveCapacity => raw::ENERGY_REFUSED_START_ABOVE_CAPACITY,
            Refusal::EndAboveCapacity => raw::ENERGY_REFUSED_END_ABOVE_CAPACITY,
            Refusal::HarvestAboveLimit { .. } => raw::ENERGY_REFUSED_HARVEST_ABOVE_LIMIT,
            Refusal::WrongLength => raw::ENERGY_REFUSED_WRONG_LENGTH,
            Refusal::BadWord { .. } => raw::ENERGY_REFUSED_BAD_WORD,
            Refusal::OutOfReach { .. } => raw::ENERGY_REFUSED_OUT_OF_REACH,
            Refusal::BadBounds { .. } => raw::ENERGY_REFUSED_BAD_BOUNDS,
            Refusal::LeastsOutOfReach => raw::ENERGY_REFUSED_LEASTS_OUT_OF_REACH,
            Refusal::AllRecorded => raw::ENERGY_REFUSED_ALL_RECORDED,
            Refusal::UseTooGreat { .. } => raw::ENERGY_REFUSED_USE_TOO_GREAT,
            Refusal::NotShift => raw::ENERGY_REFUSED_NOT_SHIFT,
            Refusal::Unknown { number, .. } => number,
        }
    }

    /// Its P, which says where or how much.
    pub fn p(self) -> u64 {
        match self {
            Refusal::HarvestAboveLimit { frame } => frame,
            Refusal::BadWord { word } => word,
            Refusal::OutOfReach { missing } => missing,
            Refusal::BadBounds { frame } => frame,
            Refusal::UseTooGreat { excess } => excess,
            Refusal::Unknown { p, .. } => p,
            _ => 0,
        }
    }

    /// The refusal of a number and its P.
    pub fn from_code(number: u32, p: u64) -> Refusal {
        match (number, p) {
            (raw::ENERGY_REFUSED_NO_FRAMES, 0) => Refusal::NoFrames,
            (raw::ENERGY_REFUSED_TOO_MANY_FRAMES, 0) => Refusal::TooManyFrames,
            (raw::ENERGY_REFUSED_CAPACITY_ABOVE_LIMIT, 0) => Refusal::CapacityAboveLimit,
            (raw::ENERGY_REFUSED_START_ABOVE_CAPACITY, 0) => Refusal::StartAboveCapacity,
            (raw::ENERGY_REFUSED_END_ABOVE_CAPACITY, 0) => Refusal::EndAboveCapacity,
            (raw::ENERGY_REFUSED_HARVEST_ABOVE_LIMIT, frame) => Refusal::HarvestAboveLimit { frame },
            (raw::ENERGY_REFUSED_WRONG_LENGTH, 0) => Refusal::WrongLength,
            (raw::ENERGY_REFUSED_BAD_WORD, word) => Refusal::BadWord { word },
            (raw::ENERGY_REFUSED_OUT_OF_REACH, missing) => Refusal::OutOfReach { missing },
            (raw::ENERGY_REFUSED_BAD_BOUNDS, frame) => Refusal::BadBounds { frame },
            (raw::ENERGY_REFUSED_LEASTS_OUT_OF_REACH, 0) => Refusal::LeastsOutOfReach,
            (raw::ENERGY_REFUSED_ALL_RECORDED, 0) => Refusal::AllRecorded,
            (raw::ENERGY_REFUSED_USE_TOO_GREAT, excess) => Refusal::UseTooGreat { excess },
            (raw::ENERGY_REFUSED_NOT_SHIFT, 0) => Refusal::NotShift,
            (number, p) => Refusal::Unknown { number, p },
        }
    }

    /// The line that stands for it where a program reads: `refused`, its number and its P, as a [listing](crate::listing)
    /// has it.
    ///
    /// ```
    /// assert_eq!(energy::Refusal::OutOfReach { missing: 1 }.line(), "refused 9 1");
    /// ```
    pub fn line(self) -> String {
        format!("refused {} {}", self.number(), self.p())
    }
}

impl Refusal {
    /// What it means, for people, without number and P.
    pub fn sentence(self) -> String {
        match self {
            Refusal::NoFrames => "there are no frames".into(),
            Refusal::TooManyFrames => format!(
                "there are more than {MAX_FRAMES} frames, or the word file has more than {MAX_FILE_BYTES} bytes"
            ),
            Refusal::CapacityAboveLimit => {
                format!("the capacity, or for the needed capacity the start or end charge, is above {MAX_CAPACITY} Wh")
            }
            Refusal::StartAboveCapacity => "the start charge is above the capacity".into(),
            Refusal::EndAboveCapacity => "the end charge is above the capacity".into(),
            Refusal::HarvestAboveLimit { frame } => format!("the harvest of frame {frame} is above {MAX_HARVEST} Wh"),
            Refusal::WrongLength => "a list does not have an entry for each frame, or is too short for the file".into(),
            Refusal::BadWord { word } => format!("the word file is malformed at word {word}, counted from 0"),
            Refusal::OutOfReach { missing } => {
                format!("the end charge is out of reach: start charge and all harvest are {missing} Wh short of it")
            }
            Refusal::BadBounds { frame } => {
                format!("the least of frame {frame} is above its most, or one of them is above {MAX_BOUND} Wh")
            }
            Refusal::LeastsOutOfReach => {
                "the leasts are out of reach: as budgets they run the store dry, or leave less than the end charge"
                    .into()
            }
            Refusal::AllRecorded => "every frame is recorded already".into(),
            Refusal::UseTooGreat { excess } => format!("the use is {excess} Wh above charge and harvest"),
            Refusal::NotShift => "the record is not that of a shift".into(),
            Refusal::Unknown { number, p } => format!("refusal {number} with P {p} is not known here"),
        }
    }
}

impl fmt::Display for Refusal {
    fn fmt(&self, f: &mut fmt::Formatter<'_>) -> fmt::Result {
        write!(f, "{}: {}", self.line(), self.sentence())
    }
}

impl Error for Refusal {}
