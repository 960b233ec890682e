//! Frames, byte places and donation numbers as three types, and the refusals with their numbers.
use std::fmt;

/// A number of frames, or a place counted in frames.
#[derive(Clone, Copy, Debug, Default, PartialEq, Eq, PartialOrd, Ord)]
pub struct Frames(pub u32);

/// A place in a file, counted in bytes from its start.
#[derive(Clone, Copy, Debug, Default, PartialEq, Eq, PartialOrd, Ord)]
pub struct BytePlace(pub usize);

/// The number under which a song was donated, which is the name of its cue.
#[derive(Clone, Copy, Debug, Default, PartialEq, Eq, PartialOrd, Ord)]
pub struct Donation(pub u32);

/// Why something was refused.
#[derive(Clone, Copy, Debug, PartialEq, Eq)]
#[repr(u8)]
pub enum Refusal {
    LengthOutOfRange = 1,
    NotWave,
    RiffSizeWrong,
    ChunkPastTheEnd,
    SecondOfItsKind,
    DataBeforeFormat,
    WaveList,
    FormatOrDataMissing,
    FormatWrong,
    NotWholeFrames,
    FactWrong,
    CuesWrong,
    PlaylistWrong,
    OutputTooSmall,
    BlockHeaderWrong,
    SongEmptyOrDifferent,
    NoPlaceOnSide,
    AlreadyListed,
    NotASide,
    NoSuchBlock,
    TitlesWrong,
}

/// All refusals, by their numbers from 1 on.
const ALL: [Refusal; 21] = [
    Refusal::LengthOutOfRange,
    Refusal::NotWave,
    Refusal::RiffSizeWrong,
    Refusal::ChunkPastTheEnd,
    Refusal::SecondOfItsKind,
    Refusal::DataBeforeFormat,
    Refusal::WaveList,
    Refusal::FormatOrDataMissing,
    Refusal::FormatWrong,
    Refusal::NotWholeFrames,
    Refusal::FactWrong,
    Refusal::CuesWrong,
    Refusal::PlaylistWrong,
    Refusal::OutputTooSmall,
    Refusal::BlockHeaderWrong,
    Refusal::SongEmptyOrDifferent,
    Refusal::NoPlaceOnSide,
    Refusal::AlreadyListed,
    Refusal::NotASide,
    Refusal::NoSuchBlock,
    Refusal::TitlesWrong,
];

impl Refusal {
    /// The refusal of a number, if it is the number of one.
    pub fn from_number(number: u32) -> Option<Refusal> {
        ALL.into_iter().find(|refusal| u32::from(refusal.number()) == number)
    }

    pub fn number(self) -> u8 {
        self as u8
    }

    /// What it means to a volunteer.
    pub fn meaning(self) -> &'static str {
        include_str!("../meanings").lines().nth(usize::from(self.number()) - 1).unwrap_or_default()
    }
}

impl fmt::Display for Refusal {
    fn fmt(&self, out: &mut fmt::Formatter) -> fmt::Result {
        write!(out, "refused {}", self.number())
    }
}

impl std::error::Error for Refusal {}

#[cfg(test)]
mod tests {
    use super::*;

    #[test]
    fn each_number_has_a_refusal_and_a_meaning() {
        for (place, refusal) in ALL.into_iter().enumerate() {
            assert_eq!(usize::from(refusal.number()), place + 1);
            assert_eq!(Refusal::from_number(place as u32 + 1), Some(refusal));
            assert!(!refusal.meaning().is_empty());
        }
        assert_eq!(include_str!("../meanings").lines().count(), ALL.len());
        assert_eq!((Refusal::from_number(0), Refusal::from_number(22)), (None, None));
    }
}
