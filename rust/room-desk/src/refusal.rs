//! The numbers of refusals, by name.

use std::{error, fmt};

/// Why a routine refused: the first of its questions, in their order, that says no.
#[derive(Debug, Clone, Copy, PartialEq, Eq, Hash, PartialOrd, Ord)]
#[non_exhaustive]
pub enum Refusal {
    /// 1: the scene has not 1 to 16,384 bytes, or its last byte is no line feed.
    FileSize,
    /// 2: a line of the scene is not spelled as the format asks.
    Spelling,
    /// 3: a table has too many or too few lines.
    LineCount,
    /// 4: a field is out of its range, or the rate of a file to write is.
    Range,
    /// 5: a field names a line that is not there.
    Reference,
    /// 6: a track stands deeper than 4.
    Depth,
    /// 7: a track is routed to one send track twice, or placed twice.
    NamedTwice,
    /// 8: an odd number of samples, or a sound past their end.
    SoundPastSamples,
    /// 9: a sample is not a number in -1.0..1.0.
    SampleValue,
    /// 10: a buffer to write has another length than it must have.
    Length,
    /// 11: a level is no number, or above 23.0.
    Decibels,
    /// 13: not RIFF/WAVE, no format chunk of 16 bytes, or no data.
    NotWave,
    /// 14: a chunk past the file's end, or a broken frame.
    BrokenFile,
    /// 15: neither 16-bit nor 32-bit float, or not one or two channels.
    SampleKind,
    /// 16: not AIFF, no common chunk of 18 bytes, or no sound chunk.
    NotAiff,
    /// 17: a float sample that 16 bits don't hold.
    Not16Bit,
    /// 18: a rate that is no whole number in 8000..192000.
    Rate,
    /// A number that this version of the crate has no name for.
    Other(u32),
}

/// Each refusal with its number and its sentence.
const LIST: [(Refusal, u32, &str); 17] = [
    (Refusal::FileSize, 1, "the scene has not 1 to 16,384 bytes, or does not end with a line feed"),
    (Refusal::Spelling, 2, "a line of the scene is not spelled as the format asks"),
    (Refusal::LineCount, 3, "a table has too many or too few lines"),
    (Refusal::Range, 4, "a field is out of its range"),
    (Refusal::Reference, 5, "a field names a line that is not there"),
    (Refusal::Depth, 6, "a track stands deeper than 4"),
    (Refusal::NamedTwice, 7, "a track is routed to the same send track twice, or placed twice"),
    (Refusal::SoundPastSamples, 8, "a sound runs past its recording, or samples are odd in number"),
    (Refusal::SampleValue, 9, "a sample is not a number in -1.0..1.0"),
    (Refusal::Length, 10, "a buffer to write has another length than it must have"),
    (Refusal::Decibels, 11, "the level is no number, or above 23.0 dB"),
    (Refusal::NotWave, 13, "no WAVE file with a format chunk of 16 bytes and data"),
    (Refusal::BrokenFile, 14, "a chunk runs past the file's end, or the data end inside a frame"),
    (Refusal::SampleKind, 15, "the samples are neither 16-bit nor float, in one or two channels"),
    (Refusal::NotAiff, 16, "no AIFF file with a common chunk of 18 bytes and a sound chunk"),
    (Refusal::Not16Bit, 17, "a float sample that 16 bits don't hold"),
    (Refusal::Rate, 18, "the rate is no whole number in 8000..192000"),
];

impl Refusal {
    /// The refusal of a number other than 0.
    pub fn from_number(number: u32) -> Self {
        let found = LIST.iter().find(|row| row.1 == number);
        found.map_or(Self::Other(number), |row| row.0)
    }

    /// Its number.
    pub fn number(self) -> u32 {
        match self {
            Self::Other(number) => number,
            named => LIST.iter().find(|row| row.0 == named).map_or(0, |row| row.1),
        }
    }
}

impl fmt::Display for Refusal {
    fn fmt(&self, f: &mut fmt::Formatter) -> fmt::Result {
        match LIST.iter().find(|row| row.0 == *self) {
            Some(row) => f.write_str(row.2),
            None => write!(f, "refused by the number {}", self.number()),
        }
    }
}

impl error::Error for Refusal {}

/// A routine's answer.
pub fn answer(number: u32) -> Result<(), Refusal> {
    match number {
        0 => Ok(()),
        refused => Err(Refusal::from_number(refused)),
    }
}

#[cfg(test)]
mod tests {
    use super::*;

    #[test]
    fn numbers_come_back() {
        for (refusal, number, _) in LIST {
            assert_eq!(Refusal::from_number(number), refusal);
            assert_eq!(refusal.number(), number);
        }
        assert_eq!(Refusal::from_number(99).number(), 99);
        assert_eq!(Refusal::Other(99).to_string(), "refused by the number 99");
    }
}
