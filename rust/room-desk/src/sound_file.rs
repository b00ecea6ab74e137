//! WAVE and AIFF files, by the proved routines.

/// The samples of a sound file.
#[derive(Debug, Clone, PartialEq)]
pub struct Sound {
    /// Frames a second, as the file says.
    pub rate: u32,
    /// Left and right in turn; of a file with one channel both are the same.
    pub samples: Vec<f32>,
}

/// WAVE files: one or two channels, 16-bit or 32-bit float.
///
/// ```
/// use room_desk::wave::{self, Bits};
///
/// let file = wave::write(48000, 2, Bits::Float, &[0.5, -0.25, 1.0, 0.0])?;
/// assert_eq!(wave::info(&file)?.frames, 2);
/// assert_eq!(wave::read(&file)?.samples, [0.5, -0.25, 1.0, 0.0]);
/// # Ok::<(), room_desk::Refusal>(())
/// ```
pub mod wave {
    use super::Sound;
    use crate::refusal::answer;
    use crate::{Refusal, ffi};

    /// What a sample is stored as.
    #[derive(Debug, Clone, Copy, PartialEq, Eq)]
    pub enum Bits {
        /// 16-bit whole numbers: the nearest is written.
        Sixteen,
        /// 32-bit floats: every sample exactly.
        Float,
    }

    impl Bits {
        fn number(self) -> u32 {
            match self {
                Self::Sixteen => 16,
                Self::Float => 32,
            }
        }
    }

    /// What a file holds.
    #[derive(Debug, Clone, Copy, PartialEq, Eq)]
    pub struct Info {
        /// Frames a second.
        pub rate: u32,
        /// 1 or 2.
        pub channels: u32,
        /// 16 or 32.
        pub bits: u32,
        /// How many frames.
        pub frames: u32,
    }

    /// What the file holds.
    pub fn info(file: &[u8]) -> Result<Info, Refusal> {
        let (number, [rate, channels, bits, frames]) = ffi::wave_info(file);
        answer(number).map(|()| Info { rate, channels, bits, frames })
    }

    /// The file's samples.
    pub fn read(file: &[u8]) -> Result<Sound, Refusal> {
        let mut sound = Sound { rate: 0, samples: vec![0.0; 2 * info(file)?.frames as usize] };
        answer(ffi::wave_read(file, &mut sound.samples, &mut sound.rate))?;
        Ok(sound)
    }

    /// The file of samples, two a frame; one channel takes the left ones.
    pub fn write(
        rate: u32,
        channels: u32,
        bits: Bits,
        samples: &[f32],
    ) -> Result<Vec<u8>, Refusal> {
        let mut file = vec![0; ffi::wave_length(samples.len(), channels, bits.number())];
        answer(ffi::wave_write(rate, channels, bits.number(), samples, &mut file))?;
        Ok(file)
    }
}

/// AIFF files: one or two channels, 16-bit.
///
/// ```
/// let file = room_desk::aiff::write(44100, 1, &[0.5, 0.5])?;
/// assert_eq!(room_desk::aiff::read(&file)?.rate, 44100);
/// # Ok::<(), room_desk::Refusal>(())
/// ```
pub mod aiff {
    use super::Sound;
    use crate::refusal::answer;
    use crate::{Refusal, ffi};

    /// What a file holds.
    #[derive(Debug, Clone, Copy, PartialEq, Eq)]
    pub struct Info {
        /// Frames a second.
        pub rate: u32,
        /// 1 or 2.
        pub channels: u32,
        /// How many frames.
        pub frames: u32,
    }

    /// What the file holds.
    pub fn info(file: &[u8]) -> Result<Info, Refusal> {
        let (number, [rate, channels, frames]) = ffi::aiff_info(file);
        answer(number).map(|()| Info { rate, channels, frames })
    }

    /// The file's samples.
    pub fn read(file: &[u8]) -> Result<Sound, Refusal> {
        let mut sound = Sound { rate: 0, samples: vec![0.0; 2 * info(file)?.frames as usize] };
        answer(ffi::aiff_read(file, &mut sound.samples, &mut sound.rate))?;
        Ok(sound)
    }

    /// The file of samples, two a frame, rounded to 16 bits; one channel takes the left ones.
    pub fn write(rate: u32, channels: u32, samples: &[f32]) -> Result<Vec<u8>, Refusal> {
        let mut file = vec![0; ffi::aiff_length(samples.len(), channels)];
        answer(ffi::aiff_write(rate, channels, samples, &mut file))?;
        Ok(file)
    }
}

/// WAVE to AIFF and back: the same samples, rate and channels, or a refusal.
///
/// ```
/// use room_desk::wave::{self, Bits};
///
/// let wave = wave::write(44100, 1, Bits::Sixteen, &[0.5, 0.5])?;
/// let aiff = room_desk::convert::wave_to_aiff(&wave)?;
/// assert_eq!(room_desk::convert::aiff_to_wave(&aiff)?, wave);
/// # Ok::<(), room_desk::Refusal>(())
/// ```
pub mod convert {
    use super::{aiff, wave};
    use crate::refusal::answer;
    use crate::{Refusal, ffi};

    /// The AIFF file of a WAVE file.
    pub fn wave_to_aiff(file: &[u8]) -> Result<Vec<u8>, Refusal> {
        let info = wave::info(file)?;
        let mut made = vec![0; ffi::aiff_length(2 * info.frames as usize, info.channels)];
        answer(ffi::wave_to_aiff(file, &mut made))?;
        Ok(made)
    }

    /// The 16-bit WAVE file of an AIFF file.
    pub fn aiff_to_wave(file: &[u8]) -> Result<Vec<u8>, Refusal> {
        let info = aiff::info(file)?;
        let mut made = vec![0; ffi::wave_length(2 * info.frames as usize, info.channels, 16)];
        answer(ffi::aiff_to_wave(file, &mut made))?;
        Ok(made)
    }
}
