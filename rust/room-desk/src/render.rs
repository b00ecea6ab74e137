//! Shows and levels.

use crate::refusal::answer;
use crate::{Refusal, Shape, ffi};

/// What sounds play from: left and right in turn, two samples a frame.
#[derive(Debug, Clone, Copy, PartialEq, Default)]
pub struct Recordings<'a> {
    /// The house's samples.
    pub house: &'a [f32],
    /// A visitor's samples; none where there is no visitor.
    pub visitor: &'a [f32],
}

impl<'a> Recordings<'a> {
    /// The house's alone.
    pub const fn house(house: &'a [f32]) -> Self {
        Self { house, visitor: &[] }
    }
}

/// A rendered show.
#[derive(Debug, Clone, PartialEq)]
pub struct Show {
    /// Rate, channels and length.
    pub shape: Shape,
    /// `shape.channels` samples a frame, each in -1.0..1.0.
    pub samples: Vec<f32>,
}

impl Show {
    /// The samples of one channel, counted from 0; none where there is no such channel.
    ///
    /// ```
    /// # use room_desk::{Shape, Show};
    /// let shape = Shape { rate: 8000, channels: 2, buffer: 1, block: 2, blocks: 1 };
    /// let show = Show { shape, samples: vec![0.1, 0.2, 0.3, 0.4] };
    /// assert_eq!(show.channel(1).collect::<Vec<_>>(), [0.2, 0.4]);
    /// assert_eq!(show.channel(2).count(), 0);
    /// ```
    pub fn channel(&self, channel: usize) -> impl Iterator<Item = f32> + '_ {
        let frames = self.samples.chunks_exact(self.shape.channels.max(1));
        frames.filter_map(move |frame| frame.get(channel).copied())
    }
}

/// Renders into a buffer of `block` × `blocks` × `channels` samples. A refusal leaves it as it was.
pub fn render_into(
    scene: &[u8],
    recordings: Recordings,
    output: &mut [f32],
) -> Result<(), Refusal> {
    answer(ffi::render(scene, recordings.house, recordings.visitor, output))
}

/// Asks every question but that of the output's length, and says what the output will be.
pub fn check(scene: &[u8], recordings: Recordings) -> Result<Shape, Refusal> {
    // No show has an output of no samples, so a scene that is good in all else is answered 10.
    match render_into(scene, recordings, &mut []) {
        Err(Refusal::Length) => Shape::of(scene).ok_or(Refusal::Length),
        Err(refusal) => Err(refusal),
        Ok(()) => Err(Refusal::Length),
    }
}

/// Renders a whole show to a new buffer, of 16 MiB at most.
pub fn render(scene: &[u8], recordings: Recordings) -> Result<Show, Refusal> {
    let shape = check(scene, recordings)?;
    let mut samples = vec![0.0; shape.output_length()];
    render_into(scene, recordings, &mut samples)?;
    Ok(Show { shape, samples })
}

/// The factor of a level: 1.0 at 0 dB, exactly 0.0 at -60 dB and below.
///
/// ```
/// use room_desk::{Refusal, amplitude};
///
/// assert_eq!(amplitude(0.0), Ok(1.0));
/// assert_eq!(amplitude(-60.0), Ok(0.0));
/// assert_eq!(amplitude(f32::NAN), Err(Refusal::Decibels));
/// ```
pub fn amplitude(decibels: f32) -> Result<f32, Refusal> {
    let mut amplitude = 0.0;
    answer(ffi::amplitude(decibels, &mut amplitude))?;
    Ok(amplitude)
}
