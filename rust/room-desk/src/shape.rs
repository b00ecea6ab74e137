//! What a scene's first table says of its output.

/// The rate, channels and length of a show.
#[derive(Debug, Clone, Copy, PartialEq, Eq)]
pub struct Shape {
    /// Frames a second.
    pub rate: u32,
    /// Samples of a frame.
    pub channels: usize,
    /// Frames of a chunk: volumes and states move once in each.
    pub buffer: usize,
    /// Frames of a block: orders are read at its start.
    pub block: usize,
    /// Blocks of the show.
    pub blocks: usize,
}

impl Shape {
    /// Frames of the show.
    pub fn frames(&self) -> usize {
        self.block * self.blocks
    }

    /// Samples of the output.
    pub fn output_length(&self) -> usize {
        self.frames() * self.channels
    }

    /// Seconds of the show.
    pub fn seconds(&self) -> f64 {
        self.frames() as f64 / f64::from(self.rate)
    }

    /// The first numbers of the second line, of a scene that has passed question 4. A wrong
    /// reading here would be refused by question 10, never rendered.
    pub(crate) fn of(scene: &[u8]) -> Option<Self> {
        let line = scene.split(|&byte| byte == b'\n').nth(1)?;
        let mut numbers = std::str::from_utf8(line).ok()?.split(' ').map(|word| word.parse().ok());
        let mut next = || -> Option<u32> { numbers.next()? };
        Some(Self {
            rate: next()?,
            channels: next()? as usize,
            buffer: next()? as usize,
            block: next()? as usize,
            blocks: next()? as usize,
        })
    }
}
