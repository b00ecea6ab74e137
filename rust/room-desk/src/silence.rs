//! Which tracks cannot be heard.

use crate::{Recordings, Refusal};

/// What is promised of a track: the first that holds, in this order.
#[derive(Debug, Clone, Copy, PartialEq, Eq, Hash)]
pub enum Silence {
    /// At -60 dB or less all through, and nothing below it is routed.
    Muted,
    /// Paused at once in block 0, and never resumed.
    Held,
    /// Below a track that is muted or held.
    Inside,
    /// Nothing is promised: the track may be heard.
    No,
}

/// Asks the proved routine which tracks are silent, line by line of the tracks table.
pub fn silent(scene: &[u8], recordings: Recordings) -> Result<Vec<Silence>, Refusal> {
    let mut tracks = vec![0; track_lines(scene)];
    let number = crate::ffi::silent(scene, recordings.house, recordings.visitor, &mut tracks);
    crate::refusal::answer(number)?;
    Ok(tracks.into_iter().map(Silence::of).collect())
}

impl Silence {
    fn of(number: u32) -> Self {
        match number {
            1 => Self::Muted,
            2 => Self::Held,
            3 => Self::Inside,
            _ => Self::No,
        }
    }
}

/// The value lines of the third table. A wrong count would be refused by 10.
fn track_lines(scene: &[u8]) -> usize {
    let mut tables = scene.split(|&byte| byte == b'\n').collect::<Vec<_>>();
    tables.pop();
    let third = tables.split(|line| line.is_empty()).nth(2);
    third.map_or(0, |lines| lines.len().saturating_sub(1))
}
