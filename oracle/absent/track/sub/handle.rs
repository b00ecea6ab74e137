// Stand-in for kira's `track/sub/handle.rs`: kira's own `SpatialTrackHandle`.

use std::ops::{Deref, DerefMut};

use super::SpatialTrackHandle;

#[derive(Debug)]
pub struct TrackHandle(pub(crate) SpatialTrackHandle);

impl Deref for TrackHandle {
	type Target = SpatialTrackHandle;

	fn deref(&self) -> &Self::Target {
		&self.0
	}
}

impl DerefMut for TrackHandle {
	fn deref_mut(&mut self) -> &mut Self::Target {
		&mut self.0
	}
}
