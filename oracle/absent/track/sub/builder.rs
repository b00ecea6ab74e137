// Stand-in for kira's `track/sub/builder.rs`: kira's own
// `SpatialTrackBuilder`, whose track is then made a plain one.

use std::sync::Arc;

use atomic_arena::Arena;
use glam::{Quat, Vec3};

use crate::{Frame, Value, backend::RendererShared, listener::ListenerId};

use super::{SpatialTrackBuilder, Track, TrackHandle};

pub struct TrackBuilder(pub(crate) SpatialTrackBuilder);

impl TrackBuilder {
	pub(crate) fn build(
		self,
		renderer_shared: Arc<RendererShared>,
		internal_buffer_size: usize,
	) -> (Track, TrackHandle) {
		let (mut track, handle) = self.0.build(
			renderer_shared,
			internal_buffer_size,
			no_listener(),
			Value::Fixed(Vec3::ZERO),
		);
		track.spatial_data = None;
		(track, TrackHandle(handle))
	}
}

/// Ours: a frame of a spatial track as a still listener hears it, by kira's
/// `spatialize`, for the leaves.
pub(crate) fn spatialized(
	builder: SpatialTrackBuilder,
	listener: Vec3,
	position: Vec3,
	frame: Frame,
) -> Frame {
	let shared = Arc::new(RendererShared::new(48_000));
	let (track, _) = builder.build(shared, 1, no_listener(), Value::Fixed(position));
	let spatial_data = track.spatial_data.expect("a spatial track");
	spatial_data.spatialize(frame, listener, Quat::IDENTITY, 0.0)
}

/// An id that is forgotten with the track's spatial data.
fn no_listener() -> ListenerId {
	let key = Arena::<()>::new(1).controller().try_reserve();
	ListenerId(key.expect("an empty arena has a place"))
}
