// Stand-in for kira's `track/send/builder.rs`, in the shape of
// `track/main/builder.rs`.

use std::sync::Arc;

use crate::{Decibels, Frame, Parameter, Value, command::command_writer_and_reader};

use super::{SendTrack, SendTrackHandle, SendTrackId, TrackShared};

pub struct SendTrackBuilder {
	pub(crate) volume: Value<Decibels>,
}

impl SendTrackBuilder {
	pub fn new() -> Self {
		Self {
			volume: Value::Fixed(Decibels::IDENTITY),
		}
	}

	pub fn volume(self, volume: impl Into<Value<Decibels>>) -> Self {
		Self {
			volume: volume.into(),
		}
	}

	pub(crate) fn build(
		self,
		id: SendTrackId,
		internal_buffer_size: usize,
	) -> (SendTrack, SendTrackHandle) {
		let (set_volume_command_writer, set_volume_command_reader) = command_writer_and_reader();
		let shared = Arc::new(TrackShared::new());
		let track = SendTrack {
			shared: shared.clone(),
			volume: Parameter::new(self.volume, Decibels::IDENTITY),
			set_volume_command_reader,
			effects: vec![],
			input: vec![Frame::ZERO; internal_buffer_size],
			internal_buffer_size,
		};
		let handle = SendTrackHandle {
			id,
			shared,
			set_volume_command_writer,
		};
		(track, handle)
	}
}
