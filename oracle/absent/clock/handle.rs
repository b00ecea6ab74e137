// Stand-in for kira's `clock/handle.rs`.

use std::sync::Arc;

use super::{ClockId, ClockShared, CommandWriters};

#[derive(Debug)]
pub struct ClockHandle {
	pub(crate) id: ClockId,
	pub(crate) shared: Arc<ClockShared>,
	pub(crate) command_writers: CommandWriters,
}

impl ClockHandle {
	pub fn id(&self) -> ClockId {
		self.id
	}

	pub fn start(&mut self) {
		self.command_writers.set_ticking.write(true)
	}
}

impl Drop for ClockHandle {
	fn drop(&mut self) {
		self.shared.mark_for_removal();
	}
}
