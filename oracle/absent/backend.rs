// Stand-in for kira's `backend.rs`: no audio device is driven here.

mod renderer;
pub(crate) mod resources;

pub use renderer::*;

pub trait Backend {
	type Settings;
}
