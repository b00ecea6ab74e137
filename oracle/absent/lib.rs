// Stand-in for kira's crate root: its modules and the names that they use of
// one another, and three modules of our own.

pub mod backend;
pub mod clock;
pub mod command;
mod decibels;
pub mod effect;
mod error;
mod frame;
pub mod info;
pub mod listener;
mod manager;
pub mod modulator;
mod panning;
mod parameter;
mod playback_rate;
mod playback_state_manager;
pub mod sound;
mod start_time;
pub mod track;
mod tween;
mod value;

pub use decibels::*;
pub use error::*;
pub use frame::*;
pub use manager::*;
pub use panning::*;
pub use parameter::*;
pub use playback_rate::*;
pub use start_time::*;
pub use tween::*;
pub use value::*;

// `$crate::pastey::paste!` in kira's macros.
#[doc(hidden)]
pub use pastey;

#[allow(unused)]
mod gain_table;
pub mod harness;
pub mod leaves;
