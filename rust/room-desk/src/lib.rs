//! A proved audio mixer. A scene (tracks inside tracks, send tracks, volumes, pauses) and
//! recordings are rendered to speaker samples, bit for bit as the mixer of kira does, or refused by
//! one number. The mixer is written in Rattle, where every function is proved to meet its contract;
//! this crate calls it and proves nothing itself.
//!
//! ```
//! use room_desk::{Recordings, Refusal};
//!
//! // One track at 0 dB, on which two frames play.
//! let scene = std::fs::read("../../examples/first/scene.txt")?;
//! let samples = [0.5, -0.25, 1.0, 0.0]; // left, right, left, right
//!
//! let show = room_desk::render(&scene, Recordings::house(&samples))?;
//! assert_eq!(show.samples, samples);
//! assert_eq!((show.shape.rate, show.shape.channels), (8192, 2));
//!
//! // A refusal is the number of the first question that says no.
//! let refusal = room_desk::check(&scene, Recordings::house(&samples[..2])).unwrap_err();
//! assert_eq!(refusal, Refusal::SoundPastSamples);
//! assert_eq!(refusal.number(), 8);
//! # Ok::<(), Box<dyn std::error::Error>>(())
//! ```
//!
//! # Stack, threads, time
//!
//! A render needs less than 288 KiB of stack: the 2 MiB of a Rust thread are plenty, and a small
//! thread gets 512 KiB. The routines allocate nothing, have no global state, call nothing of the
//! system, and end: that is proved. The largest show, 32 tracks and 524,288 frames, takes some
//! tenths of a second.

mod ffi;
mod refusal;
mod render;
mod shape;
mod silence;
mod sound_file;

pub use refusal::Refusal;
pub use render::{Recordings, Show, amplitude, check, render, render_into};
pub use shape::Shape;
pub use silence::{Silence, silent};
pub use sound_file::{Sound, aiff, convert, wave};
