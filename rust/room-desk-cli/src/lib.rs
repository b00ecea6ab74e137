//! The command `room-desk`. Reading and writing files, names, explanations and drawings are plain
//! Rust and unproved; what is heard, and whether a scene is accepted, comes from the proved routines.
#![allow(missing_docs)]
#![forbid(unsafe_code)]

pub mod args;
pub mod commands;
pub mod files;
pub mod guess;
pub mod input;
pub mod paint;
pub mod picture;
pub mod recordings;
pub mod report;
pub mod scene;
pub mod sheet;
pub mod show;
pub mod silence;
pub mod stop;
pub mod units;
pub mod warnings;
