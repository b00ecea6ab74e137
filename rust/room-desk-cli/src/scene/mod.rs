//! The scene file: its tables, its numbers, and why it is refused.

pub mod explain;
pub mod finding;
pub mod model;
mod ranges;
mod recordings;
mod references;
pub mod tables;
pub mod text;

pub use explain::explain;
pub use finding::{Finding, commas, count};
pub use model::{Clock, Head, Order, Placing, Route, Scene, Sound, Track};
