// Stand-in for kira's `manager.rs`; `harness.rs` does what the manager does.

mod settings;

pub use settings::*;
