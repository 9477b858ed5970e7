//! Times of two engines on the same inputs.

pub mod differing;
pub mod replaying;
pub mod scene;
pub mod search;
pub mod stopwatch;
