//! Stands in for the archive under test: the peer's own engine under its names.
//!
//! With a fault put into the engine it shows whether the comparer finds it.
#![deny(warnings)]
#![allow(clippy::missing_safety_doc)]

#[path = "../src/engine/mod.rs"]
pub mod engine;
#[macro_use]
#[path = "../src/export.rs"]
pub mod export;

export!(crate::engine: t24_sheet t24_lengths t24_reset t24_enable t24_turn t24_exchange t24_replay t24_difference t24_version);
