//! The peer's engine as an archive with C names, for the fuzz target.
#![deny(warnings)]
#![allow(clippy::missing_safety_doc)]

#[path = "../src/engine/mod.rs"]
pub mod engine;
#[macro_use]
#[path = "../src/export.rs"]
pub mod export;

export!(crate::engine: peer_sheet peer_lengths peer_reset peer_enable peer_turn peer_exchange peer_replay peer_difference peer_version);
