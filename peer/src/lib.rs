//! Hishvundar's second engine: the drive's Type 24 slave written from the
//! papers alone, so that the first engine can be compared with it.
//!
//! [`engine`] is the slave. [`trial`] makes inputs and runs two engines beside
//! each other. [`timing`] measures both on the same inputs. `t24` lends the
//! functions of the archive under test and `crash` reports where they end the
//! program; these two exist only where the archive is linked.
#![deny(warnings)]
#![deny(unsafe_code)]

pub mod engine;
pub mod timing;

pub mod trial;

#[cfg(feature = "archive")]
pub mod crash;
#[cfg(feature = "archive")]
pub mod t24;
