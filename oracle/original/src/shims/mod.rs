//! What the text takes from its own crate and is not part of it.

pub mod config;
pub mod crypto;
pub mod data;
pub mod metrics;
pub mod range_map;
pub mod state;
pub mod wal;
