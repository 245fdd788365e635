//! Seeded streams and requests: the same seed gives the same bytes on every machine.

pub mod case;
pub mod dag;
pub mod dags;
pub mod exhaustive;
pub mod header;
pub mod order;
pub mod prng;
pub mod requests;
pub mod shrink;
pub mod streams;
