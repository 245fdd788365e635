//! The ordering program written straight from document 01, without the original text, and a list of plausible mistakes
//! that it can be run with. With no mistake it answers as the oracle does; with one, some stream tells them apart.

pub mod blocks;
pub mod calls;
pub mod clock;
pub mod commit;
pub mod committee;
pub mod decide;
pub mod linear;
pub mod manager;
pub mod mistake;
pub mod program;
pub mod reader;

pub use mistake::Mistake;
