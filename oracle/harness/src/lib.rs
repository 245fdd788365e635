//! Answers by the original text: whole streams of the ordering program, and single calls. Refusals, limits and the
//! release order are document 01's and are worked out here; every decision and every other value is the text's.

pub mod budget;
pub mod calls;
pub mod cases;
pub mod limits;
pub mod offers;
pub mod positions;
pub mod program;
pub mod reach;
pub mod reader;
pub mod text;
