//! The original text, unchanged, over shims for what it leans on.
//!
//! The text's modules come from the build folder, where the build script has copied and compared them. The modules
//! of `shims` take the places of the text's neighbours that are not part of it.

mod shims;

pub use shims::{config, crypto, data, metrics, range_map, state, wal};

include!(concat!(env!("OUT_DIR"), "/text/modules.rs"));
