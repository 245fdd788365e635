//! Reading and writing files is left out.

pub trait ImportExport {}
