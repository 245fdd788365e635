//! The names `Serialize` and `Deserialize`, as traits that every type has and as derives that add nothing.
//! Nothing is ever serialised here.

pub use serde_derive::{Deserialize, Serialize};

pub trait Serialize {}
impl<T: ?Sized> Serialize for T {}

pub trait Deserialize<'de> {}
impl<T: ?Sized> Deserialize<'_> for T {}
