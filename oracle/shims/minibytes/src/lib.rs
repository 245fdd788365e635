//! `Bytes`: a plain vector of bytes.

use std::ops::{Deref, RangeFrom};

#[derive(Clone, Default)]
pub struct Bytes(Vec<u8>);

impl Bytes {
    /// A copy of the bytes from `range.start` on.
    pub fn slice(&self, range: RangeFrom<usize>) -> Bytes {
        Bytes(self.0[range].to_vec())
    }
}

impl From<Vec<u8>> for Bytes {
    fn from(bytes: Vec<u8>) -> Self {
        Bytes(bytes)
    }
}

impl Deref for Bytes {
    type Target = [u8];

    fn deref(&self) -> &[u8] {
        &self.0
    }
}
