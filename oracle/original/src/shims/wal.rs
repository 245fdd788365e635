//! A log that is always empty: writing only counts positions, nothing is ever read back.

use std::{fmt, io};

use minibytes::Bytes;

pub type Tag = u32;

#[derive(Clone, Copy, Debug, PartialEq, Eq)]
pub struct WalPosition(u64);

impl fmt::Display for WalPosition {
    fn fmt(&self, f: &mut fmt::Formatter<'_>) -> fmt::Result {
        self.0.fmt(f)
    }
}

#[derive(Default)]
pub struct WalWriter {
    written: u64,
}

impl WalWriter {
    pub fn write(&mut self, _tag: Tag, _entry: &Bytes) -> io::Result<WalPosition> {
        Ok(self.advance())
    }

    pub fn writev(&mut self, _tag: Tag, _entry: &[io::IoSlice]) -> io::Result<WalPosition> {
        Ok(self.advance())
    }

    /// A position that no earlier write was given.
    pub fn advance(&mut self) -> WalPosition {
        let position = WalPosition(self.written);
        self.written += 1;
        position
    }
}

#[derive(Default)]
pub struct WalReader;

impl WalReader {
    pub fn iter_until(&self, _writer: &WalWriter) -> impl Iterator<Item = (WalPosition, (Tag, Bytes))> {
        std::iter::empty()
    }

    /// Always fails: the store keeps every block loaded.
    pub fn read(&self, _position: WalPosition) -> io::Result<(Tag, Bytes)> {
        Err(io::ErrorKind::NotFound.into())
    }

    pub fn cleanup(&self) -> usize {
        0
    }
}
