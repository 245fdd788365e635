//! Reads the bits of a stream.

use stream::{Block, Header, Reference};

use crate::Mistake;

/// Why nothing could be read.
#[derive(Clone, Copy, PartialEq, Eq)]
pub enum Fault {
    Cut,
    Padding,
}

/// The input as bits.
pub struct Bits<'a> {
    bytes: &'a [u8],
    next: usize,
    mistake: Mistake,
}

impl<'a> Bits<'a> {
    pub fn new(bytes: &'a [u8], mistake: Mistake) -> Self {
        Self { bytes, next: 0, mistake }
    }

    pub fn left(&self) -> usize {
        8 * self.bytes.len() - self.next
    }

    fn take(&mut self, width: usize) -> Result<u64, Fault> {
        if self.left() < width {
            return Err(Fault::Cut);
        }
        let bit = |place: usize| u64::from(self.bytes[place / 8] >> (7 - place % 8) & 1);
        let value = (self.next..self.next + width).fold(0, |value, place| value << 1 | bit(place));
        self.next += width;
        Ok(value)
    }

    fn pad(&mut self, ignored: Mistake) -> Result<(), Fault> {
        let padding = self.take((8 - self.next % 8) % 8)?;
        if padding != 0 && self.mistake != ignored {
            Err(Fault::Padding)
        } else {
            Ok(())
        }
    }

    pub fn header(&mut self) -> Result<Header, Fault> {
        let size = self.take(7)? + 1;
        let mut stakes = vec![];
        for _ in 0..size {
            stakes.push(self.take(63)?);
        }
        let (wave_length, pipelined, leaders) = (self.take(6)?, self.take(1)? == 1, self.take(7)? + 1);
        self.pad(Mistake::HeaderPaddingIgnored)?;
        Ok(Header { stakes, wave_length, pipelined, leaders })
    }

    fn reference(&mut self) -> Result<Reference, Fault> {
        let (authority, round) = (self.take(7)?, self.take(40)?);
        let digest = [self.take(64)?, self.take(64)?, self.take(64)?, self.take(64)?];
        Ok(Reference { authority, round, digest })
    }

    pub fn offer(&mut self) -> Result<Block, Fault> {
        let reference = self.reference()?;
        let count = self.take(9)?;
        let mut includes = vec![];
        for _ in 0..count {
            includes.push(self.reference()?);
        }
        if self.mistake != Mistake::OffersNotPadded {
            self.pad(Mistake::OfferPaddingIgnored)?;
        }
        Ok(Block { reference, includes })
    }
}
