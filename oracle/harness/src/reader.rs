//! Reads a stream of the ordering program, bit by bit.

use stream::{Block, Header, Reference, AUTHORITY_BITS, COUNT_BITS, ROUND_BITS, STAKE_BITS, WAVE_BITS};

/// Why a header or an offer is no value.
#[derive(Clone, Copy, Debug, PartialEq, Eq)]
pub enum Fault {
    /// The input ends inside it.
    Cut,
    /// One of the bits up to the whole byte is set.
    Padding,
}

/// A place in the input.
pub struct Reader<'a> {
    bytes: &'a [u8],
    place: usize,
}

impl<'a> Reader<'a> {
    pub fn new(bytes: &'a [u8]) -> Self {
        Self { bytes, place: 0 }
    }

    /// Whether nothing is left.
    pub fn at_end(&self) -> bool {
        self.place == 8 * self.bytes.len()
    }

    pub fn header(&mut self) -> Result<Header, Fault> {
        let size = self.field(AUTHORITY_BITS)? + 1;
        let stakes = (0..size).map(|_| self.field(STAKE_BITS)).collect::<Result<_, _>>()?;
        let wave_length = self.field(WAVE_BITS)?;
        let pipelined = self.field(1)? == 1;
        let leaders = self.field(AUTHORITY_BITS)? + 1;
        self.padding()?;
        Ok(Header { stakes, wave_length, pipelined, leaders })
    }

    pub fn offer(&mut self) -> Result<Block, Fault> {
        let reference = self.reference()?;
        let count = self.field(COUNT_BITS)?;
        let includes = (0..count).map(|_| self.reference()).collect::<Result<_, _>>()?;
        self.padding()?;
        Ok(Block { reference, includes })
    }

    fn reference(&mut self) -> Result<Reference, Fault> {
        let authority = self.field(AUTHORITY_BITS)?;
        let round = self.field(ROUND_BITS)?;
        let mut digest = [0; 4];
        for word in &mut digest {
            *word = self.field(64)?;
        }
        Ok(Reference { authority, round, digest })
    }

    fn padding(&mut self) -> Result<(), Fault> {
        let width = (8 - self.place % 8) % 8;
        let set = self.field(width as u32)? != 0;
        if set {
            Err(Fault::Padding)
        } else {
            Ok(())
        }
    }

    fn field(&mut self, width: u32) -> Result<u64, Fault> {
        let mut value = 0;
        for _ in 0..width {
            let byte = self.bytes.get(self.place / 8).ok_or(Fault::Cut)?;
            value = value << 1 | u64::from(byte >> (7 - self.place % 8) & 1);
            self.place += 1;
        }
        Ok(value)
    }
}
