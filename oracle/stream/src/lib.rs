//! The values that a stream of the ordering program holds, and their bits (document 01, "The ordering program").
//! Everything that fits its field can be written, so that streams due a refusal can be made too.

mod bits;

pub use bits::BitWriter;

/// Bits of an authority's field.
pub const AUTHORITY_BITS: u32 = 7;
/// Bits of a round's field.
pub const ROUND_BITS: u32 = 40;
/// Bits of a stake's field.
pub const STAKE_BITS: u32 = 63;
/// Bits of the field of an include count.
pub const COUNT_BITS: u32 = 9;
/// Bits of the wave length's field.
pub const WAVE_BITS: u32 = 6;

/// A block's name: who made it, for which round, and 32 opaque bytes as four words, the first 64 bits in word 0.
#[derive(Clone, Copy, Debug, PartialEq, Eq, PartialOrd, Ord, Hash)]
pub struct Reference {
    pub authority: u64,
    pub round: u64,
    pub digest: [u64; 4],
}

/// A block with the references it includes, in its own order.
#[derive(Clone, Debug, PartialEq, Eq)]
pub struct Block {
    pub reference: Reference,
    pub includes: Vec<Reference>,
}

/// The committee and the committer's options.
#[derive(Clone, Debug, PartialEq, Eq)]
pub struct Header {
    pub stakes: Vec<u64>,
    pub wave_length: u64,
    pub pipelined: bool,
    pub leaders: u64,
}

/// A header and the offers after it.
#[derive(Clone, Debug, PartialEq, Eq)]
pub struct Stream {
    pub header: Header,
    pub offers: Vec<Block>,
}

impl Header {
    /// The header's bytes, zero bits up to a whole byte.
    pub fn bytes(&self) -> Vec<u8> {
        let mut bits = BitWriter::default();
        bits.write(self.stakes.len() as u64 - 1, AUTHORITY_BITS);
        for stake in &self.stakes {
            bits.write(*stake, STAKE_BITS);
        }
        bits.write(self.wave_length, WAVE_BITS);
        bits.write(self.pipelined as u64, 1);
        bits.write(self.leaders - 1, AUTHORITY_BITS);
        bits.finish()
    }
}

impl Block {
    /// The offer's bytes, zero bits up to a whole byte.
    pub fn bytes(&self) -> Vec<u8> {
        let mut bits = BitWriter::default();
        write_reference(&mut bits, &self.reference);
        bits.write(self.includes.len() as u64, COUNT_BITS);
        for include in &self.includes {
            write_reference(&mut bits, include);
        }
        bits.finish()
    }
}

impl Stream {
    /// The whole stream.
    pub fn bytes(&self) -> Vec<u8> {
        let mut bytes = self.header.bytes();
        for offer in &self.offers {
            bytes.extend(offer.bytes());
        }
        bytes
    }
}

fn write_reference(bits: &mut BitWriter, reference: &Reference) {
    bits.write(reference.authority, AUTHORITY_BITS);
    bits.write(reference.round, ROUND_BITS);
    for word in reference.digest {
        bits.write(word, 64);
    }
}
