//! A stream and what was done to its bytes.

use stream::Stream;

/// A change of the bytes.
#[derive(Clone, Debug, PartialEq, Eq)]
pub enum Damage {
    None,
    /// Only so many bytes are left.
    Cut(usize),
    /// The lowest bit of the header's last byte is set.
    HeaderPadding,
    /// The lowest bit of this offer's last byte is set.
    OfferPadding(usize),
    /// More bytes follow.
    Tail(Vec<u8>),
}

/// A stream with its damage.
#[derive(Clone, Debug, PartialEq, Eq)]
pub struct Case {
    pub stream: Stream,
    pub damage: Damage,
}

impl Case {
    pub fn sound(stream: Stream) -> Self {
        Self { stream, damage: Damage::None }
    }

    /// The bytes that a program is given.
    pub fn bytes(&self) -> Vec<u8> {
        let mut bytes = self.stream.bytes();
        match &self.damage {
            Damage::None => {}
            Damage::Cut(left) => bytes.truncate(*left),
            Damage::HeaderPadding => bytes[self.end_of(0) - 1] |= 1,
            Damage::OfferPadding(offer) => bytes[self.end_of(offer + 1) - 1] |= 1,
            Damage::Tail(tail) => bytes.extend(tail),
        }
        bytes
    }

    /// Where the header and the first `offers` offers end.
    fn end_of(&self, offers: usize) -> usize {
        let offered = self.stream.offers.iter().take(offers);
        self.stream.header.bytes().len() + offered.map(|offer| offer.bytes().len()).sum::<usize>()
    }
}
