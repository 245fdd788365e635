//! Digests are opaque: a block's signature carries the 32 bytes that become its digest. Keys verify nothing.

use digest::Digest;

use crate::types::{
    AuthorityIndex, BaseStatement, BlockReference, EpochStatus, RoundNumber, StatementBlock, TimestampNs,
};

/// 32 opaque bytes.
#[derive(Clone, Copy, Debug, Default, PartialEq, Eq, PartialOrd, Ord, Hash)]
pub struct BlockDigest(pub [u8; 32]);

impl BlockDigest {
    /// The bytes that the signature carries, whatever else the block holds.
    pub fn new(
        _authority: AuthorityIndex,
        _round: RoundNumber,
        _includes: &[BlockReference],
        _statements: &[BaseStatement],
        _meta_creation_time_ns: TimestampNs,
        _epoch_marker: EpochStatus,
        signature: &SignatureBytes,
    ) -> Self {
        Self(signature.0)
    }
}

impl AsRef<[u8]> for BlockDigest {
    fn as_ref(&self) -> &[u8] {
        &self.0
    }
}

/// The digest that a block is to have.
#[derive(Clone, Copy, Default)]
pub struct SignatureBytes(pub [u8; 32]);

#[derive(Clone, Debug)]
pub struct PublicKey;

impl PublicKey {
    pub fn verify_block(&self, _block: &StatementBlock) -> eyre::Result<()> {
        Ok(())
    }
}

pub fn dummy_public_key() -> PublicKey {
    PublicKey
}

pub struct Signer;

impl Signer {
    pub fn new_for_test(count: usize) -> Vec<Self> {
        (0..count).map(|_| Signer).collect()
    }

    pub fn public_key(&self) -> PublicKey {
        PublicKey
    }

    pub fn sign_block(
        &self,
        _authority: AuthorityIndex,
        _round: RoundNumber,
        _includes: &[BlockReference],
        _statements: &[BaseStatement],
        _meta_creation_time_ns: TimestampNs,
        _epoch_marker: EpochStatus,
    ) -> SignatureBytes {
        SignatureBytes::default()
    }
}

pub trait AsBytes {
    fn as_bytes(&self) -> &[u8];
}

pub trait CryptoHash {
    fn crypto_hash(&self, state: &mut impl Digest);
}

impl CryptoHash for u64 {
    fn crypto_hash(&self, state: &mut impl Digest) {
        state.update(self.to_be_bytes());
    }
}

impl CryptoHash for [u8] {
    fn crypto_hash(&self, state: &mut impl Digest) {
        state.update(self);
    }
}

impl CryptoHash for BlockDigest {
    fn crypto_hash(&self, state: &mut impl Digest) {
        state.update(self.0);
    }
}
