//! The way into the original text and back: its values from ours, ours from its, and its panics as answers.

use std::{
    cell::Cell,
    panic::{self, AssertUnwindSafe},
    sync::{Arc, Once},
};

use mysticeti_core::{
    block_store::BlockStore,
    committee::Committee,
    crypto::{BlockDigest, SignatureBytes},
    data::Data,
    metrics::Metrics,
    types::{BlockReference, StatementBlock},
    wal::{WalReader, WalWriter},
};
use stream::{Block, Reference};

/// An own authority that no committee has, so that the store keeps no index of own blocks.
pub const NOBODY: u64 = u64::MAX;

/// The text's digest of four words, the first 64 bits in word 0.
fn digest(words: [u64; 4]) -> [u8; 32] {
    let mut bytes = [0; 32];
    for (part, word) in bytes.chunks_mut(8).zip(words) {
        part.copy_from_slice(&word.to_be_bytes());
    }
    bytes
}

/// The text's reference.
pub fn reference(ours: &Reference) -> BlockReference {
    BlockReference { authority: ours.authority, round: ours.round, digest: BlockDigest(digest(ours.digest)) }
}

/// Our reference.
pub fn our_reference(theirs: &BlockReference) -> Reference {
    let bytes = theirs.digest.0;
    let word = |i: usize| u64::from_be_bytes(bytes[8 * i..8 * i + 8].try_into().expect("eight bytes"));
    Reference { authority: theirs.authority, round: theirs.round, digest: [word(0), word(1), word(2), word(3)] }
}

/// The text's block, which has the digest of ours.
pub fn block(ours: &Block) -> Data<StatementBlock> {
    Data::new(StatementBlock::new(
        ours.reference.authority,
        ours.reference.round,
        ours.includes.iter().map(reference).collect(),
        vec![],
        0,
        false,
        SignatureBytes(digest(ours.reference.digest)),
    ))
}

/// The text's committee.
pub fn committee(stakes: &[u64]) -> Arc<Committee> {
    Committee::new_test(stakes.to_vec())
}

/// A store of the text with the blocks in it, and the writer its log goes through.
pub struct Store {
    pub store: BlockStore,
    pub writer: WalWriter,
}

impl Store {
    /// An empty store whose own authority is `own`.
    pub fn open(own: u64, committee: &Committee) -> Self {
        let writer = WalWriter::default();
        let metrics = Arc::new(Metrics::default());
        let recovered = BlockStore::open(own, Arc::new(WalReader), &writer, metrics, committee);
        Self { store: recovered.block_store, writer }
    }

    /// Puts a block in.
    pub fn insert(&mut self, ours: &Block) {
        let position = self.writer.advance();
        self.store.insert_block(block(ours), position);
    }
}

thread_local! {
    static CATCHING: Cell<bool> = const { Cell::new(false) };
}

/// What `work` gives, or the message it panicked with; a panic is not printed.
pub fn caught<T>(work: impl FnOnce() -> T) -> Result<T, String> {
    static HOOK: Once = Once::new();
    HOOK.call_once(|| {
        let usual = panic::take_hook();
        panic::set_hook(Box::new(move |info| {
            if !CATCHING.get() {
                usual(info);
            }
        }));
    });
    CATCHING.set(true);
    let result = panic::catch_unwind(AssertUnwindSafe(work));
    CATCHING.set(false);
    result.map_err(|payload| match payload.downcast::<String>() {
        Ok(message) => *message,
        Err(payload) => payload.downcast_ref::<&str>().unwrap_or(&"").to_string(),
    })
}

/// Which rule found two certified blocks.
#[derive(Clone, Copy, Debug, PartialEq, Eq)]
pub enum TwoCertified {
    Direct,
    Indirect,
}

/// What `work` gives, or which rule panicked on more than one certified block. Any other panic is a fault of the
/// oracle and ends it.
pub fn unless_two_certified<T>(work: impl FnOnce() -> T) -> Result<T, TwoCertified> {
    caught(work).map_err(|message| {
        if message.contains("More than one certified block for ") {
            TwoCertified::Direct
        } else if message.contains("More than one certified block at wave ") {
            TwoCertified::Indirect
        } else {
            panic!("the text panicked: {message}")
        }
    })
}
