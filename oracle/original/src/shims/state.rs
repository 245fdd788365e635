//! What opening a store recovers: the store alone, since the log is always empty.

use minibytes::Bytes;

use crate::{
    block_store::{BlockStore, CommitData, OwnBlockData},
    data::Data,
    types::StatementBlock,
    wal::WalPosition,
};

pub struct RecoveredState {
    pub block_store: BlockStore,
}

pub struct RecoveredStateBuilder;

impl RecoveredStateBuilder {
    #[allow(clippy::new_without_default)]
    pub fn new() -> Self {
        Self
    }

    pub fn block(&mut self, _position: WalPosition, _block: &Data<StatementBlock>) {}

    pub fn payload(&mut self, _position: WalPosition, _payload: Bytes) {}

    pub fn own_block(&mut self, _block: OwnBlockData) {}

    pub fn state(&mut self, _state: Bytes) {}

    pub fn commit_data(&mut self, _commits: Vec<CommitData>, _state: Bytes) {}

    pub fn build(self, block_store: BlockStore) -> RecoveredState {
        RecoveredState { block_store }
    }
}
