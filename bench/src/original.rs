//! The original text's side: its store, manager, clock, committer and linearizer, fed with the rows of a DAG.

use std::{collections::HashMap, sync::Arc};

use mysticeti_core::{
    block_manager::BlockManager,
    block_store::BlockStore,
    committee::Committee,
    consensus::{
        linearizer::Linearizer,
        universal_committer::{access, UniversalCommitter, UniversalCommitterBuilder},
        LeaderStatus,
    },
    crypto::{BlockDigest, SignatureBytes},
    data::Data,
    metrics::Metrics,
    threshold_clock::ThresholdClockAggregator,
    types::{BlockReference, StatementBlock},
    wal::{WalReader, WalWriter},
};

use crate::dag::{Dag, Row};

/// An own authority that no committee has.
const NOBODY: u64 = u64::MAX;

fn reference(row: &Row) -> BlockReference {
    let mut bytes = [0; 32];
    for (part, word) in bytes.chunks_mut(8).zip(row.digest) {
        part.copy_from_slice(&word.to_be_bytes());
    }
    BlockReference { authority: row.authority, round: row.round, digest: BlockDigest(bytes) }
}

pub struct Original {
    committee: Arc<Committee>,
    metrics: Arc<Metrics>,
    pub store: BlockStore,
    manager: BlockManager,
    writer: WalWriter,
    pub clock: ThresholdClockAggregator,
    pub linearizer: Linearizer,
    /// The decisions that the committer has reached.
    pub decisions: Vec<LeaderStatus>,
    /// The last decided position.
    pub last: (u64, u64),
    pub blocks: Vec<Data<StatementBlock>>,
    rows: HashMap<BlockReference, usize>,
    wave_length: u64,
}

impl Original {
    /// Nothing is stored yet.
    pub fn new(dag: &Dag, wave_length: u64) -> Original {
        let committee = Committee::new_test(vec![1; dag.shape.size]);
        let metrics = Arc::new(Metrics::default());
        let writer = WalWriter::default();
        let store = BlockStore::open(NOBODY, Arc::new(WalReader), &writer, metrics.clone(), &committee).block_store;
        let references: Vec<BlockReference> = dag.rows.iter().map(reference).collect();
        let block = |(row, r): (&Row, &BlockReference)| {
            let includes = row.includes.iter().map(|i| references[*i]).collect();
            let signature = SignatureBytes(r.digest.0);
            Data::new(StatementBlock::new(r.authority, r.round, includes, vec![], 0, false, signature))
        };
        Original {
            manager: BlockManager::new(store.clone(), &committee),
            clock: ThresholdClockAggregator::new(0),
            linearizer: Linearizer::new(),
            decisions: vec![],
            last: (0, 0),
            blocks: dag.rows.iter().zip(&references).map(block).collect(),
            rows: references.iter().enumerate().map(|(row, r)| (*r, row)).collect(),
            committee,
            metrics,
            store,
            writer,
            wave_length,
        }
    }

    pub fn row(&self, block: &Data<StatementBlock>) -> usize {
        self.rows[block.reference()]
    }

    /// Offers a block: by how many the store grew.
    pub fn add_block(&mut self, block: Data<StatementBlock>) -> usize {
        self.manager.add_blocks(vec![block], &mut (&mut self.writer, &self.store)).len()
    }

    /// Tells the clock of a stored row.
    pub fn tick(&mut self, row: usize) {
        self.clock.add_block(*self.blocks[row].reference(), &self.committee);
    }

    /// A pipelined committer of one leader, with the decisions reached so far.
    pub fn committer(&self) -> UniversalCommitter {
        let mut committer =
            UniversalCommitterBuilder::new(self.committee.clone(), self.store.clone(), self.metrics.clone())
                .with_wave_length(self.wave_length)
                .with_number_of_leaders(1)
                .with_pipeline(true)
                .build();
        for status in &self.decisions {
            access::remember(&mut committer, status.clone());
        }
        committer
    }

    pub fn last_decided(&self) -> BlockReference {
        BlockReference { authority: self.last.0, round: self.last.1, digest: BlockDigest::default() }
    }

    /// Takes over what a call of try_commit gave and remembered.
    pub fn settle(&mut self, committer: &UniversalCommitter, given: &[LeaderStatus]) {
        let size = self.committee.len() as u64;
        for round in self.last.1..=self.store.highest_round() {
            let leader = round % size;
            let known = self.decisions.iter().rev().any(|s| (s.authority(), s.round()) == (leader, round));
            if let (false, Some(status)) = (known, access::remembered(committer, leader, round)) {
                self.decisions.push(status.clone());
            }
        }
        if let Some(status) = given.last() {
            self.last = (status.authority(), status.round());
        }
    }

    /// What a committer of one leader remembers, round by round, as the port's words.
    pub fn remembered(&self, committer: &UniversalCommitter) -> Vec<u64> {
        let size = self.committee.len() as u64;
        let status = |round: u64| access::remembered(committer, round % size, round);
        let words: Vec<u64> =
            (0..=self.store.highest_round()).filter_map(status).flat_map(|s| self.status_words(s)).collect();
        assert_eq!(words.len(), access::count(committer) * 4);
        words
    }

    /// A status as the port's four words.
    pub fn status_words(&self, status: &LeaderStatus) -> [u64; 4] {
        let (kind, row) = match status {
            LeaderStatus::Commit(block) => (1, self.row(block) as u64),
            LeaderStatus::Skip(..) => (2, 0),
            LeaderStatus::Undecided(..) => (3, 0),
        };
        [status.authority(), status.round(), kind, row]
    }
}
