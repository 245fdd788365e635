//! Offers by document 01: what is refused, known, stored or pending, and in which order waiting blocks go in. Each
//! answer is compared with the text's block manager, releases as sets with parents first.

use std::{
    collections::{HashMap, HashSet},
    sync::Arc,
};

use mysticeti_core::{block_manager::BlockManager, committee::Committee};
use stream::{Block, Reference};

use crate::{
    limits::{Refusal, MAX_INCLUDES, MAX_ROUND},
    text,
};

/// How many blocks and includes there is room for.
#[derive(Clone, Copy)]
pub struct Room {
    pub blocks: usize,
    pub includes: usize,
}

/// What an offer is answered.
#[derive(Clone, Copy, Debug, PartialEq, Eq)]
pub enum Verdict {
    /// The number of rows by which the store grew.
    Stored(usize),
    Pending,
    Known,
    Refused(Refusal),
}

/// The accepted blocks: stored rows in the order they went in, pending ones in order of acceptance.
pub struct Offers {
    pub stored: Vec<Block>,
    pub pending: Vec<Block>,
    rows: HashMap<Reference, usize>,
    room: Room,
    authorities: u64,
    manager: BlockManager,
    manager_store: text::Store,
}

impl Offers {
    pub fn new(committee: &Arc<Committee>, room: Room) -> Self {
        let manager_store = text::Store::open(text::NOBODY, committee);
        Self {
            stored: vec![],
            pending: vec![],
            rows: HashMap::new(),
            room,
            authorities: committee.len() as u64,
            manager: BlockManager::new(manager_store.store.clone(), committee),
            manager_store,
        }
    }

    /// Takes one block in, and compares with the text.
    pub fn offer(&mut self, block: &Block) -> Verdict {
        if let Err(refusal) = check_block(block, self.authorities) {
            return Verdict::Refused(refusal);
        }
        if self.known(&block.reference) {
            assert!(self.ask_manager(block).is_empty(), "the text stores a known block");
            return Verdict::Known;
        }
        if self.accepted_blocks() == self.room.blocks
            || self.accepted_includes() + block.includes.len() > self.room.includes
        {
            return Verdict::Refused(Refusal::Full);
        }
        let verdict = self.accept(block.clone());
        self.compare(block, verdict);
        verdict
    }

    /// The row of a stored reference.
    pub fn row(&self, reference: &Reference) -> Option<usize> {
        self.rows.get(reference).copied()
    }

    pub fn room(&self) -> Room {
        self.room
    }

    /// The missing references of one authority, each once, in the order in which pending rows first name them.
    pub fn missing(&self, authority: u64) -> Vec<Reference> {
        let mut missing = vec![];
        for include in self.pending.iter().flat_map(|block| &block.includes) {
            if include.authority == authority && !self.known(include) && !missing.contains(include) {
                missing.push(*include);
            }
        }
        missing
    }

    fn known(&self, reference: &Reference) -> bool {
        self.rows.contains_key(reference) || self.pending.iter().any(|block| block.reference == *reference)
    }

    fn accepted_blocks(&self) -> usize {
        self.stored.len() + self.pending.len()
    }

    fn accepted_includes(&self) -> usize {
        let accepted = self.stored.iter().chain(&self.pending);
        accepted.map(|block| block.includes.len()).sum()
    }

    fn accept(&mut self, block: Block) -> Verdict {
        if !self.lacks_nothing(&block) {
            self.pending.push(block);
            return Verdict::Pending;
        }
        let before = self.stored.len();
        self.store(block);
        Verdict::Stored(self.stored.len() - before)
    }

    fn lacks_nothing(&self, block: &Block) -> bool {
        block.includes.iter().all(|include| self.rows.contains_key(include))
    }

    /// Stores a block, then the pending ones that include it and now lack nothing, earliest accepted first, each one's
    /// own followers before the next.
    fn store(&mut self, block: Block) {
        let reference = block.reference;
        self.rows.insert(reference, self.stored.len());
        self.stored.push(block);
        while let Some(next) = self.first_follower(&reference) {
            let follower = self.pending.remove(next);
            self.store(follower);
        }
    }

    fn first_follower(&self, reference: &Reference) -> Option<usize> {
        self.pending.iter().position(|block| block.includes.contains(reference) && self.lacks_nothing(block))
    }

    /// The references that the text's manager stores for this offer, in its own order.
    fn ask_manager(&mut self, block: &Block) -> Vec<Reference> {
        let text::Store { store, writer } = &mut self.manager_store;
        let added = self.manager.add_blocks(vec![text::block(block)], &mut (writer, &*store));
        added.iter().map(|(_, block)| text::our_reference(block.reference())).collect()
    }

    /// Ends the oracle unless the text's manager stores the same blocks, parents first, and misses the same references.
    fn compare(&mut self, block: &Block, verdict: Verdict) {
        let theirs = self.ask_manager(block);
        let growth = if let Verdict::Stored(growth) = verdict { growth } else { 0 };
        let ours = &self.stored[self.stored.len() - growth..];
        let places: HashMap<_, _> = theirs.iter().enumerate().map(|(i, reference)| (reference, i)).collect();
        assert!(
            theirs.len() == growth && ours.iter().all(|block| places.contains_key(&block.reference)),
            "the text stores other blocks"
        );
        for block in ours {
            let place = places[&block.reference];
            let parents_first =
                block.includes.iter().all(|include| places.get(include).is_none_or(|parent| *parent < place));
            assert!(parents_first, "the text stores a block before its parent");
        }
        self.compare_missing();
    }

    fn compare_missing(&self) {
        let mut theirs = HashSet::new();
        for (authority, references) in self.manager.missing_blocks().iter().enumerate() {
            assert!(references.iter().all(|reference| reference.authority == authority as u64));
            theirs.extend(references.iter().map(text::our_reference));
        }
        let named = self.pending.iter().flat_map(|block| &block.includes);
        let ours: HashSet<_> = named.filter(|include| !self.known(include)).copied().collect();
        assert!(ours == theirs, "the text misses other blocks");
    }
}

/// Refuses with 4 an offer whose numbers are out of range, or one with an include not below it.
pub fn check_block(block: &Block, authorities: u64) -> Result<(), Refusal> {
    let named = |reference: &Reference| reference.authority < authorities && reference.round <= MAX_ROUND;
    let good = named(&block.reference)
        && block.includes.len() <= MAX_INCLUDES
        && block.includes.iter().all(|include| named(include) && include.round < block.reference.round);
    good.then_some(()).ok_or(Refusal::BadArgument)
}
