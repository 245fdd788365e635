//! Sound tables of blocks.

use std::collections::{HashMap, HashSet};

use stream::{Block, Reference};

use super::Argument::{self, Number, Slice};
use crate::{dags, dags::World, header::Setting, prng::Prng};

/// Accepted blocks, the references still missing, and the room around them.
pub struct Accepted {
    pub setting: Setting,
    pub stored: Vec<Block>,
    pub pending: Vec<Block>,
    pub absent: Vec<Block>,
    rows: usize,
    includes: usize,
}

/// A few blocks of few authorities.
pub fn few(prng: &mut Prng) -> World {
    let mut world = dags::small(prng);
    let most = prng.from(0, 14) as usize;
    world.blocks.truncate(most);
    world
}

/// Blocks among which something can be decided.
pub fn many(prng: &mut Prng) -> World {
    let shape = prng.weighted(&[
        (6, dags::small as fn(&mut Prng) -> World),
        (10, dags::rounds),
        (5, dags::split),
        (5, dags::blind_split),
        (2, dags::late_split),
        (1, dags::jump),
        (1, dags::full_memory),
    ]);
    let mut world = shape(prng);
    world.blocks.truncate(70);
    world
}

impl Accepted {
    /// All blocks stored.
    pub fn stored(prng: &mut Prng, world: World) -> Self {
        Self::without(prng, world, vec![])
    }

    /// Some blocks left out, so that others wait.
    pub fn some(prng: &mut Prng, mut world: World) -> Self {
        let mut absent = vec![];
        for _ in 0..prng.from(1, 3) {
            if !world.blocks.is_empty() {
                let lost = prng.below(world.blocks.len() as u64) as usize;
                absent.push(world.blocks.remove(lost));
            }
        }
        Self::without(prng, world, absent)
    }

    fn without(prng: &mut Prng, world: World, absent: Vec<Block>) -> Self {
        let (stored, mut pending) = parted(prng, world.blocks);
        if prng.chance(50) {
            prng.shuffle(&mut pending);
        }
        let mut accepted = Self { setting: world.setting, stored, pending, absent, rows: 0, includes: 0 };
        accepted.make_room(prng);
        if prng.chance(4) {
            accepted.share_a_reference();
        }
        if prng.chance(3) && !accepted.stored.is_empty() {
            let [a, b] = [(); 2].map(|_| prng.below(accepted.stored.len() as u64) as usize);
            accepted.stored.swap(a, b);
        }
        accepted
    }

    /// Room for all blocks and a few more, seldom for each side only.
    fn make_room(&mut self, prng: &mut Prng) {
        let carried = |blocks: &[Block]| blocks.iter().map(|block| block.includes.len()).sum::<usize>();
        let (stored, pending) = (carried(&self.stored), carried(&self.pending));
        self.rows = self.stored.len() + self.pending.len() + *prng.pick(&[0, 1, 1, 2, 3]);
        self.includes = stored + pending + *prng.pick(&[0, 1, 2, 4, 8, 12]);
        if prng.chance(4) {
            self.rows = self.stored.len().max(self.pending.len());
        } else if prng.chance(4) {
            self.includes = stored.max(pending);
        }
    }

    /// Gives a pending block the reference of a stored one.
    fn share_a_reference(&mut self) {
        for block in &mut self.pending {
            let fits = |stored: &&Block| block.includes.iter().all(|i| i.round < stored.reference.round);
            if let Some(stored) = self.stored.iter().find(fits) {
                block.reference = stored.reference;
                return;
            }
        }
    }

    pub fn rows(&self) -> usize {
        self.rows
    }

    /// The stored side: blocks, includes, count.
    pub fn stored_side(&self) -> Vec<Argument> {
        let stored = self.stored.iter().enumerate();
        let rows: HashMap<_, _> = stored.map(|(row, block)| (block.reference, row as u64)).collect();
        let includes = self.stored.iter().flat_map(|block| &block.includes);
        let includes = includes.map(|include| rows[include]).collect();
        vec![
            Slice(padded(block_rows(&self.stored), 8 * self.rows)),
            Slice(padded(includes, self.includes)),
            Number(self.stored.len() as u64),
        ]
    }

    /// The pending side: blocks, includes, count.
    pub fn pending_side(&self) -> Vec<Argument> {
        let includes = self.pending.iter().flat_map(|block| &block.includes);
        let includes = includes.flat_map(reference_words).collect();
        vec![
            Slice(padded(block_rows(&self.pending), 8 * self.rows)),
            Slice(padded(includes, 6 * self.includes)),
            Number(self.pending.len() as u64),
        ]
    }

    /// A stored reference, or one like it.
    pub fn reference(&self, prng: &mut Prng) -> Reference {
        let any = Reference { authority: prng.below(4), round: prng.below(6), digest: [0; 4] };
        if self.stored.is_empty() {
            return any;
        }
        let mut reference = prng.pick(&self.stored).reference;
        match prng.below(8) {
            0 => reference.digest[prng.below(4) as usize] ^= 1 << prng.below(64),
            1 => reference.round += 1,
            2 => reference.authority = prng.below(128),
            _ => {}
        }
        reference
    }

    /// A stored row, seldom the one after the last.
    pub fn row(&self, prng: &mut Prng) -> u64 {
        let stored = self.stored.len() as u64;
        if stored == 0 || prng.chance(3) {
            stored
        } else {
            prng.below(stored)
        }
    }
}

/// The blocks whose ancestors are all there, parents first, and the others. Now and then the order is not by round.
fn parted(prng: &mut Prng, mut blocks: Vec<Block>) -> (Vec<Block>, Vec<Block>) {
    if prng.chance(40) {
        prng.shuffle(&mut blocks);
    }
    let mut stored: Vec<Block> = vec![];
    let mut placed: HashSet<Reference> = HashSet::new();
    while let Some(next) = blocks.iter().position(|block| block.includes.iter().all(|i| placed.contains(i))) {
        let block = blocks.remove(next);
        placed.insert(block.reference);
        stored.push(block);
    }
    (stored, blocks)
}

/// The six words of a reference.
pub fn reference_words(reference: &Reference) -> [u64; 6] {
    let [a, b, c, d] = reference.digest;
    [reference.authority, reference.round, a, b, c, d]
}

/// A reference as arguments.
pub fn reference_arguments(reference: &Reference) -> Vec<Argument> {
    reference_words(reference).map(Number).to_vec()
}

/// The rows of a block table.
pub fn block_rows(blocks: &[Block]) -> Vec<u64> {
    let mut words = vec![];
    let mut first = 0;
    for block in blocks {
        words.extend(reference_words(&block.reference));
        words.extend([first, block.includes.len() as u64]);
        first += block.includes.len() as u64;
    }
    words
}

fn padded(mut words: Vec<u64>, length: usize) -> Vec<u64> {
    words.resize(length, 0);
    words
}
