//! The lent tables of document 01: sound ones as lists of blocks, lists of blocks as tables.

use std::collections::{HashMap, HashSet};

use stream::{Block, Reference};

use super::request::Request;
use crate::{
    limits::{Refusal, MAX_BLOCK_ROWS, MAX_INCLUDES, MAX_INCLUDE_ROWS, MAX_ROUND},
    offers::Room,
};

pub const BLOCK_WORDS: usize = 8;
pub const REFERENCE_WORDS: usize = 6;

/// The stored side of a request as it was lent.
pub struct StoredWords {
    pub blocks: Vec<u64>,
    pub includes: Vec<u64>,
    pub count: usize,
}

/// The pending side of a request as it was lent.
pub struct PendingWords {
    blocks: Vec<u64>,
    includes: Vec<u64>,
    count: usize,
}

impl StoredWords {
    pub fn read(request: &mut Request) -> Self {
        Self { blocks: request.slice(), includes: request.slice(), count: request.index() }
    }

    pub fn rows(&self) -> usize {
        self.blocks.len() / BLOCK_WORDS
    }

    /// The blocks of a sound stored side whose authorities are below `authorities`.
    pub fn blocks(&self, authorities: u64) -> Result<Vec<Block>, Refusal> {
        self.sound_blocks(authorities).ok_or(Refusal::BadTable)
    }

    fn sound_blocks(&self, authorities: u64) -> Option<Vec<Block>> {
        let rows = rows_of(&self.blocks, self.includes.len(), self.count, authorities)?;
        let mut blocks: Vec<Block> = vec![];
        let mut taken = HashSet::new();
        for row in &rows {
            let includes = &self.includes[row.first..row.first + row.count];
            let named = includes.iter().map(|include| blocks.get(*include as usize).map(|b| b.reference));
            let includes: Vec<Reference> = named.collect::<Option<_>>()?;
            if !below(&includes, row.reference.round) || !taken.insert(row.reference) {
                return None;
            }
            blocks.push(Block { reference: row.reference, includes });
        }
        let used = rows.iter().map(|row| row.count).sum::<usize>();
        zero_from(&self.includes, used).then_some(blocks)
    }
}

impl PendingWords {
    pub fn read(request: &mut Request) -> Self {
        Self { blocks: request.slice(), includes: request.slice(), count: request.index() }
    }
}

/// The room and the blocks of both sides, if they are sound together.
pub fn both_sides(
    stored: &StoredWords,
    pending: &PendingWords,
    authorities: u64,
) -> Result<(Room, Vec<Block>, Vec<Block>), Refusal> {
    let stored_blocks = stored.blocks(authorities)?;
    let room = Room { blocks: stored.rows(), includes: stored.includes.len() };
    let pending_blocks = sound_pending(pending, room, &stored_blocks, authorities).ok_or(Refusal::BadTable)?;
    Ok((room, stored_blocks, pending_blocks))
}

fn sound_pending(side: &PendingWords, room: Room, stored: &[Block], authorities: u64) -> Option<Vec<Block>> {
    if side.includes.len() != room.includes * REFERENCE_WORDS || side.blocks.len() != room.blocks * BLOCK_WORDS {
        return None;
    }
    let rows = rows_of(&side.blocks, room.includes, side.count, authorities)?;
    let mut taken: HashSet<Reference> = stored.iter().map(|block| block.reference).collect();
    let in_store = taken.clone();
    let mut blocks = vec![];
    for row in &rows {
        let words = &side.includes[row.first * REFERENCE_WORDS..(row.first + row.count) * REFERENCE_WORDS];
        let includes = references(words).ok()?;
        let known = includes.iter().all(|include| include.authority < authorities);
        let lacks = includes.iter().any(|include| !in_store.contains(include));
        if !known || !lacks || !below(&includes, row.reference.round) || !taken.insert(row.reference) {
            return None;
        }
        blocks.push(Block { reference: row.reference, includes });
    }
    let used = rows.iter().map(|row| row.count).sum::<usize>();
    let stored_includes = stored.iter().map(|block| block.includes.len()).sum::<usize>();
    let fits = stored.len() + blocks.len() <= room.blocks && stored_includes + used <= room.includes;
    (fits && zero_from(&side.includes, used * REFERENCE_WORDS)).then_some(blocks)
}

/// A block row whose numbers are within limits.
struct Row {
    reference: Reference,
    first: usize,
    count: usize,
}

/// The used rows, if lengths, numbers, stretches and unused words are sound.
fn rows_of(blocks: &[u64], includes: usize, count: usize, authorities: u64) -> Option<Vec<Row>> {
    let room = blocks.len() / BLOCK_WORDS;
    if blocks.len() % BLOCK_WORDS != 0 || room > MAX_BLOCK_ROWS || includes > MAX_INCLUDE_ROWS || count > room {
        return None;
    }
    let mut rows = vec![];
    let mut next = 0;
    for words in blocks.chunks(BLOCK_WORDS).take(count) {
        let reference = reference_of(words);
        let (first, count) = (words[6] as usize, words[7] as usize);
        let good =
            reference.authority < authorities && reference.round <= MAX_ROUND && first == next && count <= MAX_INCLUDES;
        if !good {
            return None;
        }
        next += count;
        rows.push(Row { reference, first, count });
    }
    (next <= includes && zero_from(blocks, count * BLOCK_WORDS)).then_some(rows)
}

fn below(includes: &[Reference], round: u64) -> bool {
    includes.iter().all(|include| include.round < round)
}

fn zero_from(words: &[u64], from: usize) -> bool {
    words[from..].iter().all(|word| *word == 0)
}

fn reference_of(words: &[u64]) -> Reference {
    Reference { authority: words[0], round: words[1], digest: [words[2], words[3], words[4], words[5]] }
}

/// The references of whole rows of six words.
pub fn references(words: &[u64]) -> Result<Vec<Reference>, Refusal> {
    if words.len() % REFERENCE_WORDS != 0 {
        return Err(Refusal::BadTable);
    }
    Ok(words.chunks(REFERENCE_WORDS).map(reference_of).collect())
}

pub fn put_reference(words: &mut Vec<u64>, reference: &Reference) {
    words.extend([reference.authority, reference.round]);
    words.extend(reference.digest);
}

/// The two tables of the stored side.
pub fn stored_tables(blocks: &[Block], room: Room) -> [Vec<u64>; 2] {
    let rows: HashMap<_, _> = blocks.iter().enumerate().map(|(row, block)| (block.reference, row as u64)).collect();
    let includes = blocks.iter().flat_map(|block| &block.includes).map(|include| rows[include]).collect();
    [block_table(blocks, room), super::request::padded(includes, room.includes)]
}

/// The two tables of the pending side.
pub fn pending_tables(blocks: &[Block], room: Room) -> [Vec<u64>; 2] {
    let mut includes = vec![];
    for include in blocks.iter().flat_map(|block| &block.includes) {
        put_reference(&mut includes, include);
    }
    [block_table(blocks, room), super::request::padded(includes, room.includes * REFERENCE_WORDS)]
}

fn block_table(blocks: &[Block], room: Room) -> Vec<u64> {
    let mut words = vec![];
    let mut first = 0;
    for block in blocks {
        put_reference(&mut words, &block.reference);
        words.extend([first, block.includes.len() as u64]);
        first += block.includes.len() as u64;
    }
    super::request::padded(words, room.blocks * BLOCK_WORDS)
}
