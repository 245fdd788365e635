//! Sound tables as lists of blocks.

use stream::{Block, Reference};

use super::{
    demand,
    line::{area, reference, reference_words, Line},
    BAD_TABLE,
};
use crate::Mistake;

/// The stored side: its blocks, rows and includes of room.
pub struct Stored {
    pub blocks: Vec<Block>,
    pub rows: usize,
    pub includes: usize,
}

/// A block row.
struct Row {
    reference: Reference,
    first: usize,
    count: usize,
}

/// The used rows of a block table, tested by themselves.
fn rows(line: &Line, blocks: &[u64], includes: usize, count: usize, authorities: u64) -> Result<Vec<Row>, u64> {
    let whole = blocks.len() % 8 == 0 || line.makes(Mistake::PartRowsAllowed);
    demand(whole && blocks.len() / 8 <= 65_536 && includes <= 1_048_576, BAD_TABLE)?;
    let room = blocks.len() / 8;
    demand(count <= room || line.makes(Mistake::CountUntested), BAD_TABLE)?;
    let count = count.min(room);
    let mut next = 0;
    let mut rows = vec![];
    for words in blocks.chunks(8).take(count) {
        let reference = reference(words);
        let (first, count) = (words[6], words[7]);
        let authority = reference.authority < authorities || line.makes(Mistake::AuthoritiesUntested);
        let round = reference.round < 1 << 40 || line.makes(Mistake::RoundsUntested);
        let follows = first == next || line.makes(Mistake::GapsAllowed);
        demand(authority && round && follows && count <= 511, BAD_TABLE)?;
        demand(first.saturating_add(count) <= includes as u64, BAD_TABLE)?;
        next = first + count;
        rows.push(Row { reference, first: first as usize, count: count as usize });
    }
    let unused_zero = blocks[8 * count..].iter().all(|word| *word == 0);
    demand(unused_zero || line.makes(Mistake::UnusedBlockWordsUntested), BAD_TABLE)?;
    Ok(rows)
}

/// The stored side of a request, tested.
pub fn stored(line: &mut Line, authorities: u64) -> Result<Stored, u64> {
    let (blocks, includes, count) = (line.slice(), line.slice(), line.length());
    let rows = rows(line, &blocks, includes.len(), count, authorities)?;
    let mut stored: Vec<Block> = vec![];
    for (place, row) in rows.iter().enumerate() {
        let named = &includes[row.first..row.first + row.count];
        let later = line.makes(Mistake::LaterRowsAllowed);
        let limit = if later { rows.len() } else { place } as u64;
        demand(named.iter().all(|include| *include < limit), BAD_TABLE)?;
        let named: Vec<_> = named.iter().map(|include| rows[*include as usize].reference).collect();
        let below = named.iter().all(|include| include.round < row.reference.round);
        demand(below || line.makes(Mistake::IncludeRoundUntested), BAD_TABLE)?;
        let taken = stored.iter().any(|block| block.reference == row.reference);
        demand(!taken || line.makes(Mistake::DuplicatesAllowed), BAD_TABLE)?;
        stored.push(Block { reference: row.reference, includes: named });
    }
    let used = rows.last().map_or(0, |row| row.first + row.count);
    let unused_zero = includes[used..].iter().all(|word| *word == 0);
    demand(unused_zero || line.makes(Mistake::UnusedIncludesUntested), BAD_TABLE)?;
    Ok(Stored { blocks: stored, rows: blocks.len() / 8, includes: includes.len() })
}

/// The pending side of a request, tested together with the stored one.
pub fn pending(line: &mut Line, stored: &Stored, authorities: u64) -> Result<Vec<Block>, u64> {
    let (blocks, includes, count) = (line.slice(), line.slice(), line.length());
    let same_room = blocks.len() / 8 == stored.rows && includes.len() / 6 == stored.includes;
    let whole = includes.len() % 6 == 0 || line.makes(Mistake::PartRowsAllowed);
    demand(whole && (same_room || line.makes(Mistake::SidesMayDiffer)), BAD_TABLE)?;
    let rows = rows(line, &blocks, includes.len() / 6, count, authorities)?;
    let mut pending: Vec<Block> = vec![];
    for row in &rows {
        let named: Vec<_> = includes[6 * row.first..6 * (row.first + row.count)].chunks(6).map(reference).collect();
        let good = |include: &Reference| include.authority < authorities && include.round < row.reference.round;
        demand(named.iter().all(good) || line.makes(Mistake::PendingIncludesUntested), BAD_TABLE)?;
        let in_store = |include: &Reference| stored.blocks.iter().any(|block| block.reference == *include);
        let ready = named.iter().all(in_store);
        demand(!ready || line.makes(Mistake::ReadyPendingAllowed), BAD_TABLE)?;
        demand(!in_store(&row.reference) || line.makes(Mistake::SharedReferenceAllowed), BAD_TABLE)?;
        let twice = pending.iter().any(|block| block.reference == row.reference);
        demand(!twice || line.makes(Mistake::DuplicatesAllowed), BAD_TABLE)?;
        pending.push(Block { reference: row.reference, includes: named });
    }
    let used = rows.last().map_or(0, |row| 6 * (row.first + row.count));
    let unused_zero = includes[used..].iter().all(|word| *word == 0);
    demand(unused_zero || line.makes(Mistake::UnusedIncludesUntested), BAD_TABLE)?;
    let carried: usize = stored.blocks.iter().chain(&pending).map(|block| block.includes.len()).sum();
    let fits = stored.blocks.len() + pending.len() <= stored.rows && carried <= stored.includes;
    demand(fits || line.makes(Mistake::TogetherUntested), BAD_TABLE)?;
    Ok(pending)
}

fn block_words(blocks: &[Block]) -> Vec<u64> {
    let mut words = vec![];
    let mut first = 0;
    for block in blocks {
        words.extend(reference_words(&block.reference));
        words.extend([first, block.includes.len() as u64]);
        first += block.includes.len() as u64;
    }
    words
}

/// The four tables of both sides as a response shows them.
pub fn tables(stored: &[Block], pending: &[Block], rows: usize, includes: usize) -> Vec<u64> {
    let row_of = |include: &Reference| stored.iter().position(|block| block.reference == *include);
    let named = stored.iter().flat_map(|block| &block.includes);
    let include_rows = named.map(|include| row_of(include).unwrap_or(0) as u64).collect();
    let references = pending.iter().flat_map(|block| &block.includes).flat_map(reference_words).collect();
    let mut values = area(block_words(stored), 8 * rows);
    values.extend(area(include_rows, includes));
    values.extend(area(block_words(pending), 8 * rows));
    values.extend(area(references, 6 * includes));
    values
}
