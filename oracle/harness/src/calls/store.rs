//! The stored side by itself: queries and `linked`.

use std::collections::{BTreeSet, HashMap};

use mysticeti_core::{data::Data, types::StatementBlock};
use stream::{Block, Reference};

use super::{
    request::{padded, put_slice, Request},
    tables::StoredWords,
    Answer, Stop,
};
use crate::{
    limits::{Refusal, MAX_AUTHORITIES, MAX_ROUND},
    text::{self, NOBODY},
};

/// The rounds that the text may step through in one search of links.
pub const MAX_STEPS: u64 = 100_000;

/// A sound stored side with the text's store of the same blocks.
pub struct Stored {
    pub blocks: Vec<Block>,
    pub rows: HashMap<Reference, usize>,
    pub text: text::Store,
}

impl Stored {
    /// Of blocks of a sound stored side; the text's store is opened for `own`.
    pub fn new(blocks: Vec<Block>, own: u64) -> Self {
        let everybody = text::committee(&[1; MAX_AUTHORITIES as usize]);
        let mut text = text::Store::open(own, &everybody);
        blocks.iter().for_each(|block| text.insert(block));
        let rows = blocks.iter().enumerate().map(|(row, block)| (block.reference, row)).collect();
        Self { blocks, rows, text }
    }

    fn read(request: &mut Request) -> Result<Self, Stop> {
        let blocks = StoredWords::read(request).blocks(MAX_AUTHORITIES)?;
        Ok(Self::new(blocks, NOBODY))
    }

    pub fn row(&self, block: &StatementBlock) -> u64 {
        self.rows[&text::our_reference(block.reference())] as u64
    }

    pub fn text_block(&self, row: usize) -> Data<StatementBlock> {
        text::block(&self.blocks[row])
    }

    /// Rows ascending in an area, after their number.
    fn listed(&self, blocks: Vec<Data<StatementBlock>>, area: usize) -> Answer {
        let rows = blocks.iter().map(|block| self.row(block)).collect();
        listed_rows(rows, area)
    }
}

fn listed_rows(mut rows: Vec<u64>, area: usize) -> Answer {
    if rows.len() > area {
        return Err(Refusal::ShortArea.into());
    }
    rows.sort();
    let mut values = vec![rows.len() as u64];
    put_slice(&mut values, &padded(rows, area));
    Ok(values)
}

/// Refuses with 4 unless all hold.
fn argument(good: bool) -> Result<(), Refusal> {
    good.then_some(()).ok_or(Refusal::BadArgument)
}

fn authority(request: &mut Request) -> Result<u64, Refusal> {
    let authority = request.number();
    argument(authority < MAX_AUTHORITIES)?;
    Ok(authority)
}

fn round(request: &mut Request) -> Result<u64, Refusal> {
    let round = request.number();
    argument(round <= MAX_ROUND)?;
    Ok(round)
}

fn reference(request: &mut Request) -> Result<Reference, Refusal> {
    let reference = request.reference();
    argument(reference.authority < MAX_AUTHORITIES && reference.round <= MAX_ROUND)?;
    Ok(reference)
}

fn row(request: &mut Request, stored: &Stored) -> Result<usize, Refusal> {
    let row = request.index();
    argument(row < stored.blocks.len())?;
    Ok(row)
}

pub fn get_block(request: &mut Request) -> Answer {
    let stored = Stored::read(request)?;
    let found = stored.text.store.get_block(text::reference(&reference(request)?));
    Ok(vec![found.is_some() as u64, found.map_or(0, |block| stored.row(&block))])
}

pub fn block_exists(request: &mut Request) -> Answer {
    let stored = Stored::read(request)?;
    let reference = text::reference(&reference(request)?);
    Ok(vec![stored.text.store.block_exists(reference) as u64])
}

pub fn block_exists_at_authority_round(request: &mut Request) -> Answer {
    let stored = Stored::read(request)?;
    let (authority, round) = (authority(request)?, round(request)?);
    Ok(vec![stored.text.store.block_exists_at_authority_round(authority, round) as u64])
}

pub fn all_blocks_exists_at_authority_round(request: &mut Request) -> Answer {
    let stored = Stored::read(request)?;
    let authorities = request.slice();
    argument(authorities.iter().all(|authority| *authority < MAX_AUTHORITIES))?;
    let round = round(request)?;
    let all = stored.text.store.all_blocks_exists_at_authority_round(&authorities, round);
    Ok(vec![all as u64])
}

pub fn get_blocks_by_round(request: &mut Request) -> Answer {
    let stored = Stored::read(request)?;
    let round = round(request)?;
    stored.listed(stored.text.store.get_blocks_by_round(round), request.index())
}

pub fn get_blocks_at_authority_round(request: &mut Request) -> Answer {
    let stored = Stored::read(request)?;
    let (authority, round) = (authority(request)?, round(request)?);
    let blocks = stored.text.store.get_blocks_at_authority_round(authority, round);
    stored.listed(blocks, request.index())
}

pub fn get_own_blocks(request: &mut Request) -> Answer {
    let blocks = StoredWords::read(request).blocks(MAX_AUTHORITIES)?;
    let (own, from) = (authority(request)?, round(request)?);
    let (limit, area) = (request.index(), request.index());
    if has_twins(&blocks, own) {
        return listed_rows(own_rows(&blocks, own, from, limit), area);
    }
    let stored = Stored::new(blocks, own);
    stored.listed(stored.text.store.get_own_blocks(from, limit), area)
}

pub fn last_own_block_ref(request: &mut Request) -> Answer {
    let blocks = StoredWords::read(request).blocks(MAX_AUTHORITIES)?;
    let own = authority(request)?;
    let row = if has_twins(&blocks, own) {
        last_own_row(&blocks, own)
    } else {
        let stored = Stored::new(blocks, own);
        let last = stored.text.store.last_own_block_ref();
        last.map(|reference| stored.rows[&text::our_reference(&reference)])
    };
    Ok(vec![row.is_some() as u64, row.unwrap_or(0) as u64])
}

/// Whether this authority has two blocks of one round. The text panics on own twins.
fn has_twins(blocks: &[Block], own: u64) -> bool {
    let mut rounds = BTreeSet::new();
    let mut own_blocks = blocks.iter().filter(|block| block.reference.authority == own);
    !own_blocks.all(|block| rounds.insert(block.reference.round))
}

/// With own twins: all rows of the first `limit` own rounds above `from`.
fn own_rows(blocks: &[Block], own: u64, from: u64, limit: usize) -> Vec<u64> {
    let rows = blocks.iter().enumerate().filter(|(_, block)| block.reference.authority == own);
    let above: Vec<_> = rows.filter(|(_, block)| block.reference.round > from).collect();
    let rounds: BTreeSet<_> = above.iter().map(|(_, block)| block.reference.round).collect();
    let rounds: BTreeSet<_> = rounds.into_iter().take(limit).collect();
    let within = above.iter().filter(|(_, block)| rounds.contains(&block.reference.round));
    within.map(|(row, _)| *row as u64).collect()
}

/// With own twins: the lowest row of the highest own round, round 0 never.
fn last_own_row(blocks: &[Block], own: u64) -> Option<usize> {
    let mine = |block: &&Block| block.reference.authority == own && block.reference.round > 0;
    let highest = blocks.iter().filter(mine).map(|block| block.reference.round).max()?;
    blocks.iter().position(|block| mine(&block) && block.reference.round == highest)
}

pub fn get_others_blocks(request: &mut Request) -> Answer {
    let stored = Stored::read(request)?;
    let (from, authority) = (round(request)?, authority(request)?);
    let limit = request.index();
    let blocks = stored.text.store.get_others_blocks(from, authority, limit);
    stored.listed(blocks, request.index())
}

pub fn last_seen_by_authority(request: &mut Request) -> Answer {
    let stored = Stored::read(request)?;
    Ok(vec![stored.text.store.last_seen_by_authority(authority(request)?)])
}

pub fn len_expensive(request: &mut Request) -> Answer {
    Ok(vec![Stored::read(request)?.text.store.len_expensive() as u64])
}

pub fn highest_round(request: &mut Request) -> Answer {
    Ok(vec![Stored::read(request)?.text.store.highest_round()])
}

pub fn includes(request: &mut Request) -> Answer {
    let stored = Stored::read(request)?;
    let row = row(request, &stored)?;
    let block = stored.text_block(row);
    let rows: Vec<u64> =
        block.includes().iter().map(|include| stored.rows[&text::our_reference(include)] as u64).collect();
    let mut values = vec![];
    put_slice(&mut values, &rows);
    Ok(values)
}

pub fn linked(request: &mut Request) -> Answer {
    let stored = Stored::read(request)?;
    let (later, earlier) = (row(request, &stored)?, row(request, &stored)?);
    if request.index() < stored.blocks.len() {
        return Err(Refusal::ShortArea.into());
    }
    let (later, earlier) = (stored.text_block(later), stored.text_block(earlier));
    if later.round().saturating_sub(earlier.round()) > MAX_STEPS {
        return Err(Stop::LeftOut);
    }
    Ok(vec![stored.text.store.linked(&later, &earlier) as u64])
}
