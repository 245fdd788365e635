//! In which order blocks are offered, and what is offered beside them.

use stream::{Block, Reference};

use crate::prng::Prng;

/// The highest round that the bits of a stream hold.
const HIGHEST_ROUND: u64 = (1 << 40) - 1;

/// The blocks in an order of arrival.
pub fn arrival(prng: &mut Prng, mut blocks: Vec<Block>) -> Vec<Block> {
    match prng.below(10) {
        0..=4 => {}
        5 => blocks.reverse(),
        6 => prng.shuffle(&mut blocks),
        7 => reverse_stretch(prng, &mut blocks),
        _ => delay_some(prng, &mut blocks),
    }
    blocks
}

/// The blocks in some order, but one of the first and perhaps some others only near the end, or never.
pub fn held_back(prng: &mut Prng, mut blocks: Vec<Block>) -> Vec<Block> {
    let mut held = vec![];
    for among in [4, 30, 128].into_iter().take(prng.from(1, 3) as usize) {
        let place = prng.below(among.min(blocks.len() as u64)) as usize;
        held.push(blocks.remove(place));
    }
    match prng.below(4) {
        0 => {}
        1 => prng.shuffle(&mut blocks),
        _ => blocks.reverse(),
    }
    prng.shuffle(&mut held);
    held.retain(|_| !prng.chance(8));
    for block in held {
        let after = if prng.chance(60) { 0 } else { prng.below(12) as usize };
        blocks.insert(blocks.len() - after, block);
    }
    blocks
}

/// Turns a stretch around.
fn reverse_stretch(prng: &mut Prng, blocks: &mut [Block]) {
    let end = blocks.len() as u64;
    let (a, b) = (prng.below(end + 1) as usize, prng.below(end + 1) as usize);
    blocks[a.min(b)..a.max(b)].reverse();
}

/// Moves a few blocks back by some places.
fn delay_some(prng: &mut Prng, blocks: &mut Vec<Block>) {
    for _ in 0..prng.from(1, 6) {
        if blocks.is_empty() {
            return;
        }
        let from = prng.below(blocks.len() as u64) as usize;
        let block = blocks.remove(from);
        let to = (from + prng.from(1, 12) as usize).min(blocks.len());
        blocks.insert(to, block);
    }
}

/// Puts duplicates and offers due refusal 4 between the others, and loses some.
pub fn disturb(prng: &mut Prng, size: u64, offers: &mut Vec<Block>) {
    for _ in 0..prng.below(4) {
        if offers.is_empty() {
            return;
        }
        let at = prng.below(offers.len() as u64) as usize;
        let later = prng.from(at as u64, offers.len() as u64) as usize;
        let copy = offers[at].clone();
        match prng.below(6) {
            0..=1 => offers.insert(later, copy),
            2 => offers.insert(later, with_other_includes(prng, copy)),
            3..=4 => {
                let bad = spoiled(prng, size, copy);
                offers.insert(later, bad);
            }
            _ => {
                offers.remove(at);
            }
        }
    }
}

fn with_other_includes(prng: &mut Prng, mut block: Block) -> Block {
    let Some(first) = block.includes.first().copied() else {
        return block;
    };
    if prng.chance(50) {
        block.includes.pop();
    } else {
        block.includes.push(first);
    }
    block
}

/// The block with one thing that is due refusal 4, if its size allows one.
pub fn spoiled(prng: &mut Prng, size: u64, mut block: Block) -> Block {
    let Reference { authority, round, digest } = block.reference;
    let unknown = prng.from(size, 127.max(size)).min(127);
    match prng.below(4) {
        0 => block.reference.authority = unknown,
        1 => block.includes.push(Reference { authority: unknown, round: round.saturating_sub(1), digest }),
        2 => block.includes.push(Reference { authority, round, digest: [digest[0], 7, 7, 7] }),
        _ => block.includes.insert(0, Reference { authority, round: (round + 1).min(HIGHEST_ROUND), digest }),
    }
    block
}
