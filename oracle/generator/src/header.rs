//! Committees and options.

use stream::Header;

use crate::prng::Prng;

/// A header with the few authorities that make most of the blocks: together they are a quorum.
#[derive(Clone)]
pub struct Setting {
    pub header: Header,
    pub active: Vec<u64>,
}

impl Setting {
    pub fn size(&self) -> u64 {
        self.header.stakes.len() as u64
    }
}

/// A good header of any kind.
pub fn any(prng: &mut Prng) -> Setting {
    let size = match prng.below(20) {
        0..=1 => 1,
        2..=10 => prng.from(2, 4),
        11..=15 => prng.from(5, 31),
        16..=18 => prng.from(32, 127),
        _ => 128,
    };
    let wave_length = match prng.below(20) {
        0..=9 => 4,
        10..=14 => 5,
        15..=17 => prng.from(6, 15),
        18 => prng.from(16, 62),
        _ => 63,
    };
    let pipelined = prng.chance(65);
    with(prng, size, wave_length, pipelined)
}

/// A good header of this size, wave length and kind.
pub fn with(prng: &mut Prng, size: u64, wave_length: u64, pipelined: bool) -> Setting {
    let most = if wave_length > 12 { 2 } else { 5 };
    let active = active(prng, size, most);
    let leaders = match prng.below(10) {
        0..=4 => 1,
        5..=7 => prng.from(1, size.min(4)),
        8 => prng.from(1, size),
        _ => size,
    };
    let stakes = stakes(prng, size, &active);
    Setting { header: Header { stakes, wave_length, pipelined, leaders }, active }
}

/// Up to `most` authorities.
fn active(prng: &mut Prng, size: u64, most: u64) -> Vec<u64> {
    let mut all: Vec<u64> = (0..size).collect();
    prng.shuffle(&mut all);
    let least = size.min(most).min(if prng.chance(75) { 3 } else { 1 });
    let count = prng.from(least, size.min(most));
    all.truncate(count as usize);
    all.sort();
    all
}

fn stakes(prng: &mut Prng, size: u64, active: &[u64]) -> Vec<u64> {
    let all_active = active.len() as u64 == size;
    let unit = if all_active { 1 } else { 3 * size };
    let kind = prng.below(8);
    let mut stakes: Vec<u64> = (0..size)
        .map(|authority| {
            if !active.contains(&authority) {
                return 1;
            }
            match kind {
                0..=3 => unit,
                4..=5 => unit * prng.from(1, 4),
                _ => unit + prng.below(unit + 1),
            }
        })
        .collect();
    if prng.chance(8) {
        fill_up(prng, &mut stakes);
    }
    stakes
}

/// Multiplies the stakes and adds the rest to one of them, so that the total is the limit.
fn fill_up(prng: &mut Prng, stakes: &mut [u64]) {
    let limit = (1u64 << 63) - 1;
    let factor = limit / stakes.iter().sum::<u64>();
    stakes.iter_mut().for_each(|stake| *stake *= factor);
    let rest = limit - stakes.iter().sum::<u64>();
    let lucky = prng.below(stakes.len() as u64) as usize;
    stakes[lucky] += rest;
}
