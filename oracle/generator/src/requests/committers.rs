//! Arguments of elections, decisions, `try_commit` and the linearizer.

use super::{
    committees::committee_of,
    tables::{few, many, Accepted},
    Argument::{self, Area, Number, Slice},
};
use crate::{header::Setting, prng::Prng};

/// The options of one base committer.
struct Base {
    wave_length: u64,
    leader_offset: u64,
    round_offset: u64,
    pipelined: bool,
}

impl Base {
    /// One of the committers of a setting.
    fn of(prng: &mut Prng, setting: &Setting) -> Self {
        let header = &setting.header;
        Self {
            wave_length: header.wave_length,
            leader_offset: prng.below(header.leaders),
            round_offset: if header.pipelined { prng.below(header.wave_length) } else { 0 },
            pipelined: header.pipelined,
        }
    }

    fn arguments(&self) -> [Argument; 4] {
        let numbers = [self.wave_length, self.leader_offset, self.round_offset, self.pipelined as u64];
        numbers.map(Number)
    }

    /// A position that it elects, seldom another.
    fn position(&self, prng: &mut Prng, size: u64, highest: u64) -> (u64, u64) {
        let wave = prng.below(highest / self.wave_length + 1);
        let round = wave * self.wave_length + self.round_offset;
        let authority = (round + self.leader_offset) % size;
        match prng.below(40) {
            0 => (authority + 1, round),
            1 => (authority, round + 1),
            _ => (authority, round),
        }
    }
}

fn highest(accepted: &Accepted) -> u64 {
    accepted.stored.iter().map(|block| block.reference.round).max().unwrap_or(0)
}

fn decidable(prng: &mut Prng) -> Accepted {
    let world = many(prng);
    Accepted::stored(prng, world)
}

pub fn election(prng: &mut Prng) -> Vec<Argument> {
    let setting = few(prng).setting;
    let base = Base::of(prng, &setting);
    let mut arguments = committee_of(&setting.header.stakes);
    arguments.extend(base.arguments());
    let (_, round) = base.position(prng, setting.size(), 60);
    let round = if prng.chance(10) { (1 << 40) - prng.below(64) } else { round + prng.below(3) / 2 };
    arguments.push(Number(round));
    arguments
}

/// Committee, options, stored side and a position.
fn decision(prng: &mut Prng) -> (Accepted, (u64, u64), u64, Vec<Argument>) {
    let accepted = decidable(prng);
    let base = Base::of(prng, &accepted.setting);
    let position = base.position(prng, accepted.setting.size(), highest(&accepted).min(1000));
    let mut arguments = committee_of(&accepted.setting.header.stakes);
    arguments.extend(base.arguments());
    arguments.extend(accepted.stored_side());
    arguments.extend([Number(position.0), Number(position.1)]);
    (accepted, position, base.wave_length, arguments)
}

pub fn direct(prng: &mut Prng) -> Vec<Argument> {
    decision(prng).3
}

/// A decision with a list of statuses, most of them above the wave, and work bytes.
pub fn indirect(prng: &mut Prng) -> Vec<Argument> {
    let (accepted, (_, round), wave_length, mut arguments) = decision(prng);
    let count = prng.below(4);
    let statuses = (0..count).flat_map(|_| status(prng, &accepted, round + wave_length, 3));
    arguments.push(Slice(statuses.collect()));
    arguments.push(Area(accepted.stored.len() as u64 + *prng.pick(&[0, 0, 3])));
    arguments
}

/// A status whose kind is at most `kinds`, most of the time from this round on.
fn status(prng: &mut Prng, accepted: &Accepted, from: u64, kinds: u64) -> [u64; 4] {
    let least = if prng.chance(80) { from } else { 0 };
    let blocks: Vec<_> = accepted.stored.iter().enumerate().filter(|(_, b)| b.reference.round >= least).collect();
    if !blocks.is_empty() && prng.chance(65) {
        let (row, block) = prng.pick(&blocks);
        return [block.reference.authority, block.reference.round, 1, *row as u64];
    }
    [prng.below(accepted.setting.size()), least + prng.below(4), prng.from(2, kinds), 0]
}

/// A status of a position near 0/0.
pub fn one_status(prng: &mut Prng) -> Vec<Argument> {
    let words = [prng.below(3), prng.below(3), prng.from(1, 3), prng.below(3)];
    words.map(Number).to_vec()
}

pub fn two_statuses(prng: &mut Prng) -> Vec<Argument> {
    [one_status(prng), one_status(prng)].concat()
}

fn options(setting: &Setting) -> [Argument; 3] {
    let header = &setting.header;
    [header.wave_length, header.leaders, header.pipelined as u64].map(Number)
}

pub fn leaders(prng: &mut Prng) -> Vec<Argument> {
    let setting = few(prng).setting;
    let header = &setting.header;
    let mut arguments = committee_of(&header.stakes);
    arguments.extend(options(&setting));
    let round = prng.below(10) * header.wave_length + prng.below(3) / 2;
    let round = if prng.chance(5) { (1 << 40) - prng.below(64) } else { round };
    let area = (header.leaders + *prng.pick(&[0, 0, 1, 2, 5])).saturating_sub(1);
    arguments.extend([Number(round), Area(area)]);
    arguments
}

pub fn commit(prng: &mut Prng) -> Vec<Argument> {
    let accepted = decidable(prng);
    let header = accepted.setting.header.clone();
    let highest = highest(&accepted);
    let mut arguments = committee_of(&header.stakes);
    arguments.extend(options(&accepted.setting));
    arguments.extend(accepted.stored_side());
    arguments.extend(memory(prng, &accepted));
    let (authority, last) = last_decided(prng, &accepted, highest);
    let threshold = match prng.below(12) {
        0 => highest.saturating_sub(prng.below(6)),
        1 => prng.below(highest + 8),
        _ => highest + prng.below(3),
    };
    let examined = highest.min(threshold.saturating_sub(header.wave_length)) + 1;
    let most = examined.saturating_sub(last).saturating_mul(header.leaders);
    let answer = if most > 2000 { 4 * prng.below(20) } else { 4 * most };
    let answer = if prng.chance(8) { answer / 8 * 4 } else { answer + *prng.pick(&[0, 0, 4, 8]) };
    let stored = accepted.stored.len() as u64;
    let work = if prng.chance(4) { stored / 2 } else { stored + *prng.pick(&[0, 0, 0, 2]) };
    let authority = if prng.chance(3) { accepted.setting.size() } else { authority };
    arguments.extend([authority, last, threshold].map(Number));
    arguments.extend([Area(answer), Area(work)]);
    arguments
}

/// A position that is elected, most of the time 0/0.
fn last_decided(prng: &mut Prng, accepted: &Accepted, highest: u64) -> (u64, u64) {
    let header = &accepted.setting.header;
    let wave = if header.pipelined { 1 } else { header.wave_length };
    let round = prng.below(highest.min(1000) / wave + 1) * wave;
    let size = accepted.setting.size();
    match prng.below(10) {
        0..=6 => (0, 0),
        7..=8 => ((round + prng.below(header.leaders)) % size, round),
        _ => (prng.below(size), prng.below(highest.min(1000) + 2)),
    }
}

/// A few decisions, nearly always distinct, and room for some more.
fn memory(prng: &mut Prng, accepted: &Accepted) -> [Argument; 2] {
    let mut rows: Vec<[u64; 4]> = vec![];
    let count = if prng.chance(60) { 0 } else { prng.from(1, 5) };
    for _ in 0..count {
        let kinds = if prng.chance(2) { 3 } else { 2 };
        let row = status(prng, accepted, 0, kinds);
        if !rows.iter().any(|other| other[..2] == row[..2]) || prng.chance(4) {
            rows.push(row);
        }
    }
    let count = rows.len();
    let mut words = rows.concat();
    let more = *prng.pick(&[0, 1, 2, 5, 40, 80, 80]);
    words.resize(4 * (count + more), 0);
    [Slice(words), Number(count as u64)]
}

/// Flags, leader rows and the three areas.
pub fn linearize(prng: &mut Prng) -> Vec<Argument> {
    let world = if prng.chance(60) { few(prng) } else { many(prng) };
    let accepted = Accepted::stored(prng, world);
    let stored = accepted.stored.len() as u64;
    let flagged = *prng.pick(&[0, 0, 5, 20]);
    let mut flags: Vec<u64> = (0..stored).map(|_| u64::from(prng.chance(flagged))).collect();
    flags.resize(accepted.rows(), 0);
    let count = prng.below(4);
    let mut leaders: Vec<u64> = (0..count).map(|_| accepted.row(prng)).collect();
    if prng.chance(70) {
        leaders.sort();
    }
    let ends = (count + *prng.pick(&[0, 1, 1, 1, 3])).saturating_sub(u64::from(prng.chance(20)));
    let mut arguments = accepted.stored_side();
    arguments.extend([Slice(flags), Slice(leaders)]);
    arguments.extend([Area(stored + prng.below(2)), Area(ends), Area(stored + prng.below(2))]);
    arguments
}
