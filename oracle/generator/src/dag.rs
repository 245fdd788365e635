//! Blocks that include each other, in the order in which they were made: parents first.

use std::collections::{BTreeMap, HashSet};

use stream::{Block, Reference};

use crate::{header::Setting, prng::Prng};

/// The program's room.
const BLOCKS: usize = 128;
const INCLUDES: usize = 256;

/// How digests are chosen.
#[derive(Clone, Copy)]
enum Digests {
    /// Zero, counting up for twins.
    Zero,
    /// Any 256 bits.
    Random,
    /// One word differs.
    OneWord(usize),
}

/// How blocks of a round are made.
#[derive(Clone)]
pub struct Habits {
    /// Percent of the active authorities that make a block in a round.
    pub present: u64,
    /// Percent of the blocks of the round below that a block includes.
    pub strong: u64,
    /// Percent of blocks that also include an older block.
    pub weak: u64,
    /// Percent of blocks that repeat an include.
    pub repeat: u64,
    /// Percent of blocks that get a twin.
    pub twin: u64,
    /// Percent of blocks that pass over the round below.
    pub lag: u64,
    /// Percent of rounds in which some other authority makes a block.
    pub guest: u64,
    /// Percent of rounds that nobody makes a block for.
    pub empty: u64,
}

impl Habits {
    pub fn any(prng: &mut Prng) -> Self {
        let mut rare = |low: u64, high: u64| if prng.chance(50) { 0 } else { prng.from(low, high) };
        let (weak, repeat, twin, lag, guest, empty) =
            (rare(5, 30), rare(5, 20), rare(5, 35), rare(5, 25), rare(10, 60), rare(2, 15));
        Self {
            present: *prng.pick(&[100, 100, 90, 80, 65]),
            strong: *prng.pick(&[100, 100, 90, 75, 60, 45]),
            weak,
            repeat,
            twin,
            lag,
            guest,
            empty,
        }
    }
}

/// The blocks made so far.
pub struct Dag {
    pub blocks: Vec<Block>,
    includes: usize,
    rounds: BTreeMap<u64, Vec<Reference>>,
    taken: HashSet<Reference>,
    digests: Digests,
}

impl Dag {
    pub fn new(prng: &mut Prng) -> Self {
        let digests = match prng.below(4) {
            0..=1 => Digests::Zero,
            2 => Digests::Random,
            _ => Digests::OneWord(prng.below(4) as usize),
        };
        Self { blocks: vec![], includes: 0, rounds: BTreeMap::new(), taken: HashSet::new(), digests }
    }

    /// Makes a block that has a reference of its own.
    pub fn make(&mut self, prng: &mut Prng, authority: u64, round: u64, includes: Vec<Reference>) -> Reference {
        let reference = self.fresh(prng, authority, round);
        self.includes += includes.len();
        self.taken.insert(reference);
        self.rounds.entry(round).or_default().push(reference);
        self.blocks.push(Block { reference, includes });
        reference
    }

    /// A reference of this position that no block has.
    pub fn fresh(&self, prng: &mut Prng, authority: u64, round: u64) -> Reference {
        for attempt in 0.. {
            let mut digest = [0; 4];
            match self.digests {
                Digests::Zero => digest[3] = attempt,
                Digests::Random => digest = std::array::from_fn(|_| prng.word()),
                Digests::OneWord(word) => digest[word] = attempt << prng.below(56),
            }
            let reference = Reference { authority, round, digest };
            if !self.taken.contains(&reference) {
                return reference;
            }
        }
        unreachable!("a block has few twins")
    }

    /// The blocks of a round.
    pub fn at(&self, round: u64) -> &[Reference] {
        self.rounds.get(&round).map_or(&[], Vec::as_slice)
    }

    /// Whether so many more blocks and includes fit the program's room.
    pub fn fits(&self, blocks: usize, includes: usize) -> bool {
        self.blocks.len() + blocks <= BLOCKS && self.includes + includes <= INCLUDES
    }

    /// Round after round up to `last`, as long as there is room.
    pub fn grow(&mut self, prng: &mut Prng, setting: &Setting, habits: &Habits, first: u64, last: u64) {
        for round in first..=last {
            if round > 0 && prng.chance(habits.empty) {
                continue;
            }
            let mut authors = setting.active.clone();
            authors.retain(|_| prng.chance(habits.present));
            if prng.chance(habits.guest) {
                authors.push(prng.below(setting.size()));
            }
            prng.shuffle(&mut authors);
            for author in authors {
                self.grow_by(prng, habits, author, round);
                if prng.chance(habits.twin) {
                    self.grow_by(prng, habits, author, round);
                }
            }
        }
    }

    /// One block of a round, its includes as the habits say.
    fn grow_by(&mut self, prng: &mut Prng, habits: &Habits, author: u64, round: u64) {
        let includes = self.chosen(prng, habits, round);
        if self.fits(1, includes.len()) {
            self.make(prng, author, round, includes);
        }
    }

    fn chosen(&self, prng: &mut Prng, habits: &Habits, round: u64) -> Vec<Reference> {
        let mut below = self.rounds.range(..round).rev().map(|(_, references)| references);
        if prng.chance(habits.lag) {
            below.next();
        }
        let mut includes = below.next().cloned().unwrap_or_default();
        includes.retain(|_| prng.chance(habits.strong));
        prng.shuffle(&mut includes);
        let older: Vec<_> = below.flatten().collect();
        if prng.chance(habits.weak) && !older.is_empty() {
            let place = prng.below(includes.len() as u64 + 1) as usize;
            includes.insert(place, **prng.pick(&older));
        }
        if prng.chance(habits.repeat) && !includes.is_empty() {
            let again = *prng.pick(&includes);
            includes.push(again);
        }
        includes
    }
}
