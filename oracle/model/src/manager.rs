//! Offers.

use stream::{Block, Reference};

use crate::{blocks::same, Mistake};

/// What an offer is answered.
#[derive(Clone, Copy, PartialEq, Eq)]
pub enum Verdict {
    Stored(usize),
    Pending,
    Known,
    Refused(u64),
}

/// The accepted blocks.
pub struct Manager {
    pub stored: Vec<Block>,
    pub pending: Vec<Block>,
    refused: Vec<Reference>,
    size: u64,
    blocks: usize,
    includes: usize,
    mistake: Mistake,
}

const BAD_ARGUMENT: u64 = 4;
const FULL: u64 = 5;

/// With more waiting blocks than so many, some mistakes show.
const MANY: usize = 64;

impl Manager {
    /// An empty manager with room for so many blocks and includes.
    pub fn new(size: u64, blocks: usize, includes: usize, mistake: Mistake) -> Self {
        Self { stored: vec![], pending: vec![], refused: vec![], size, blocks, includes, mistake }
    }

    pub fn offer(&mut self, block: &Block) -> Verdict {
        let known = self.known(block);
        let (bad, full) = (!self.good(block), self.full(block));
        if self.mistake == Mistake::FullBeforeBadArgument && full && !known {
            return Verdict::Refused(FULL);
        }
        if bad && !(known && self.mistake == Mistake::KnownBeforeBadArgument) {
            self.refused.push(block.reference);
            return Verdict::Refused(BAD_ARGUMENT);
        }
        if full && self.mistake == Mistake::FullBeforeKnown {
            return Verdict::Refused(FULL);
        }
        if known {
            self.renew(block);
            return Verdict::Known;
        }
        if full {
            return Verdict::Refused(FULL);
        }
        self.accept(block.clone())
    }

    fn same(&self, a: &Reference, b: &Reference) -> bool {
        same(a, b, self.mistake)
    }

    fn is_stored(&self, reference: &Reference) -> bool {
        self.stored.iter().any(|block| self.same(&block.reference, reference))
    }

    fn known(&self, block: &Block) -> bool {
        let matches = |other: &&Block| self.same(&other.reference, &block.reference);
        let refused = || self.refused.iter().any(|other| self.same(other, &block.reference));
        match self.mistake {
            Mistake::PendingNotKnown => self.is_stored(&block.reference),
            Mistake::OtherIncludesNotKnown => {
                let all = self.stored.iter().chain(&self.pending);
                all.filter(matches).any(|other| other.includes == block.includes)
            }
            Mistake::RefusedBlockRemembered if refused() => true,
            _ => self.stored.iter().chain(&self.pending).any(|other| matches(&other)),
        }
    }

    fn good(&self, block: &Block) -> bool {
        let round = block.reference.round;
        let low_enough = |include: &Reference| match self.mistake {
            Mistake::SameRoundIncludeAllowed => include.round <= round,
            Mistake::HigherIncludeAllowed => include.round != round,
            _ => include.round < round,
        };
        let include_known =
            |include: &Reference| include.authority < self.size || self.mistake == Mistake::IncludeAuthorityUnchecked;
        let author_known = block.reference.authority < self.size || self.mistake == Mistake::AuthorityUnchecked;
        let highest = (1 << 40) - u64::from(self.mistake != Mistake::BlockRoundHigh);
        author_known
            && round <= highest
            && block.includes.len() <= 511
            && block.includes.iter().all(|include| include_known(include) && low_enough(include))
    }

    fn full(&self, block: &Block) -> bool {
        let blocks = match self.mistake {
            Mistake::OneBlockLess => self.blocks.saturating_sub(1),
            Mistake::OneBlockMore => self.blocks + 1,
            _ => self.blocks,
        };
        let includes = match self.mistake {
            Mistake::OneIncludeLess => self.includes.saturating_sub(1),
            Mistake::OneIncludeMore => self.includes + 1,
            _ => self.includes,
        };
        let (mut accepted, mut carried) = (self.stored.len(), self.carried(&self.stored));
        if self.mistake != Mistake::PendingTakesNoRoom {
            accepted += self.pending.len();
            if self.mistake != Mistake::PendingIncludesTakeNoRoom {
                carried += self.carried(&self.pending);
            }
        }
        accepted >= blocks || carried + self.carried(std::slice::from_ref(block)) > includes
    }

    /// The includes that blocks carry.
    fn carried(&self, blocks: &[Block]) -> usize {
        let of = |block: &Block| {
            let mut includes = block.includes.clone();
            if self.mistake == Mistake::RepeatedIncludesOnce {
                includes.sort();
                includes.dedup();
            }
            includes.len()
        };
        blocks.iter().map(of).sum()
    }

    /// A known block changes nothing.
    fn renew(&mut self, block: &Block) {
        if self.mistake == Mistake::KnownTakesNewIncludes {
            let known = self.pending.iter_mut().find(|other| other.reference == block.reference);
            known.into_iter().for_each(|other| other.includes = block.includes.clone());
        }
    }

    fn accept(&mut self, block: Block) -> Verdict {
        if !self.lacks_nothing(&block) {
            self.pending.push(block);
            return Verdict::Pending;
        }
        let (before, many) = (self.stored.len(), self.pending.len() > MANY);
        self.store(block, 0);
        if many && self.stored.len() > before + 1 {
            self.spoil_long_release(before + 1);
        }
        let growth = self.stored.len() - before;
        Verdict::Stored(match self.mistake {
            Mistake::GrowthIsOne => 1,
            Mistake::GrowthIsFollowers => growth - 1,
            _ => growth,
        })
    }

    fn lacks_nothing(&self, block: &Block) -> bool {
        block.includes.iter().all(|include| self.is_stored(include))
    }

    /// Stores a block; then its followers go in, earliest accepted first, each one's own followers before the next.
    fn store(&mut self, block: Block, depth: usize) {
        let reference = block.reference;
        self.stored.push(block);
        match self.mistake {
            Mistake::NothingReleased => {}
            Mistake::OneLevelReleased if depth == 1 => {}
            Mistake::BreadthFirstRelease => self.release_breadth_first(reference),
            Mistake::ReleaseOverAllPending => self.release_by_passes(),
            Mistake::LongReleaseByPasses if self.pending.len() > MANY => self.release_by_passes(),
            _ => self.release(&reference, depth),
        }
    }

    fn release(&mut self, reference: &Reference, depth: usize) {
        while let Some(next) = self.next_follower(reference) {
            let follower = self.pending.remove(next);
            self.store(follower, depth + 1);
            if self.mistake == Mistake::FirstFollowerOnly {
                break;
            }
        }
    }

    /// What mistakes do where the rows from `first` on were released from among many.
    fn spoil_long_release(&mut self, first: usize) {
        let cut = |block: &mut Block| block.includes.truncate(1);
        match self.mistake {
            Mistake::LongReleaseStops => {
                let stopped = self.stored.split_off(self.stored.len().min(first + MANY));
                self.pending.extend(stopped);
            }
            Mistake::LongReleaseCutsNew => self.stored[first..].iter_mut().for_each(cut),
            Mistake::LongReleaseCutsLeft => self.pending.iter_mut().for_each(cut),
            Mistake::LongReleaseTurnsLeft => self.pending.reverse(),
            _ => {}
        }
    }

    fn followers(&self, reference: &Reference) -> Vec<usize> {
        let includes = |block: &Block| block.includes.iter().any(|include| self.same(include, reference));
        let ready = |place: &usize| includes(&self.pending[*place]) && self.lacks_nothing(&self.pending[*place]);
        (0..self.pending.len()).filter(ready).collect()
    }

    fn next_follower(&self, reference: &Reference) -> Option<usize> {
        let followers = self.followers(reference).into_iter();
        match self.mistake {
            Mistake::LatestReleasedFirst => followers.max(),
            Mistake::ReleasedByRound => followers.min_by_key(|place| self.pending[*place].reference.round),
            _ => followers.min(),
        }
    }

    fn release_breadth_first(&mut self, reference: Reference) {
        let mut queue = std::collections::VecDeque::from([reference]);
        while let Some(next) = queue.pop_front() {
            while let Some(place) = self.next_follower(&next) {
                let follower = self.pending.remove(place);
                queue.push_back(follower.reference);
                self.stored.push(follower);
            }
        }
    }

    fn release_by_passes(&mut self) {
        let mut changed = true;
        while changed {
            changed = false;
            let mut place = 0;
            while place < self.pending.len() {
                if self.lacks_nothing(&self.pending[place]) {
                    let follower = self.pending.remove(place);
                    self.stored.push(follower);
                    changed = true;
                } else {
                    place += 1;
                }
            }
        }
    }
}
