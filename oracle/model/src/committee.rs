//! Stake: thresholds and voters.

use std::collections::BTreeSet;

use crate::Mistake;

/// The stakes, and the mistake under trial.
#[derive(Clone)]
pub struct Committee {
    pub stakes: Vec<u64>,
    pub mistake: Mistake,
}

impl Committee {
    pub fn size(&self) -> u64 {
        self.stakes.len() as u64
    }

    fn total(&self) -> u128 {
        self.stakes.iter().map(|stake| u128::from(*stake)).sum()
    }

    /// Whether an amount is a quorum.
    pub fn is_quorum(&self, amount: u128) -> bool {
        let total = self.total();
        match self.mistake {
            Mistake::QuorumAtFloor => amount >= 2 * total / 3,
            Mistake::QuorumIsHalf => amount > total / 2,
            Mistake::QuorumIsValidity => amount > total / 3,
            Mistake::QuorumFromThirds => amount > 2 * (total / 3),
            _ => amount > 2 * total / 3,
        }
    }

    /// Whether an amount is valid.
    pub fn is_valid(&self, amount: u128) -> bool {
        let floor = self.total() / 3;
        amount > floor || (amount == floor && self.mistake == Mistake::ValidAtFloor)
    }

    /// The stake of an authority; an unknown one has none.
    pub fn stake(&self, authority: u64) -> u128 {
        self.stakes.get(authority as usize).copied().unwrap_or(0).into()
    }

    /// The stake of authorities, each counted once unless twins count twice.
    pub fn stake_of(&self, authorities: impl Iterator<Item = u64>, twice: bool) -> u128 {
        if twice {
            return authorities.map(|authority| self.stake(authority)).sum();
        }
        let once: BTreeSet<u64> = authorities.collect();
        once.into_iter().map(|authority| self.stake(authority)).sum()
    }
}
