//! The aggregator's stake, which its module keeps private, and an aggregator holding given votes.

use super::StakeAggregator;
use crate::types::{AuthoritySet, Stake};

pub fn aggregator<TH>(votes: AuthoritySet, stake: Stake) -> StakeAggregator<TH> {
    StakeAggregator { votes, stake, _phantom: Default::default() }
}

pub fn stake<TH>(aggregator: &StakeAggregator<TH>) -> Stake {
    aggregator.stake
}
