//! The clock's aggregator, which its module keeps private, and a clock holding a given one.

use super::ThresholdClockAggregator;
use crate::{
    committee::{QuorumThreshold, StakeAggregator},
    types::RoundNumber,
};

pub fn clock(aggregator: StakeAggregator<QuorumThreshold>, round: RoundNumber) -> ThresholdClockAggregator {
    ThresholdClockAggregator { aggregator, round }
}

pub fn aggregator(clock: &ThresholdClockAggregator) -> &StakeAggregator<QuorumThreshold> {
    &clock.aggregator
}
