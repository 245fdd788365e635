//! The clock and the validity test.

use mysticeti_core::{
    committee::access as committee_access,
    threshold_clock::{access, threshold_clock_valid_non_genesis, ThresholdClockAggregator},
};
use stream::{Block, Reference};

use super::{
    committee::{committee, put_aggregator, votes},
    request::Request,
    tables::references,
    Answer,
};
use crate::{
    limits::{Refusal, MAX_CLOCK_ROUND, MAX_INCLUDES, MAX_ROUND},
    text,
};

pub fn valid(request: &mut Request) -> Answer {
    let committee = committee(request)?;
    let round = request.number();
    let includes = references(&request.slice())?;
    let named = |include: &Reference| committee.known_authority(include.authority) && include.round <= MAX_ROUND;
    if !(1..=MAX_ROUND).contains(&round) || includes.len() > MAX_INCLUDES || !includes.iter().all(named) {
        return Err(Refusal::BadArgument.into());
    }
    let block = Block { reference: Reference { authority: 0, round, digest: [0; 4] }, includes };
    let valid = threshold_clock_valid_non_genesis(&text::block(&block), &committee);
    Ok(vec![valid as u64])
}

pub fn new(request: &mut Request) -> Answer {
    let round = request.number();
    if round > MAX_CLOCK_ROUND {
        return Err(Refusal::BadArgument.into());
    }
    Ok(clock_values(&ThresholdClockAggregator::new(round)))
}

pub fn add_block(request: &mut Request) -> Answer {
    let committee = committee(request)?;
    let (set, stake) = votes(request, &committee)?;
    let clock_round = request.number();
    let (authority, round) = (request.number(), request.number());
    if !committee.known_authority(authority) || round > MAX_ROUND || clock_round > MAX_CLOCK_ROUND {
        return Err(Refusal::BadArgument.into());
    }
    let mut clock = access::clock(committee_access::aggregator(set, stake), clock_round);
    let block = Reference { authority, round, digest: [0; 4] };
    clock.add_block(text::reference(&block), &committee);
    Ok(clock_values(&clock))
}

fn clock_values(clock: &ThresholdClockAggregator) -> Vec<u64> {
    let mut values = vec![];
    put_aggregator(&mut values, access::aggregator(clock));
    values.push(clock.get_round());
    values
}
