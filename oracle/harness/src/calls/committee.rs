//! The committee and the aggregator.

use std::{collections::HashSet, sync::Arc};

use mysticeti_core::{
    committee::{
        access, Committee, CommitteeThreshold, QuorumThreshold, SkipThreshold, StakeAggregator, ValidityThreshold,
    },
    types::AuthoritySet,
};

use super::{
    request::{authority_set, words_of, Request},
    Answer,
};
use crate::{
    limits::{check_stakes, Refusal},
    text,
};

/// The committee of a request: its size, the first stakes (the others of the 128 are zero), the three floors.
pub fn committee(request: &mut Request) -> Result<Arc<Committee>, Refusal> {
    let size = request.index();
    let listed = request.index();
    let mut stakes: Vec<u64> = (0..listed).map(|_| request.number()).collect();
    let floors = [request.number(), request.number(), request.number()];
    stakes.resize(128.max(listed), 0);
    if size > 128 || stakes[size..].iter().any(|stake| *stake != 0) {
        return Err(Refusal::BadCommittee);
    }
    stakes.truncate(size);
    check_stakes(&stakes)?;
    let committee = text::committee(&stakes);
    if floors != floors_of(&committee) {
        return Err(Refusal::BadCommittee);
    }
    Ok(committee)
}

/// The text's thresholds are its floors and one.
fn floors_of(committee: &Committee) -> [u64; 3] {
    thresholds_of(committee).map(|threshold| threshold - 1)
}

fn thresholds_of(committee: &Committee) -> [u64; 3] {
    [committee.validity_threshold(), committee.quorum_threshold(), committee.skip_threshold()]
}

pub fn new(request: &mut Request) -> Answer {
    let stakes = request.slice();
    check_stakes(&stakes)?;
    let committee = text::committee(&stakes);
    let mut values = vec![committee.len() as u64];
    values.extend(floors_of(&committee));
    Ok(values)
}

pub fn len(request: &mut Request) -> Answer {
    Ok(vec![committee(request)?.len() as u64])
}

/// The first authority, and one past the last.
pub fn authorities(request: &mut Request) -> Answer {
    let authorities = committee(request)?.authorities();
    Ok(vec![authorities.start, authorities.end])
}

pub fn get_stake(request: &mut Request) -> Answer {
    let committee = committee(request)?;
    let stake = committee.get_stake(request.number());
    Ok(vec![stake.is_some() as u64, stake.unwrap_or(0)])
}

pub fn known_authority(request: &mut Request) -> Answer {
    let committee = committee(request)?;
    Ok(vec![committee.known_authority(request.number()) as u64])
}

pub fn thresholds(request: &mut Request) -> Answer {
    Ok(thresholds_of(&*committee(request)?).to_vec())
}

pub fn is_valid(request: &mut Request) -> Answer {
    let committee = committee(request)?;
    Ok(vec![committee.is_valid(request.number()) as u64])
}

pub fn is_quorum(request: &mut Request) -> Answer {
    let committee = committee(request)?;
    Ok(vec![committee.is_quorum(request.number()) as u64])
}

pub fn is_non_zero(request: &mut Request) -> Answer {
    let committee = committee(request)?;
    Ok(vec![committee.is_non_zero(request.number()) as u64])
}

pub fn get_total_stake(request: &mut Request) -> Answer {
    let committee = committee(request)?;
    let voters: HashSet<u64> = authority_set(request.voters()).present().collect();
    if voters.iter().any(|voter| !committee.known_authority(*voter)) {
        return Err(Refusal::BadArgument.into());
    }
    Ok(vec![committee.get_total_stake(&voters)])
}

pub fn elect_leader(request: &mut Request) -> Answer {
    let committee = committee(request)?;
    Ok(vec![committee.elect_leader(request.number())])
}

/// The voters and stake of a request, sound for this committee.
pub fn votes(request: &mut Request, committee: &Committee) -> Result<(AuthoritySet, u64), Refusal> {
    let set = authority_set(request.voters());
    let stake = request.number();
    let stakes: Option<Vec<u64>> = set.present().map(|voter| committee.get_stake(voter)).collect();
    let sound = stakes.is_some_and(|stakes| stakes.iter().sum::<u64>() == stake);
    if sound {
        Ok((set, stake))
    } else {
        Err(Refusal::BadTable)
    }
}

/// One vote, by the threshold 0 quorum, 1 validity, 2 non-zero.
pub fn add(request: &mut Request) -> Answer {
    let threshold = request.number();
    let committee = committee(request)?;
    let votes = votes(request, &committee)?;
    let authority = request.number();
    if !committee.known_authority(authority) {
        return Err(Refusal::BadArgument.into());
    }
    Ok(match threshold {
        0 => added::<QuorumThreshold>(votes, authority, &committee),
        1 => added::<ValidityThreshold>(votes, authority, &committee),
        _ => added::<SkipThreshold>(votes, authority, &committee),
    })
}

fn added<TH: CommitteeThreshold>((set, stake): (AuthoritySet, u64), authority: u64, committee: &Committee) -> Vec<u64> {
    let mut aggregator: StakeAggregator<TH> = access::aggregator(set, stake);
    let met = aggregator.add(authority, committee);
    let mut values = vec![met as u64];
    put_aggregator(&mut values, &aggregator);
    values
}

/// The voters and stake of a request, sound or not.
fn aggregator(request: &mut Request) -> StakeAggregator<QuorumThreshold> {
    let set = authority_set(request.voters());
    access::aggregator(set, request.number())
}

/// A new aggregator, then the one given after it was cleared.
pub fn clear(request: &mut Request) -> Answer {
    let mut cleared = aggregator(request);
    cleared.clear();
    let mut values = vec![];
    put_aggregator(&mut values, &StakeAggregator::<QuorumThreshold>::new());
    put_aggregator(&mut values, &cleared);
    Ok(values)
}

pub fn voters(request: &mut Request) -> Answer {
    Ok(words_of(aggregator(request).voters()).to_vec())
}

/// The two words of the voters, and their stake.
pub fn put_aggregator<TH: CommitteeThreshold>(values: &mut Vec<u64>, aggregator: &StakeAggregator<TH>) {
    values.extend(words_of(aggregator.voters()));
    values.push(access::stake(aggregator));
}
