//! Sets, the committee, the aggregator and the clock.

use stream::Reference;

use super::{
    demand,
    line::{members, reference, set_words, Line},
    Answer, BAD_ARGUMENT, BAD_COMMITTEE, BAD_TABLE,
};
use crate::{clock::Clock, committee::Committee, Mistake};

/// Calls on references.
pub fn references(line: &mut Line) -> Answer {
    let a = line.reference();
    Ok(match line.name() {
        "block_reference_parts" => {
            let mut position = [a.authority, a.round];
            if line.makes(Mistake::PositionRoundFirst) {
                position.reverse();
            }
            [&[a.round], &position[..], &[a.authority], &a.digest].concat()
        }
        "block_reference_equal" => {
            let b = line.reference();
            let same = a.digest == b.digest || line.makes(Mistake::EqualWithoutDigest);
            vec![(same && (a.authority, a.round) == (b.authority, b.round)) as u64]
        }
        _ => vec![compare(line, a)],
    })
}

/// Calls on sets.
pub fn sets(line: &mut Line) -> Answer {
    let set = line.voters();
    let present = members(set);
    match line.name() {
        "authority_set_count" if line.makes(Mistake::CountLowWord) => {
            Ok(vec![present.iter().filter(|authority| **authority < 64).count() as u64])
        }
        "authority_set_count" => Ok(vec![present.len() as u64]),
        "authority_set_clear" if line.makes(Mistake::SetClearKeeps) => Ok([[0; 2], set_words(&present)].concat()),
        "authority_set_clear" => Ok(vec![0; 4]),
        "authority_set_contains" => {
            let authority = line.number();
            let asked = if line.makes(Mistake::ContainsByRest) { authority % 128 } else { authority };
            Ok(vec![present.contains(&asked) as u64])
        }
        "authority_set_next" => {
            let from = line.number();
            let exclusive = line.makes(Mistake::NextExclusive);
            let next = present.into_iter().find(|a| *a > from || (*a == from && !exclusive));
            Ok(vec![next.is_some() as u64, next.unwrap_or(0)])
        }
        _ => insert(line, present),
    }
}

fn insert(line: &mut Line, mut present: Vec<u64>) -> Answer {
    let mut authority = line.number();
    if line.makes(Mistake::InsertWithoutLimit) {
        authority %= 128;
    }
    demand(authority < 128, BAD_ARGUMENT)?;
    let absent = !present.contains(&authority) || line.makes(Mistake::InsertAlwaysYes);
    present.push(authority);
    let [low, high] = set_words(&present);
    Ok(vec![absent as u64, low, high])
}

fn compare(line: &mut Line, a: Reference) -> u64 {
    let b = line.reference();
    let (by_round, by_authority) = (a.round.cmp(&b.round), a.authority.cmp(&b.authority));
    let order = match line.mistake {
        Mistake::TwinsEqual => by_round.then(by_authority),
        Mistake::AuthorityBeforeRound => by_authority.then(by_round).then(a.digest.cmp(&b.digest)),
        _ => by_round.then(by_authority).then(a.digest.cmp(&b.digest)),
    };
    (order as i8 + 1) as u64
}

/// Whether stakes make a committee.
fn good_stakes(stakes: &[u64], mistake: Mistake) -> bool {
    let total: u128 = stakes.iter().map(|stake| u128::from(*stake)).sum();
    let limit = match mistake {
        Mistake::TotalTooHighAllowed => 1 << 63,
        Mistake::TotalAtLimitRefused => (1 << 63) - 2,
        _ => (1 << 63) - 1,
    };
    let positive = stakes.iter().all(|stake| *stake > 0) || mistake == Mistake::ZeroStakeAllowed;
    (1..=128).contains(&stakes.len()) && positive && total <= limit
}

/// The floors for validity, quorum and non-zero.
fn floors(stakes: &[u64]) -> [u64; 3] {
    let total: u128 = stakes.iter().map(|stake| u128::from(*stake)).sum();
    [(total / 3) as u64, (2 * total / 3) as u64, 0]
}

/// The committee of a request, tested.
pub fn committee(line: &mut Line) -> Result<Committee, u64> {
    let (size, listed) = (line.length(), line.length());
    let mut stakes = line.words(listed);
    let given = line.words(3);
    stakes.resize(128, 0);
    demand(size <= 128, BAD_COMMITTEE)?;
    let unused = stakes.split_off(size);
    let unused_zero = unused.iter().all(|stake| *stake == 0) || line.makes(Mistake::UnusedStakesUntested);
    demand(unused_zero && good_stakes(&stakes, line.mistake), BAD_COMMITTEE)?;
    demand(given == floors(&stakes) || line.makes(Mistake::FloorsUntested), BAD_COMMITTEE)?;
    Ok(Committee { stakes, mistake: line.mistake })
}

/// Calls on a committee alone.
pub fn committee_call(line: &mut Line) -> Answer {
    if line.name() == "committee_new" {
        let stakes = line.slice();
        demand(good_stakes(&stakes, line.mistake), BAD_COMMITTEE)?;
        return Ok([&[stakes.len() as u64], &floors(&stakes)[..]].concat());
    }
    let committee = committee(line)?;
    let size = committee.size();
    Ok(match line.name() {
        "committee_len" => vec![size - u64::from(line.makes(Mistake::LenIsLast))],
        "committee_authorities" => vec![u64::from(line.makes(Mistake::AuthoritiesFromOne)), size],
        "committee_thresholds" => {
            let more = u64::from(!line.makes(Mistake::ThresholdIsFloor));
            floors(&committee.stakes).map(|floor| floor + more).to_vec()
        }
        "committee_get_stake" => {
            let authority = line.number();
            let known = authority < size || line.makes(Mistake::UnknownHasStakeZero);
            vec![known as u64, committee.stake(authority) as u64]
        }
        "committee_known_authority" => {
            let authority = line.number();
            vec![(authority < size || (authority == size && line.makes(Mistake::KnownAtSize))) as u64]
        }
        "committee_is_valid" => vec![committee.is_valid(line.number().into()) as u64],
        "committee_is_quorum" => vec![committee.is_quorum(line.number().into()) as u64],
        "committee_is_non_zero" => vec![(line.number() > 0 || line.makes(Mistake::NonZeroAtZero)) as u64],
        "committee_elect_leader" => {
            let number = line.number();
            let most = if line.makes(Mistake::ElectsUpToRounds) { (1 << 40) - 1 } else { u64::MAX };
            vec![number.min(most) % size]
        }
        _ => {
            let voters = members(line.voters());
            let known = voters.iter().all(|voter| *voter < size);
            demand(known || line.makes(Mistake::UnknownVotersIgnored), BAD_ARGUMENT)?;
            vec![committee.stake_of(voters.into_iter(), false) as u64]
        }
    })
}

/// The voters of an aggregator, tested.
fn aggregator(line: &mut Line, committee: &Committee) -> Result<Vec<u64>, u64> {
    let voters = members(line.voters());
    let stake = u128::from(line.number());
    let known = voters.iter().all(|voter| *voter < committee.size()) || line.makes(Mistake::AggregatorVotersUntested);
    let sum = committee.stake_of(voters.iter().copied(), false);
    demand(known && (sum == stake || line.makes(Mistake::AggregatorStakeUntested)), BAD_TABLE)?;
    Ok(voters)
}

/// Calls on an aggregator alone, which is not tested.
pub fn votes(line: &mut Line) -> Answer {
    let [low, high, stake] = [(); 3].map(|_| line.number());
    let kept = if line.makes(Mistake::AggregatorClearKeeps) { stake } else { 0 };
    Ok(match line.name() {
        "aggregator_clear" => vec![0, 0, 0, 0, 0, kept],
        _ if line.makes(Mistake::VotersOfLowWord) => vec![low, 0],
        _ => vec![low, high],
    })
}

/// One vote at one of the three thresholds.
pub fn add(line: &mut Line) -> Answer {
    let threshold = line.number();
    let committee = committee(line)?;
    let mut voters = aggregator(line, &committee)?;
    let authority = line.number();
    demand(authority < committee.size(), BAD_ARGUMENT)?;
    let repeated = voters.contains(&authority);
    voters.push(authority);
    let stake = committee.stake_of(voters.iter().copied(), line.makes(Mistake::RepeatedVoteAdds));
    let met = match threshold {
        0 => committee.is_quorum(stake),
        1 => committee.is_valid(stake),
        _ => stake > 0,
    };
    let met = met && !(repeated && line.makes(Mistake::RepeatedVoteUnmet));
    let [low, high] = set_words(&voters);
    Ok(vec![met as u64, low, high, stake as u64])
}

/// The validity test of a block.
pub fn valid(line: &mut Line) -> Answer {
    let committee = committee(line)?;
    let round = line.number();
    let words = line.slice();
    demand(words.len() % 6 == 0, BAD_TABLE)?;
    let includes: Vec<_> = words.chunks(6).map(reference).collect();
    let most = if line.makes(Mistake::ValidManyIncludes) { 512 } else { 511 };
    let named = includes.iter().all(|include| include.authority < committee.size() && include.round < 1 << 40);
    if round == 0 && line.makes(Mistake::ValidRoundZeroIsNo) && named {
        return Ok(vec![0]);
    }
    demand((1..1 << 40).contains(&round) && includes.len() <= most && named, BAD_ARGUMENT)?;
    let below = includes.iter().all(|include| include.round < round);
    demand(below || !line.makes(Mistake::ValidRefusesHigher), BAD_ARGUMENT)?;
    let all = line.makes(Mistake::ValidCountsAllRounds);
    let parents = includes.iter().filter(|include| all || include.round + 1 == round);
    let stake = committee.stake_of(parents.map(|include| include.authority), false);
    Ok(vec![(below && committee.is_quorum(stake)) as u64])
}

pub fn clock_new(line: &mut Line) -> Answer {
    let round = line.number();
    demand(round <= clock_limit(line), BAD_ARGUMENT)?;
    Ok(vec![0, 0, 0, round])
}

fn clock_limit(line: &Line) -> u64 {
    (1 << 40) - u64::from(line.makes(Mistake::ClockRoundLow))
}

pub fn clock_add_block(line: &mut Line) -> Answer {
    let committee = committee(line)?;
    let voters = aggregator(line, &committee)?;
    let mut clock = Clock { round: line.number(), voters };
    let (authority, round) = (line.number(), line.number());
    let highest = (1 << 40) - u64::from(!line.makes(Mistake::BlockRoundHigh));
    let good = authority < committee.size() && round <= highest && clock.round <= clock_limit(line);
    demand(good, BAD_ARGUMENT)?;
    clock.add_block(authority, round, &committee);
    let [low, high] = set_words(&clock.voters);
    let stake = committee.stake_of(clock.voters.iter().copied(), false);
    Ok(vec![low, high, stake as u64, clock.round])
}
