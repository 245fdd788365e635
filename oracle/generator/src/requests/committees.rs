//! Arguments around a committee: sets, stakes, aggregators, clocks.

use stream::Reference;

use super::{
    tables::{reference_arguments, reference_words},
    Argument::{self, Number, Slice, Stakes},
};
use crate::{header, prng::Prng};

pub fn set(prng: &mut Prng) -> Vec<Argument> {
    let kinds = [0, 1, u64::MAX, 1 << 63];
    let mut word = || if prng.chance(50) { *prng.pick(&kinds) } else { prng.word() & prng.word() };
    vec![Number(word()), Number(word())]
}

pub fn set_and_authority(prng: &mut Prng) -> Vec<Argument> {
    let mut arguments = set(prng);
    arguments.push(Number(prng.below(134)));
    arguments
}

fn any_reference(prng: &mut Prng) -> Reference {
    let digest = std::array::from_fn(|_| prng.below(2) << prng.below(64));
    Reference { authority: prng.below(2), round: prng.below(2), digest }
}

pub fn one_reference(prng: &mut Prng) -> Vec<Argument> {
    reference_arguments(&any_reference(prng))
}

/// Two references, now and then the same one twice.
pub fn two_references(prng: &mut Prng) -> Vec<Argument> {
    let first = any_reference(prng);
    let second = if prng.chance(30) { first } else { any_reference(prng) };
    [first, second].iter().flat_map(reference_arguments).collect()
}

/// A slice of stakes, sound or not.
pub fn stakes(prng: &mut Prng) -> Vec<Argument> {
    let mut stakes = header::any(prng).header.stakes;
    match prng.below(8) {
        0 => stakes.clear(),
        1 => stakes.resize(prng.from(127, 130) as usize, 1),
        2 => stakes.push(u64::MAX),
        3 => stakes = vec![(1 << 62) - 1, 1 << 62],
        4 => stakes = vec![1 << 62, 1 << 62],
        _ => {}
    }
    vec![Slice(stakes)]
}

/// The arguments of a sound committee of these stakes.
pub fn committee_of(stakes: &[u64]) -> Vec<Argument> {
    let total: u64 = stakes.iter().sum();
    let quorum = (2 * u128::from(total) / 3) as u64;
    vec![Number(stakes.len() as u64), Stakes(stakes.to_vec()), Number(total / 3), Number(quorum), Number(0)]
}

fn any_stakes(prng: &mut Prng) -> Vec<u64> {
    if prng.chance(60) {
        let size = prng.from(1, 5);
        return (0..size).map(|_| prng.from(1, 4)).collect();
    }
    header::any(prng).header.stakes
}

pub fn committee(prng: &mut Prng) -> Vec<Argument> {
    committee_of(&any_stakes(prng))
}

pub fn committee_and_authority(prng: &mut Prng) -> Vec<Argument> {
    let stakes = any_stakes(prng);
    with(committee_of(&stakes), prng.below(stakes.len() as u64 + 2))
}

/// An amount near one of the thresholds.
pub fn committee_and_amount(prng: &mut Prng) -> Vec<Argument> {
    let stakes = any_stakes(prng);
    let total = u128::from(stakes.iter().sum::<u64>());
    let near = *prng.pick(&[0, total / 3, 2 * total / 3, total]) as u64;
    with(committee_of(&stakes), (near + prng.below(3)).saturating_sub(1))
}

pub fn committee_and_number(prng: &mut Prng) -> Vec<Argument> {
    let number = if prng.chance(50) { prng.word() } else { prng.below(300) };
    with(committee(prng), number)
}

pub fn committee_and_set(prng: &mut Prng) -> Vec<Argument> {
    let stakes = any_stakes(prng);
    let voters = voters(prng, &stakes);
    let mut arguments = committee_of(&stakes);
    arguments.extend(words(voters));
    arguments
}

/// Some authorities of a committee.
fn voters(prng: &mut Prng, stakes: &[u64]) -> u128 {
    let word = u128::from(prng.word()) << 64 | u128::from(prng.word());
    let all = if stakes.len() == 128 { u128::MAX } else { (1 << stakes.len()) - 1 };
    word & all
}

fn words(voters: u128) -> [Argument; 2] {
    [Number(voters as u64), Number((voters >> 64) as u64)]
}

/// Voters and their stake.
fn aggregator(prng: &mut Prng, stakes: &[u64]) -> Vec<Argument> {
    let voters = voters(prng, stakes);
    let held = stakes.iter().enumerate().filter(|(authority, _)| voters >> authority & 1 == 1);
    let stake = held.map(|(_, stake)| stake).sum();
    let mut arguments = words(voters).to_vec();
    arguments.push(Number(stake));
    arguments
}

pub fn votes(prng: &mut Prng) -> Vec<Argument> {
    let stakes = any_stakes(prng);
    aggregator(prng, &stakes)
}

pub fn vote(prng: &mut Prng) -> Vec<Argument> {
    let stakes = any_stakes(prng);
    let mut arguments = vec![Number(prng.below(3))];
    arguments.extend(committee_of(&stakes));
    arguments.extend(aggregator(prng, &stakes));
    with(arguments, prng.below(stakes.len() as u64))
}

/// A round and includes, most of the round below.
pub fn validity(prng: &mut Prng) -> Vec<Argument> {
    let stakes = any_stakes(prng);
    let round = *prng.pick(&[1, 2, 3, 9, (1 << 40) - 1]);
    let count = *prng.pick(&[0, 1, 2, 3, 4, 6, 511, 512]);
    let mut includes = vec![];
    for _ in 0..count {
        let below = if prng.chance(2) {
            0
        } else if prng.chance(15) {
            prng.from(1, 3)
        } else {
            1
        };
        let include =
            Reference { authority: prng.below(stakes.len() as u64), round: round - below.min(round), digest: [0; 4] };
        includes.extend(reference_words(&include));
    }
    let mut arguments = with(committee_of(&stakes), round);
    arguments.push(Slice(includes));
    arguments
}

pub fn clock_round(prng: &mut Prng) -> Vec<Argument> {
    vec![Number(prng.from(0, 3) << prng.below(41))]
}

/// A clock, and a block near its round.
pub fn clock_and_block(prng: &mut Prng) -> Vec<Argument> {
    let stakes = any_stakes(prng);
    let round = *prng.pick(&[0, 1, 5, 5, 5, (1 << 40) - 1, 1 << 40]);
    let mut arguments = committee_of(&stakes);
    arguments.extend(aggregator(prng, &stakes));
    arguments.push(Number(round));
    arguments.push(Number(prng.below(stakes.len() as u64)));
    with(arguments, (round + *prng.pick(&[0, 1, 1, 1, 1, 2, 3])).saturating_sub(1))
}

fn with(mut arguments: Vec<Argument>, number: u64) -> Vec<Argument> {
    arguments.push(Number(number));
    arguments
}
