//! Arguments around the stored and the pending side.

use stream::{Block, Reference};

use super::{
    committees::committee_of,
    tables::{few, many, reference_arguments, reference_words, Accepted},
    Argument::{self, Area, Number, Slice},
};
use crate::{dags, prng::Prng};

fn any(prng: &mut Prng) -> Accepted {
    let world = if prng.chance(85) { few(prng) } else { many(prng) };
    Accepted::stored(prng, world)
}

/// The stored side, then numbers made from it.
fn with(prng: &mut Prng, numbers: impl Fn(&mut Prng, &Accepted) -> Vec<Argument>) -> Vec<Argument> {
    let accepted = any(prng);
    let mut arguments = accepted.stored_side();
    arguments.extend(numbers(prng, &accepted));
    arguments
}

pub fn store(prng: &mut Prng) -> Vec<Argument> {
    with(prng, |_, _| vec![])
}

pub fn with_reference(prng: &mut Prng) -> Vec<Argument> {
    with(prng, |prng, accepted| reference_arguments(&accepted.reference(prng)))
}

pub fn with_position(prng: &mut Prng) -> Vec<Argument> {
    with(prng, position)
}

fn position(prng: &mut Prng, accepted: &Accepted) -> Vec<Argument> {
    let reference = accepted.reference(prng);
    vec![Number(reference.authority), Number(reference.round)]
}

/// Enough room, or one row less than the store has.
fn area(prng: &mut Prng, accepted: &Accepted) -> Argument {
    Area(*prng.pick(&[0, 1, 2, accepted.stored.len() as u64, accepted.stored.len() as u64 + 2]))
}

pub fn with_position_and_area(prng: &mut Prng) -> Vec<Argument> {
    with(prng, |prng, accepted| {
        let mut arguments = position(prng, accepted);
        arguments.push(area(prng, accepted));
        arguments
    })
}

pub fn with_round_and_area(prng: &mut Prng) -> Vec<Argument> {
    with(prng, |prng, accepted| {
        let round = accepted.reference(prng).round;
        vec![Number(round), area(prng, accepted)]
    })
}

pub fn with_authorities(prng: &mut Prng) -> Vec<Argument> {
    with(prng, |prng, accepted| {
        let count = prng.below(4);
        let authorities = (0..count).map(|_| accepted.reference(prng).authority).collect();
        vec![Slice(authorities), Number(accepted.reference(prng).round)]
    })
}

pub fn with_own(prng: &mut Prng) -> Vec<Argument> {
    with(prng, |prng, accepted| {
        let own = accepted.reference(prng).authority;
        vec![Number(own), from(prng, accepted), limit(prng), area(prng, accepted)]
    })
}

pub fn with_others(prng: &mut Prng) -> Vec<Argument> {
    with(prng, |prng, accepted| {
        let authority = accepted.reference(prng).authority;
        vec![from(prng, accepted), Number(authority), limit(prng), area(prng, accepted)]
    })
}

fn from(prng: &mut Prng, accepted: &Accepted) -> Argument {
    Number(accepted.reference(prng).round.saturating_sub(prng.from(0, 4)))
}

fn limit(prng: &mut Prng) -> Argument {
    Number(*prng.pick(&[0, 1, 2, 3, 100, u64::MAX]))
}

pub fn with_authority(prng: &mut Prng) -> Vec<Argument> {
    with(prng, |prng, accepted| vec![Number(accepted.reference(prng).authority)])
}

pub fn with_row(prng: &mut Prng) -> Vec<Argument> {
    with(prng, |prng, accepted| vec![Number(accepted.row(prng))])
}

pub fn with_two_rows(prng: &mut Prng) -> Vec<Argument> {
    let world = match prng.below(10) {
        0 => dags::jump(prng),
        1..=3 => few(prng),
        _ => many(prng),
    };
    let accepted = Accepted::stored(prng, world);
    let mut rows = [accepted.row(prng), accepted.row(prng)];
    if prng.chance(85) {
        rows.sort_by(|a, b| b.cmp(a));
    }
    let work = accepted.stored.len() as u64 + *prng.pick(&[0, 0, 1, 5]);
    let mut arguments = accepted.stored_side();
    arguments.extend([Number(rows[0]), Number(rows[1]), Area(work)]);
    arguments
}

/// Both sides for a committee.
fn both(prng: &mut Prng) -> (Accepted, Vec<Argument>) {
    let world = match prng.below(10) {
        0..=6 => few(prng),
        7..=8 => dags::small(prng),
        _ => dags::rounds(prng),
    };
    let accepted = Accepted::some(prng, world);
    let mut arguments = committee_of(&accepted.setting.header.stakes);
    arguments.extend(accepted.stored_side());
    arguments.extend(accepted.pending_side());
    (accepted, arguments)
}

/// An offer: a block that others wait for, a known one, or another.
pub fn offer(prng: &mut Prng) -> Vec<Argument> {
    let (accepted, mut arguments) = both(prng);
    let Block { mut reference, mut includes } = offered(prng, &accepted);
    match prng.below(16) {
        0 => includes.push(Reference { round: reference.round, ..accepted.reference(prng) }),
        1 => reference.authority = accepted.setting.size(),
        2 => includes = vec![accepted.reference(prng); prng.from(1, 4) as usize],
        3 => includes = vec![Reference { round: 0, ..reference }; *prng.pick(&[511, 512, 20])],
        _ => {}
    }
    arguments.extend(reference_arguments(&reference));
    arguments.push(Slice(includes.iter().flat_map(reference_words).collect()));
    arguments
}

fn offered(prng: &mut Prng, accepted: &Accepted) -> Block {
    let mut known = accepted.stored.iter().chain(&accepted.pending);
    let count = known.clone().count() as u64;
    if !accepted.absent.is_empty() && prng.chance(75) {
        return prng.pick(&accepted.absent).clone();
    }
    if count > 0 && prng.chance(40) {
        let which = prng.below(count) as usize;
        return known.nth(which).expect("below the count").clone();
    }
    let parents: Vec<_> = known.map(|block| block.reference).collect();
    let round = parents.iter().map(|parent| parent.round).max().map_or(0, |round| round + 1);
    let includes = if parents.is_empty() { vec![] } else { vec![*prng.pick(&parents)] };
    let authority = prng.below(accepted.setting.size());
    Block { reference: Reference { authority, round, digest: [9; 4] }, includes }
}

pub fn missing(prng: &mut Prng) -> Vec<Argument> {
    let (accepted, mut arguments) = both(prng);
    let authority = accepted.absent.first().map_or(0, |block| block.reference.authority);
    arguments.push(Number(authority));
    arguments.push(Area(*prng.pick(&[0, 6, 6, 12, 18, 60])));
    arguments
}
