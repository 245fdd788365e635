//! Streams of every kind: most are random DAGs, some aim at what those seldom reach.

use stream::{Reference, Stream};

use crate::{
    case::{Case, Damage},
    dag::Dag,
    dags::{self, World},
    header::{self, Setting},
    order,
    prng::Prng,
};

/// The `index`-th case of a run with this seed.
pub fn case(seed: u64, index: u64) -> Case {
    let prng = &mut Prng::new(seed, index);
    let shapes: &[(u64, Shape)] = &[
        (44, |prng| offered(prng, dags::rounds)),
        (6, late),
        (8, |prng| offered(prng, dags::small)),
        (6, |prng| offered(prng, dags::long_wave)),
        (4, star),
        (3, bushes),
        (3, |prng| offered(prng, dags::jump)),
        (3, full_of_blocks),
        (4, full_of_includes),
        (4, |prng| offered(prng, dags::full_memory)),
        (6, |prng| offered(prng, dags::split)),
        (4, |prng| offered(prng, dags::blind_split)),
        (6, |prng| offered(prng, dags::late_split)),
        (2, alone),
    ];
    let shape = prng.weighted(shapes);
    let stream = shape(prng);
    damaged(prng, stream)
}

type Shape = fn(&mut Prng) -> Stream;

/// Many blocks that wait for one, which comes last.
fn star(prng: &mut Prng) -> Stream {
    let size = prng.from(9, 128);
    let setting = any_of_size(prng, size);
    let mut dag = Dag::new(prng);
    let first = prng.below(size);
    let root = dag.make(prng, first, 0, vec![]);
    let arms = prng.from(8, size.min(100));
    for authority in 0..arms {
        let arm = dag.make(prng, authority, 1, vec![root]);
        if prng.chance(20) && dag.fits(1, 1) {
            dag.make(prng, authority, 2, vec![arm]);
        }
    }
    let mut offers = dag.blocks;
    let root = offers.remove(0);
    prng.shuffle(&mut offers);
    offers.push(root);
    Stream { header: setting.header, offers }
}

/// Many blocks of which most wait for a few that come late, if at all.
fn late(prng: &mut Prng) -> Stream {
    let World { setting, blocks } = dags::many(prng);
    let mut offers = order::held_back(prng, blocks);
    if prng.chance(60) {
        order::disturb(prng, setting.size(), &mut offers);
    }
    Stream { header: setting.header, offers }
}

/// A few chains that wait for one root and now and then for each other, in any order of arrival.
fn bushes(prng: &mut Prng) -> Stream {
    let size = prng.from(2, 6);
    let setting = any_of_size(prng, size);
    let mut dag = Dag::new(prng);
    let root = dag.make(prng, 0, 0, vec![]);
    let mut tips: Vec<Reference> = (0..size).map(|authority| dag.make(prng, authority, 1, vec![root])).collect();
    for round in 2..prng.from(4, 12) {
        for authority in 0..size {
            let mut includes = vec![tips[authority as usize]];
            if prng.chance(30) {
                includes.push(*prng.pick(&tips));
            }
            includes.retain(|include| include.round < round);
            if dag.fits(1, includes.len()) {
                tips[authority as usize] = dag.make(prng, authority, round, includes);
            }
        }
    }
    let mut offers = dag.blocks;
    let root = offers.remove(0);
    match prng.below(3) {
        0 => offers.reverse(),
        1 => prng.shuffle(&mut offers),
        _ => {}
    }
    offers.push(root);
    Stream { header: setting.header, offers }
}

/// More blocks than there is room for.
fn full_of_blocks(prng: &mut Prng) -> Stream {
    let setting = header::any(prng);
    let mut dag = Dag::new(prng);
    let count = prng.from(127, 132);
    for i in 0..count {
        let authority = prng.below(setting.size());
        let round = prng.below(3);
        let parents = dag.at(0).to_vec();
        let includes = if round > 0 && i % 2 == 0 && !parents.is_empty() { vec![*prng.pick(&parents)] } else { vec![] };
        dag.make(prng, authority, round, includes);
    }
    let mut offers = dag.blocks;
    let again = offers[prng.below(count) as usize].clone();
    let last = offers[count as usize - 1].clone();
    let bad = order::spoiled(prng, setting.size(), last);
    offers.extend([again, bad]);
    Stream { header: setting.header, offers }
}

/// More includes than there is room for.
fn full_of_includes(prng: &mut Prng) -> Stream {
    let setting = header::any(prng);
    let mut dag = Dag::new(prng);
    let author = prng.below(setting.size());
    let mut below = dag.make(prng, author, 0, vec![]);
    let mut left = 256;
    let rounds = prng.from(2, 6);
    for round in 1..=rounds {
        let count = match round {
            _ if round == rounds => left + prng.below(3) - 1,
            _ => prng.below(256 / rounds + 20).min(left),
        };
        left -= count.min(left);
        let lost = prng.chance(10);
        let parent = if lost { dag.fresh(prng, author, round - 1) } else { below };
        below = dag.make(prng, author, round, vec![parent; count as usize]);
    }
    if prng.chance(30) {
        let includes = vec![below; prng.from(1, 511) as usize];
        dag.make(prng, author, rounds + 1, includes);
    }
    Stream { header: setting.header, offers: dag.blocks }
}

/// Hardly anything.
fn alone(prng: &mut Prng) -> Stream {
    let setting = header::any(prng);
    let mut offers = vec![];
    if prng.chance(50) {
        let mut dag = Dag::new(prng);
        let author = prng.below(setting.size());
        let round = *prng.pick(&[0, 1, 4, 5]);
        dag.make(prng, author, round, vec![]);
        offers = dag.blocks;
    }
    Stream { header: setting.header, offers }
}

/// A setting of this size and any kind.
fn any_of_size(prng: &mut Prng, size: u64) -> Setting {
    let wave_length = prng.from(4, 6);
    let pipelined = prng.chance(50);
    header::with(prng, size, wave_length, pipelined)
}

/// A world's blocks as offers, in some order and with some disturbance.
fn offered(prng: &mut Prng, world: fn(&mut Prng) -> World) -> Stream {
    let World { setting, blocks } = world(prng);
    let mut offers = order::arrival(prng, blocks);
    if prng.chance(40) {
        order::disturb(prng, setting.size(), &mut offers);
    }
    Stream { header: setting.header, offers }
}

/// Seldom, damage to a value of the header or to the bytes.
fn damaged(prng: &mut Prng, mut stream: Stream) -> Case {
    if !prng.chance(12) {
        return Case::sound(stream);
    }
    let size = stream.header.stakes.len() as u64;
    let length = stream.bytes().len() as u64;
    let header = stream.header.bytes().len() as u64;
    let damage = match prng.below(12) {
        0 => {
            stream.header.wave_length = prng.below(4);
            Damage::None
        }
        1 if size < 128 => {
            stream.header.leaders = prng.from(size + 1, 128);
            Damage::None
        }
        2 => {
            stream.header.stakes[prng.below(size) as usize] = 0;
            Damage::None
        }
        3 if size > 1 => {
            stream.header.stakes[0] = (1 << 63) - 1;
            Damage::None
        }
        4 if (21 + 63 * size) % 8 != 0 => Damage::HeaderPadding,
        5 => Damage::Cut(prng.below(header) as usize),
        6 => Damage::Cut(0),
        7..=8 => Damage::Cut(prng.from(header, length) as usize),
        9 => Damage::Tail((0..prng.from(1, 60)).map(|_| prng.word() as u8).collect()),
        _ => padded_offer(prng, &stream),
    };
    Case { stream, damage }
}

/// A set padding bit in some offer that has padding.
fn padded_offer(prng: &mut Prng, stream: &Stream) -> Damage {
    let offers = stream.offers.iter().enumerate();
    let with_padding: Vec<_> = offers.filter(|(_, offer)| offer.includes.len() % 8 != 0).collect();
    if with_padding.is_empty() {
        return Damage::None;
    }
    Damage::OfferPadding(prng.pick(&with_padding).0)
}
