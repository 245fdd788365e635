//! Blocks of every kind, parents first: random DAGs, and some that aim at what those seldom reach.

use stream::{Block, Reference};

use crate::{
    dag::{Dag, Habits},
    header::{self, Setting},
    prng::Prng,
};

/// A committee with blocks that stand after all they include.
pub struct World {
    pub setting: Setting,
    pub blocks: Vec<Block>,
}

/// A random DAG.
pub fn rounds(prng: &mut Prng) -> World {
    let setting = header::any(prng);
    let habits = Habits::any(prng);
    let mut dag = Dag::new(prng);
    let first = u64::from(prng.chance(10));
    let waves = prng.from(2, 6);
    dag.grow(prng, &setting, &habits, first, waves * setting.header.wave_length);
    World { setting, blocks: dag.blocks }
}

/// A random DAG of few authorities and few rounds.
pub fn small(prng: &mut Prng) -> World {
    let size = prng.from(1, 4);
    let pipelined = prng.chance(50);
    let setting = header::with(prng, size, 4, pipelined);
    let habits = Habits::any(prng);
    let mut dag = Dag::new(prng);
    let last = prng.from(0, 10);
    dag.grow(prng, &setting, &habits, 0, last);
    World { setting, blocks: dag.blocks }
}

/// A DAG nearly of one authority, long enough for a long wave.
pub fn long_wave(prng: &mut Prng) -> World {
    let size = *prng.pick(&[1, 1, 2, 3, 5, 60]);
    let wave_length = *prng.pick(&[63, 63, 62, 40, 30, 16]);
    let pipelined = prng.chance(60);
    let mut setting = header::with(prng, size, wave_length, pipelined);
    setting.active = vec![prng.below(size)];
    let ruler = setting.active[0] as usize;
    setting.header.stakes = vec![1; size as usize];
    setting.header.stakes[ruler] = 3 * size;
    let mut habits = Habits::any(prng);
    (habits.present, habits.strong, habits.empty) = (100, 100, 0);
    habits.twin = habits.twin.min(4);
    let mut dag = Dag::new(prng);
    dag.grow(prng, &setting, &habits, 0, 126);
    World { setting, blocks: dag.blocks }
}

/// A DAG of few authorities and many rounds: about 80 to 126 blocks, as far as there is room.
pub fn many(prng: &mut Prng) -> World {
    let size = *prng.pick(&[1, 2, 3, 4, 7, 40]);
    let wave_length = prng.from(4, 6);
    let pipelined = prng.chance(65);
    let mut setting = header::with(prng, size, wave_length, pipelined);
    let authors = setting.active.len().min(prng.from(1, 3) as usize);
    for other in setting.active.drain(authors..) {
        setting.header.stakes[other as usize] = 1;
    }
    let rounds = prng.from(80, 126) / authors as u64;
    setting.header.leaders = setting.header.leaders.min(126 / rounds);
    let mut habits = Habits::any(prng);
    (habits.present, habits.strong) = (*prng.pick(&[100, 100, 90]), *prng.pick(&[100, 90, 75]));
    (habits.twin, habits.empty) = (habits.twin.min(10), habits.empty.min(5));
    let mut dag = Dag::new(prng);
    dag.grow(prng, &setting, &habits, 0, rounds);
    World { setting, blocks: dag.blocks }
}

/// A DAG, then a block far above it.
pub fn jump(prng: &mut Prng) -> World {
    let setting = header::any(prng);
    let mut dag = Dag::new(prng);
    let last = prng.from(0, 8);
    let habits = Habits::any(prng);
    dag.grow(prng, &setting, &habits, 0, last);
    let round = match prng.below(4) {
        0 => (1 << 40) - 1,
        1 => prng.from(1 << 39, (1 << 40) - 1),
        2 => prng.from(100, 140),
        _ => prng.from(20, 1000),
    };
    let author = prng.below(setting.size());
    let includes = dag.blocks.last().filter(|_| prng.chance(50)).map(|block| block.reference);
    dag.make(prng, author, round, includes.into_iter().collect());
    World { setting, blocks: dag.blocks }
}

/// One authority rules and there are many leaders, so that many positions are decided.
pub fn full_memory(prng: &mut Prng) -> World {
    let size = prng.from(8, 40);
    let pipelined = prng.chance(80);
    let wave_length = prng.from(4, 5);
    let mut setting = header::with(prng, size, wave_length, pipelined);
    setting.active = vec![prng.below(size)];
    setting.header.stakes = vec![1; size as usize];
    setting.header.stakes[setting.active[0] as usize] = 3 * size;
    setting.header.leaders = if pipelined { prng.from(size / 2, size.min(24)) } else { size };
    let mut habits = Habits::any(prng);
    (habits.present, habits.strong, habits.twin) = (100, 100, 0);
    let mut dag = Dag::new(prng);
    let last = prng.from(15, 60);
    dag.grow(prng, &setting, &habits, 0, last);
    World { setting, blocks: dag.blocks }
}

/// Two DAGs of the same authorities side by side, as if all were cheating.
pub fn split(prng: &mut Prng) -> World {
    let size = prng.from(1, 3);
    let pipelined = prng.chance(50);
    let wave_length = prng.from(4, 6);
    let setting = any_sized(prng, size, wave_length, pipelined);
    let fork = prng.below(6);
    let rounds = fork + wave_length + prng.from(0, 5);
    let mut dag = Dag::new(prng);
    let mut sides = vec![vec![], vec![]];
    for round in 0..=rounds {
        let below = std::mem::replace(&mut sides, vec![vec![], vec![]]);
        for (side, tips) in below.iter().enumerate().take(if round < fork { 1 } else { 2 }) {
            let from = if round == fork { &below[0] } else { tips };
            for author in &setting.active {
                if dag.fits(1, from.len()) {
                    let made = dag.make(prng, *author, round, from.clone());
                    sides[side].push(made);
                }
            }
        }
    }
    World { setting, blocks: dag.blocks }
}

/// Two leader blocks certified by blocks that pass over the voting round, so that nobody is blamed there.
pub fn blind_split(prng: &mut Prng) -> World {
    let size = prng.from(1, 3);
    let wave_length = prng.from(4, 5);
    let pipelined = prng.chance(80);
    let setting = any_sized(prng, size, wave_length, pipelined);
    let first = if pipelined { prng.below(4) } else { 0 };
    let indirect = prng.chance(50);
    let mut dag = Dag::new(prng);
    let mut base = vec![];
    for round in 0..first {
        base = layer(prng, &mut dag, &setting, round, &base);
    }
    let mut certificates = vec![];
    for side in 0..2 {
        let leaders = layer(prng, &mut dag, &setting, first, &base);
        let votes = layer(prng, &mut dag, &setting, first + 1, &leaders);
        let decision = first + wave_length - 1;
        if indirect {
            let author = setting.active[side % setting.active.len()];
            certificates.push(dag.make(prng, author, decision, votes));
        } else {
            certificates.extend(layer(prng, &mut dag, &setting, decision, &votes));
        }
    }
    for round in first + wave_length..=first + 2 * wave_length + 1 {
        certificates = layer(prng, &mut dag, &setting, round, &certificates);
    }
    World { setting, blocks: dag.blocks }
}

/// Twins whose certificates an anchor sees only later.
pub fn late_split(prng: &mut Prng) -> World {
    let setting = any_sized(prng, 4, 4, false);
    let habits = Habits { present: 75, strong: 60, weak: 20, repeat: 5, twin: 60, lag: 10, guest: 0, empty: 0 };
    let mut dag = Dag::new(prng);
    dag.grow(prng, &setting, &habits, 0, 14);
    World { setting, blocks: dag.blocks }
}

/// A block of each active authority, including all of the given ones.
fn layer(prng: &mut Prng, dag: &mut Dag, setting: &Setting, round: u64, below: &[Reference]) -> Vec<Reference> {
    let authors = setting.active.iter();
    authors.map(|author| dag.make(prng, *author, round, below.to_vec())).collect()
}

/// A setting of this size, all of whose authorities are active.
fn any_sized(prng: &mut Prng, size: u64, wave_length: u64, pipelined: bool) -> Setting {
    let mut setting = header::with(prng, size, wave_length, pipelined);
    setting.active = (0..size).collect();
    setting
}
