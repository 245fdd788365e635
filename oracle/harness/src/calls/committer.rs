//! Elections, decisions and `try_commit`.

use std::{collections::HashSet, sync::Arc};

use mysticeti_core::{
    committee::Committee,
    consensus::{
        base_committer::{BaseCommitter, BaseCommitterOptions},
        universal_committer::{access, UniversalCommitter, UniversalCommitterBuilder},
        LeaderStatus,
    },
    metrics::Metrics,
    types::BlockReference,
};

use super::{
    committee::committee,
    request::{padded, put_slice, Request},
    store::{Stored, MAX_STEPS},
    tables::StoredWords,
    Answer, Stop,
};
use crate::{
    budget::{Searches, STEPS},
    limits::{check_options, Refusal, MAX_CLOCK_ROUND, MAX_LEADER_OFFSET, MAX_ROUND, MAX_WAVE_LENGTH, MIN_WAVE_LENGTH},
    positions::{count, examined, Extent, Options},
    text::{unless_two_certified, NOBODY},
};

const STATUS_WORDS: usize = 4;
const COMMIT: u64 = 1;
const SKIP: u64 = 2;
const UNDECIDED: u64 = 3;

/// The options of one base committer: wave length, leader offset, round offset, pipelined.
fn base_options(request: &mut Request) -> Result<BaseCommitterOptions, Refusal> {
    let options = BaseCommitterOptions {
        wave_length: request.number(),
        leader_offset: request.number(),
        round_offset: request.number(),
        pipelined: request.number() == 1,
    };
    let good = (MIN_WAVE_LENGTH..=MAX_WAVE_LENGTH).contains(&options.wave_length)
        && options.leader_offset <= MAX_LEADER_OFFSET
        && options.round_offset < options.wave_length;
    good.then_some(options).ok_or(Refusal::BadOptions)
}

/// The options of a universal committer: wave length, leaders, pipelined.
fn options(request: &mut Request, committee: &Committee) -> Result<Options, Refusal> {
    let (wave_length, leaders) = (request.number(), request.number());
    let pipelined = request.number() == 1;
    check_options(wave_length, leaders, committee.len() as u64)?;
    Ok(Options { wave_length, leaders, pipelined })
}

/// The stored side, for a committee.
fn stored(request: &mut Request, committee: &Committee) -> Result<Stored, Refusal> {
    let blocks = StoredWords::read(request).blocks(committee.len() as u64)?;
    Ok(Stored::new(blocks, NOBODY))
}

/// The options of a base committer that is given none.
pub fn default_options(_: &mut Request) -> Answer {
    let options = BaseCommitterOptions::default();
    Ok(vec![options.wave_length, options.leader_offset, options.round_offset, options.pipelined as u64])
}

pub fn elect_leader(request: &mut Request) -> Answer {
    let committee = committee(request)?;
    let options = base_options(request)?;
    let round = request.number();
    if round > MAX_ROUND {
        return Err(Refusal::BadArgument.into());
    }
    let stored = Stored::new(vec![], NOBODY);
    let elected = base(&committee, &stored, options).elect_leader(round);
    Ok(vec![elected.is_some() as u64, elected.unwrap_or(0)])
}

fn base(committee: &Arc<Committee>, stored: &Stored, options: BaseCommitterOptions) -> BaseCommitter {
    BaseCommitter::new(committee.clone(), stored.text.store.clone()).with_options(options)
}

pub fn try_direct_decide(request: &mut Request) -> Answer {
    let committee = committee(request)?;
    let options = base_options(request)?;
    let wave_length = options.wave_length;
    let stored = stored(request, &committee)?;
    let committer = base(&committee, &stored, options);
    let (leader, round) = elected(request, &committer)?;
    within_budget(&stored, &[(leader, round)], wave_length)?;
    let status = unless_two_certified(|| committer.try_direct_decide(leader, round));
    Ok(status_words(&stored, &status.map_err(|_| Refusal::TwoCertified)?))
}

pub fn try_indirect_decide(request: &mut Request) -> Answer {
    let committee = committee(request)?;
    let options = base_options(request)?;
    let wave_length = options.wave_length;
    let stored = stored(request, &committee)?;
    let committer = base(&committee, &stored, options);
    let position = elected(request, &committer);
    let statuses = statuses(&request.slice(), &stored, &committee, UNDECIDED)?;
    let (leader, round) = position?;
    if request.index() < stored.blocks.len() {
        return Err(Refusal::ShortArea.into());
    }
    within_budget(&stored, &[(leader, round)], wave_length)?;
    if statuses.iter().any(|status| status.round().saturating_sub(round) > MAX_STEPS) {
        return Err(Stop::LeftOut);
    }
    let status = unless_two_certified(|| committer.try_indirect_decide(leader, round, statuses.iter()));
    Ok(status_words(&stored, &status.map_err(|_| Refusal::TwoCertified)?))
}

/// A position that the committer elects.
fn elected(request: &mut Request, committer: &BaseCommitter) -> Result<(u64, u64), Refusal> {
    let (leader, round) = (request.number(), request.number());
    if round > MAX_ROUND || committer.elect_leader(round) != Some(leader) {
        return Err(Refusal::BadArgument);
    }
    Ok((leader, round))
}

fn within_budget(stored: &Stored, positions: &[(u64, u64)], wave_length: u64) -> Result<(), Stop> {
    let searches = Searches::new(&stored.blocks);
    let steps = positions.iter().map(|position| searches.steps(*position, wave_length));
    let total = steps.fold(0u64, u64::saturating_add);
    if total > STEPS {
        Err(Stop::LeftOut)
    } else {
        Ok(())
    }
}

/// The statuses of a sound list whose kinds go up to `kinds`.
fn statuses(words: &[u64], stored: &Stored, committee: &Committee, kinds: u64) -> Result<Vec<LeaderStatus>, Refusal> {
    if words.len() % STATUS_WORDS != 0 {
        return Err(Refusal::BadTable);
    }
    let rows = words.chunks(STATUS_WORDS);
    rows.map(|row| status(row, stored, committee, kinds).ok_or(Refusal::BadTable)).collect()
}

fn status(row: &[u64], stored: &Stored, committee: &Committee, kinds: u64) -> Option<LeaderStatus> {
    let [authority, round, kind, block] = row.try_into().ok()?;
    if !committee.known_authority(authority) || round > MAX_ROUND || kind > kinds {
        return None;
    }
    match kind {
        COMMIT => {
            let reference = stored.blocks.get(block as usize)?.reference;
            let there = (reference.authority, reference.round) == (authority, round);
            there.then(|| LeaderStatus::Commit(stored.text_block(block as usize)))
        }
        SKIP if block == 0 => Some(LeaderStatus::Skip(authority, round)),
        UNDECIDED if block == 0 => Some(LeaderStatus::Undecided(authority, round)),
        _ => None,
    }
}

/// The four words of a status.
fn status_words(stored: &Stored, status: &LeaderStatus) -> Vec<u64> {
    let (kind, row) = match status {
        LeaderStatus::Commit(block) => (COMMIT, stored.row(block)),
        LeaderStatus::Skip(..) => (SKIP, 0),
        LeaderStatus::Undecided(..) => (UNDECIDED, 0),
    };
    vec![status.authority(), status.round(), kind, row]
}

fn universal(committee: &Arc<Committee>, stored: &Stored, options: Options) -> UniversalCommitter {
    let metrics = Arc::new(Metrics::default());
    UniversalCommitterBuilder::new(committee.clone(), stored.text.store.clone(), metrics)
        .with_wave_length(options.wave_length)
        .with_number_of_leaders(options.leaders as usize)
        .with_pipeline(options.pipelined)
        .build()
}

/// The number of leaders and the area.
pub fn get_leaders(request: &mut Request) -> Answer {
    let committee = committee(request)?;
    let options = options(request, &committee)?;
    let (round, area) = (request.number(), request.index());
    if round > MAX_ROUND {
        return Err(Refusal::BadArgument.into());
    }
    let stored = Stored::new(vec![], NOBODY);
    let leaders = universal(&committee, &stored, options).get_leaders(round);
    if leaders.len() > area {
        return Err(Refusal::ShortArea.into());
    }
    let mut values = vec![leaders.len() as u64];
    put_slice(&mut values, &padded(leaders, area));
    Ok(values)
}

/// The decision memory of a request.
struct Memory {
    statuses: Vec<LeaderStatus>,
    words: Vec<u64>,
}

impl Memory {
    fn read(request: &mut Request, stored: &Stored, committee: &Committee) -> Result<Self, Refusal> {
        let (words, count) = (request.slice(), request.index());
        let used = count.checked_mul(STATUS_WORDS).filter(|used| *used <= words.len());
        let used = used.ok_or(Refusal::BadTable)?;
        let statuses = statuses(&words[..used], stored, committee, SKIP)?;
        let mut positions = HashSet::new();
        let distinct = statuses.iter().all(|status| positions.insert((status.authority(), status.round())));
        let unused_zero = words[used..].iter().all(|word| *word == 0);
        if words.len() % STATUS_WORDS != 0 || !distinct || !unused_zero {
            return Err(Refusal::BadTable);
        }
        Ok(Self { statuses, words })
    }

    fn rows(&self) -> usize {
        self.words.len() / STATUS_WORDS
    }
}

/// The number of statuses, the answer area, the number of remembered decisions and the memory.
pub fn try_commit(request: &mut Request) -> Answer {
    let committee = committee(request)?;
    let options = options(request, &committee)?;
    let stored = stored(request, &committee)?;
    let memory = Memory::read(request, &stored, &committee)?;
    let (authority, last_decided, threshold) = (request.number(), request.number(), request.number());
    let (answer, work) = (request.index(), request.index());
    if answer % STATUS_WORDS != 0 {
        return Err(Refusal::BadTable.into());
    }
    if !committee.known_authority(authority) || last_decided > MAX_ROUND || threshold > MAX_CLOCK_ROUND {
        return Err(Refusal::BadArgument.into());
    }
    let extent = Extent { last_decided, highest: stored.text.store.highest_round(), threshold };
    if count(options, extent) > (answer / STATUS_WORDS) as u128 || work < stored.blocks.len() {
        return Err(Refusal::ShortArea.into());
    }
    let positions = examined(options, extent, committee.len() as u64);
    let position = BlockReference { authority, round: last_decided, digest: Default::default() };
    let (statuses, memory) = decided(&committee, options, &stored, memory, position, extent, &positions)?;
    let mut values = vec![statuses.len() as u64];
    let rows = statuses.iter().flat_map(|status| status_words(&stored, status)).collect();
    put_slice(&mut values, &padded(rows, answer));
    values.push(memory.statuses.len() as u64);
    let rows = memory.statuses.iter().flat_map(|status| status_words(&stored, status)).collect();
    put_slice(&mut values, &padded(rows, memory.words.len()));
    Ok(values)
}

/// The text's statuses and the memory after it, new decisions in the order reached.
fn decided(
    committee: &Arc<Committee>,
    options: Options,
    stored: &Stored,
    mut memory: Memory,
    last_decided: BlockReference,
    extent: Extent,
    positions: &[(u64, u64)],
) -> Result<(Vec<LeaderStatus>, Memory), Stop> {
    if positions.is_empty() {
        return Ok((vec![], memory));
    }
    if extent.highest - extent.last_decided > MAX_STEPS {
        return Err(Stop::LeftOut);
    }
    within_budget(stored, positions, options.wave_length)?;
    let mut committer = universal(committee, stored, options);
    for status in &memory.statuses {
        access::remember(&mut committer, status.clone());
    }
    let statuses = unless_two_certified(|| committer.try_commit(last_decided, extent.threshold))
        .map_err(|_| Refusal::TwoCertified)?;
    let before: HashSet<_> = memory.statuses.iter().map(|status| (status.authority(), status.round())).collect();
    for position in positions.iter().filter(|position| !before.contains(position)) {
        let remembered = access::remembered(&committer, position.0, position.1);
        memory.statuses.extend(remembered.cloned());
    }
    assert_eq!(memory.statuses.len(), access::count(&committer), "the text remembers other positions");
    if memory.statuses.len() > memory.rows() {
        return Err(Refusal::Full.into());
    }
    Ok((statuses, memory))
}
